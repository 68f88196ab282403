# shellcheck shell=sh
# install.sh install | uninstall: copies bin, include, lib and share, which are beside this script, below PREFIX (/usr/local), or removes them there.
# LIBDIR (lib) and MANDIR (share/man) are below PREFIX where they do not begin with a slash. DESTDIR comes before every name, for packagers.
set -eu
from=$(dirname "$0")
under() { case $2 in /*) printf %s "$2" ;; *) printf %s "$1/$2" ;; esac; }
prefix=$(under "$PWD" "${PREFIX:-/usr/local}")
libdir=$(under "$prefix" "${LIBDIR:-lib}")
mandir=$(under "$prefix" "${MANDIR:-share/man}")
cd "$from"

# place FILE: where it is installed.
place() {
    case $1 in
    lib/*) printf %s "${DESTDIR:-}$libdir/${1#lib/}" ;;
    share/man/*) printf %s "${DESTDIR:-}$mandir/${1#share/man/}" ;;
    *) printf %s "${DESTDIR:-}$prefix/$1" ;;
    esac
}

# quoted TEXT: as sed takes it; escaped TEXT: as pkg-config takes it, and then sed.
escaped() { quoted "$(printf %s "$1" | sed 's/[^A-Za-z0-9/._+,:@%-]/\\&/g')"; }
quoted() { printf %s "$1" | sed 's/[\\|&]/\\&/g'; }

# searched: whether programs find a shared library in LIBDIR by themselves.
searched() { case $libdir/ in /lib*/* | /usr/lib*/* | /usr/local/lib/*) return 0 ;; *) return 1 ;; esac }

# told: the lines to type before the command, pkg-config and the shared library are found.
told() {
    case :$PATH: in *":$prefix/bin:"*) ;; *) echo "    export PATH='$prefix/bin':\$PATH" ;; esac
    if searched; then
        [ ! -e lib/libjabulghi.so ] || echo "    ldconfig"
        return
    fi
    case :${PKG_CONFIG_PATH:-}: in *":$libdir/pkgconfig:"*) ;; *) echo "    export PKG_CONFIG_PATH='$libdir/pkgconfig'" ;; esac
    [ ! -e lib/libjabulghi.so ] || echo "    export LD_LIBRARY_PATH='$libdir'"
}

# emptied FILE: removes the folders below PREFIX that are empty without the file.
emptied() {
    folder=$(dirname "$1")
    while [ "$folder" != "${DESTDIR:-}$prefix" ] && [ "$folder" != / ] && rmdir "$folder" 2>/dev/null; do folder=$(dirname "$folder"); done
}

# put FILE TO: copies a file; what names folders gets the names of these.
put() {
    mkdir -p "$(dirname "$2")"
    rm -f "$2"
    case $1 in
    *.pc) sed "s|^prefix=.*|prefix=$(escaped "$prefix")|; s|^libdir=.*|libdir=$(escaped "$libdir")|" "$1" >"$2" ;;
    */jabulghiConfig.cmake) sed "s|^set(_jabulghi_prefix .*|set(_jabulghi_prefix \"$(quoted "$prefix")\")|" "$1" >"$2" ;;
    *) cp -P "$1" "$2" ;;
    esac
    case $1 in
    bin/* | lib/*.so.*.*) chmod 755 "$2" ;;
    *) [ -L "$2" ] || chmod 644 "$2" ;;
    esac
}

files=$(find bin include lib share ! -type d 2>/dev/null | LC_ALL=C sort)
case ${1:-} in
install)
    for file in $files; do put "$file" "$(place "$file")"; done
    echo "installed below ${DESTDIR:-}$prefix: $(echo "$files" | tr '\n' ' ')"
    if [ -z "${DESTDIR:-}" ] && [ -n "$(told)" ]; then
        echo "Type this before you use it:"
        told
    fi
    ;;
uninstall)
    for file in $files; do rm -f "$(place "$file")"; done
    for file in $files; do emptied "$(place "$file")"; done
    echo "removed below ${DESTDIR:-}$prefix: $(echo "$files" | tr '\n' ' ')"
    ;;
*) echo "install.sh install | uninstall, with PREFIX, LIBDIR, MANDIR and DESTDIR from the environment" >&2 && exit 2 ;;
esac
