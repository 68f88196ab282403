# shellcheck shell=bash
# What tests share: how they leave out what they cannot run, and how they start what sometimes fails to start.

# left_out WHAT NEEDS [PACKAGE..]: says that a test is not run and what it needs. tests/run counts these lines.
left_out() { echo "NOT RUN: $1, which needs $2${3:+ (Debian: ${*:3})}"; }

# not_here WHAT NEEDS: the same where no package gives what it needs: a document, the network, a processor. tests/run counts these lines apart.
not_here() { echo "NOT HERE: $1, which needs $2"; }

# has COMMAND WHAT [PACKAGE..]: whether a command is there; if not, what needs it is left out.
has() {
    if "$1" --version >/dev/null 2>&1; then return; fi
    left_out "$2" "$1" "${@:3}"
    return 1
}

# twice COMMAND..: a browser or an emulator that fails to start is started once more.
twice() {
    if "$@"; then return; fi
    echo "once more: $*" >&2
    "$@"
}

# emulated FILE COMMAND..: runs it, once more if it fails, and gives what it prints; the FILE is where that is kept meanwhile.
emulated() {
    twice kept_in "$@"
    cat "$1"
}
kept_in() { "${@:2}" >"$1"; }

# block LANGUAGE PAGE: the blocks of code of a page in this language.
block() {
    local fence='```'
    sed -n "/^$fence$1\$/,/^$fence\$/p" "$2" | sed "/^$fence/d"
}

# run_cases "CASE.." [NAME..]: runs the functions of these names, or all of them. The script has a function `failed`.
run_cases() {
    local all case
    read -ra all <<<"$1"
    shift
    [ $# -gt 0 ] || set -- "${all[@]}"
    for case; do
        [[ " ${all[*]} " == *" $case "* ]] || failed "no case '$case'; there are: ${all[*]}"
        "$case"
    done
}
