# Completion of jabulghi's commands, options and files for bash.
_jabulghi() {
    local word=${COMP_WORDS[COMP_CWORD]} before=${COMP_WORDS[COMP_CWORD - 1]} command=${COMP_WORDS[1]:-} options
    COMPREPLY=()
    if [ "$COMP_CWORD" -eq 1 ]; then
        mapfile -t COMPREPLY < <(compgen -W 'list legs level misses job check tolerance noise seeds help --help --version' -- "$word")
        return
    fi
    case $before in
    --bits) mapfile -t COMPREPLY < <(compgen -W '16 18' -- "$word") && return ;;
    --sigma | --seeds | --trip | --plays | --runs | --first | --run | --miss | --jobs | --skip | --from | --loop | -n) return ;;
    help) mapfile -t COMPREPLY < <(compgen -W 'list legs level misses job check tolerance noise seeds' -- "$word") && return ;;
    esac
    case $command in
    list) options='--sigma --seeds --skip --run --from --loop --svx -o --help' ;;
    level) options='--loop -o --help' ;;
    job) options='--sigma --seeds --skip --run --loop -o --help' ;;
    tolerance) options='--sigma --seeds --loop --runs --first --run --miss --jobs --csv --json --svg --merge -o --help' ;;
    check) options='--sigma --trip --plays --seeds --first --jobs --loops --json --svg --merge -o --help' ;;
    noise) options='-n --seeds --skip --bits --sigma --text --raw -o --help' ;;
    *) options='-o --help' ;;
    esac
    if [[ $word == -* ]]; then
        mapfile -t COMPREPLY < <(compgen -W "$options" -- "$word")
    else
        mapfile -t COMPREPLY < <(compgen -f -- "$word")
    fi
}
complete -o filenames -F _jabulghi jabulghi
