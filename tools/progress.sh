# shellcheck shell=bash
# How long runs show on a terminal, on standard error, what is under way; elsewhere these functions print nothing of their own.

# under_way TEXT: the line that is written over; without a text it is removed.
under_way() {
    if [ -t 2 ]; then printf '\r\033[K%s' "${1:-}" >&2; fi
}

# clock SECONDS
clock() { printf '%d:%02d' $(($1 / 60)) $(($1 % 60)); }

# follow PROCESS FILE NAME: until a process of this shell ends, prints the lines of the file that it writes as they come, after NAME.
follow() {
    local shown=0 lines start=$SECONDS alive=1
    while [ $alive = 1 ]; do
        kill -0 "$1" 2>/dev/null || alive=0
        lines=$(wc -l <"$2")
        if [ "$lines" -gt "$shown" ]; then
            under_way
            sed -n "$((shown + 1)),${lines}s/^/$3: /p" "$2"
            shown=$lines
        fi
        if [ $alive = 1 ]; then
            under_way "$3, $(clock $((SECONDS - start)))"
            sleep 0.3
        fi
    done
    under_way
}
