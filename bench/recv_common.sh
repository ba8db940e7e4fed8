# What the scripts about `rist recv` share; it is read by them, not run.
# Where a tool isn't there they end with status 3, where this program has no `recv` with status 4.

# Says what isn't there, and ends.
need() {
    for tool in "$@"; do
        case $tool in
        rist*) from=' (Debian: rist-tools)' ;;
        *) from= ;;
        esac
        command -v "$tool" > /dev/null || { echo "no $tool here$from"; exit 3; }
    done
}

# Builds the program where it isn't built yet, and sees that it has `recv`: one turn on a link ends by itself.
need_recv() {
    "$top/bin/rist" recv /dev/null 127.0.0.1:5000 --turns 1 > "$work/log" 2>&1 && return
    status=$?
    if [ "$status" = 2 ]; then
        echo 'this rist has no recv'
        exit 4
    fi
    cat "$work/log"
    exit 1
}

# Waits until a file has a line `ready`, at most 5 s.
await_ready() {
    for _ in $(seq 50); do
        grep -q ready "$1" 2> /dev/null && return
        sleep 0.1
    done
    echo "$1: not ready"
    exit 1
}
