#!/bin/sh
# Links by names and by URLs: a stream of 2,000 pieces of 1,316 octets from `rist send` to `rist recv` over rist://localhost, by a name
# alone, and with a URL's parameters in place of options; then faulty URLs, and a name that has no address, each with its status and
# the last line of its error output. It takes half a minute, needs python3, uses 127.0.0.1 alone and writes only below a new folder in /tmp.
# Where a tool isn't there it says so and ends with status 3, without `recv` with status 4. It ends with 1 where anything differs.
set -eu
here=$(cd "$(dirname "$0")" && pwd)
top=$(dirname "$here")
. "$here/recv_common.sh"
need python3 timeout
work=$(mktemp -d /tmp/names.XXXXXX)
receiver=
trap '[ -z "$receiver" ] || kill "$receiver" 2> /dev/null || true; rm -rf "$work"' EXIT
need_recv
python3 "$here/pieces.py" make "$work/source" 2000
bad=0

# stream RECV_LINK SEND_LINK WORDS..: the stream from one link to the other, both with these words.
stream() {
    into=$1
    onto=$2
    shift 2
    timeout 60 "$top/bin/rist" recv "$work/came" "$into" --idle 3000 "$@" > "$work/log" 2>&1 &
    receiver=$!
    sleep 0.5
    timeout 60 "$top/bin/rist" send "$work/source" "$onto" --linger 1500 "$@" || bad=1
    wait "$receiver" || bad=1
    receiver=
    if cmp -s "$work/source" "$work/came"; then
        echo "$onto to $into: all came"
    else
        echo "$onto to $into: something is missing"
        cat "$work/log"
        bad=1
    fi
}

stream 'rist://localhost:5000' 'rist://localhost:5000'
stream 'rist://@127.0.0.1:5000?buffer=500' 'localhost:5000'
stream 'rist://@localhost:5000?buffer=500&secret=two%words&aes-type=256' 'rist://localhost:5000?secret=two%words&aes-type=256' --profile main

# refused STATUS TEXT WORDS..: the words end with this status, and the last line of the error output is this text.
refused() {
    status=$1
    text=$2
    shift 2
    found=0
    timeout 60 "$top/bin/rist" "$@" > "$work/out" 2> "$work/log" || found=$?
    said=$(tail -n 1 "$work/log")
    if [ "$found" = "$status" ] && [ "$said" = "rist: $text" ]; then
        echo "$*: $text"
    else
        echo "$*: status $found and '$said', not status $status and 'rist: $text'"
        bad=1
    fi
}

refused 3 'no address: nobody.invalid' send "$work/source" rist://nobody.invalid:5000
refused 3 'no address: nobody.invalid' recv "$work/out.ts" 127.0.0.1:5000 nobody.invalid:5002
refused 2 'no HOST:PORT in rist://127.0.0.1' send "$work/source" rist://127.0.0.1
refused 2 'no HOST:PORT in rist://::1:5000' send "$work/source" 'rist://::1:5000'
refused 2 'no HOST:PORT in rist://u:p@localhost:5000' send "$work/source" rist://u:p@localhost:5000
refused 2 'cannot take @ in rist://@localhost:5000' send "$work/source" rist://@localhost:5000
refused 2 'cannot take buffer= in rist://localhost:5000' send "$work/source" 'rist://localhost:5000?buffer=500'
refused 2 'cannot take cname= in rist://localhost:5000' recv "$work/out.ts" 'rist://localhost:5000?secret=x&cname=studio'
refused 2 'cannot take weight= in rist://localhost:5000' send "$work/source" 'rist://localhost:5000?weight=5'
refused 2 'cannot take buffer= in rist://localhost:5000' gate 'rist://localhost:5000?buffer=500' 127.0.0.1:6000
[ "$bad" = 0 ] || exit 1
echo 'all as stated'
