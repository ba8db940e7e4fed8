#!/bin/sh
# Ends `rist recv`, `rist gate` and `rist send` by SIGTERM and by SIGINT in the middle of a stream of 100 Mbit/s over loopback. Each
# must end with status 0. Of a receiver each piece that it kept must be written, of a gateway each that it kept must have come at the
# next receiver, and of a sender each that it sent: a front part of the source, without a hole. Both print their counts. The script
# ends with 1 where that doesn't hold. What the gateway's delay lets wait, 3,000 pieces or those of a second, has room in the next
# receiver's socket. It takes a minute, needs python3 and a net.core.rmem_max of 4 MB, so that what the gateway sends on at once has
# room, uses 127.0.0.1 alone and writes only below a new folder in /tmp. Where a tool isn't there, or the buffer is smaller, it says
# so and ends with status 3, without `recv` with status 4.
# Words: microseconds between two pieces (105), and a built program that stands for bin/rist (none).
set -eu
gap=${1:-105} program=${2:-}
here=$(cd "$(dirname "$0")" && pwd)
top=$(dirname "$here")
. "$here/recv_common.sh"
need python3 env
[ "$(cat /proc/sys/net/core/rmem_max)" -ge 4194304 ] || { echo 'net.core.rmem_max is below 4194304 here'; exit 3; }
work=$(mktemp -d /tmp/clean_end.XXXXXX)
started=
trap 'kill -KILL $started 2> /dev/null || true; rm -rf "$work"' EXIT
if [ -n "$program" ]; then
    rist="env --block-signal=INT,TERM $program"
else
    need_recv
    rist=$top/bin/rist
fi
count=$((10000000 / gap)) delay=$((gap * 3))
[ $delay -le 1000 ] || delay=1000
python3 "$here/pieces.py" make "$work/source" "$count"
bad=0

# fail TEXT
fail() {
    echo "FAILED: $1"
    bad=1
}

# end_of NAME PID LOG: it ends within 20 s with status 0.
end_of() {
    (sleep 20; kill -KILL "$2" 2> /dev/null) > /dev/null 2>&1 &
    dog=$!
    status=0
    wait "$2" || status=$?
    kill -KILL $dog 2> /dev/null || true
    cat "$3"
    [ "$status" = 0 ] || fail "rist $1 ended with status $status"
}

# receive OUT PORT WORDS: a receiver whose buffer has room for a second of the stream.
receive() {
    $rist recv "$work/came" 127.0.0.1:$1 --span 16384 $2 > "$work/recv" 2>&1 &
    recv=$!
    started="$started $recv"
}

# send PORT: the source, in the background.
send() {
    $rist send "$work/source" "127.0.0.1:$1" --gap "$gap" --store 16384 > "$work/send" 2>&1 &
    send=$!
    started="$started $send"
}

# came KEPT: a front part of the source came, without a hole, at least a second of it and not the whole, and so many pieces, where that is
# said. Where a sender ends its last piece may be a part of one.
came() {
    octets=$(stat -c %s "$work/came")
    pieces=$(((octets + 1315) / 1316))
    echo "$octets octets came, in $pieces pieces"
    cmp -n "$octets" "$work/source" "$work/came" || fail 'a hole'
    [ "$pieces" -ge $((1000000 / gap)) ] && [ "$pieces" -lt "$count" ] || fail "$pieces of $count pieces came"
    [ -z "$1" ] || [ "$pieces" = "$1" ] || fail "$1 pieces were kept, and $pieces came"
}

# kept LOG: how many pieces the counts say were kept.
kept() {
    sed -n 's/^rist: kept \([0-9]*\),.*/\1/p' "$1"
}

for signal in TERM INT; do
    echo "SIG$signal to recv"
    receive 5000 ''
    sleep 0.5
    send 5000
    sleep 3
    kill -$signal $recv
    end_of recv $recv "$work/recv"
    n=$(kept "$work/recv")
    [ -n "$n" ] || fail 'no counts'
    came "${n:-0}"
    kill -$signal $send
    end_of send $send "$work/send"

    echo "SIG$signal to send"
    receive 5000 '--idle 3000'
    sleep 0.5
    send 5000
    sleep 3
    kill -$signal $send
    end_of send $send "$work/send"
    end_of recv $recv "$work/recv"
    came "$(kept "$work/recv")"

    echo "SIG$signal to gate"
    receive 5100 '--idle 3000'
    $rist gate 127.0.0.1:5000 127.0.0.1:5100 --delay "$delay" --span 16384 --store 16384 > "$work/gate" 2>&1 &
    gate=$!
    started="$started $gate"
    sleep 0.5
    send 5000
    sleep 3
    kill -$signal $gate
    end_of gate $gate "$work/gate"
    end_of recv $recv "$work/recv"
    n=$(kept "$work/gate")
    [ -n "$n" ] || fail 'no counts'
    came "${n:-0}"
    kill -$signal $send
    end_of send $send "$work/send"
    started=
done
exit $bad
