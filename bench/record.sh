#!/bin/sh
# Sends a stream from `rist send` to `rist recv --record` over loopback, on two links that lose 5 per cent of the datagrams each way, in
# clear and under a passphrase that both ends read from a file. A replay of the record must give what `recv` wrote, octet for octet. Where
# a file system of 1 MB can be mounted, a record that fills it must be told on the error output, and the stream must be received all the
# same. The script ends with 1 where that doesn't hold. It takes a minute, needs python3, and writes only below a new folder in /tmp.
# Where a tool isn't there it says so and ends with status 3, without `recv` with status 4.
# Words: how many pieces (10000), and a built program that stands for bin/rist (none).
set -eu
count=${1:-10000} program=${2:-}
here=$(cd "$(dirname "$0")" && pwd)
top=$(dirname "$here")
. "$here/recv_common.sh"
need python3 cmp
work=$(mktemp -d /tmp/record.XXXXXX)
mounted=
relay=
trap '[ -z "$relay" ] || kill $relay 2> /dev/null || true; [ -z "$mounted" ] || umount "$mounted"; rm -rf "$work"' EXIT
if [ -z "$program" ]; then
    need_recv
    program=$top/crates/rist/out/rist
fi
python3 "$here/pieces.py" make "$work/source" "$count"
echo 'a passphrase of some words' > "$work/key"
bad=0

# fail TEXT
fail() {
    echo "FAILED: $1"
    bad=1
}

# run RECORD WORDS: the stream through the relay, recorded.
run() {
    record=$1
    shift
    python3 "$here/relay.py" --lose 5 --lose-back 5 6000:5000 6002:5002 > "$work/relay" 2>&1 &
    relay=$!
    await_ready "$work/relay"
    "$program" recv "$work/came" 127.0.0.1:5000 127.0.0.1:5002 --idle 4000 --record "$record" "$@" 2> "$work/recv" &
    recv=$!
    sleep 0.5
    "$program" send "$work/source" 127.0.0.1:6000 127.0.0.1:6002 --gap 1000 "$@" 2> "$work/send" || fail "send: $(cat "$work/send")"
    wait $recv || fail "recv: $(cat "$work/recv")"
    kill $relay 2> /dev/null || true
    wait $relay || true
    relay=
    cat "$work/recv"
}

# replayed WORDS: a replay of the record gives what came.
replayed() {
    "$program" replay "$work/record" "$work/replayed" "$@" || fail 'replay'
    cmp "$work/came" "$work/replayed" && echo 'the replay is the same' || fail 'the replay differs'
}

echo 'in clear'
run "$work/record"
replayed
echo 'under a passphrase'
run "$work/record" --profile main --pass-file "$work/key"
replayed --profile main --pass-file "$work/key"
mkdir "$work/full"
if mount -t tmpfs -o size=1m none "$work/full" 2> /dev/null; then
    mounted=$work/full
    echo 'on a full disk'
    run "$work/full/record"
    grep -q 'the record of a link ends here' "$work/recv" || fail 'nothing was said of the end of the record'
    cmp "$work/source" "$work/came" || fail 'the stream was not received'
else
    echo 'no tmpfs can be mounted here: a full disk was not tried'
fi
exit $bad
