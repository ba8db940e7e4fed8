#!/bin/sh
# Sends a live `rist recv` hostile datagrams, a million in each run (hostile.py: random, changed, cut, of extreme lengths and
# numbers), beside a good stream from `rist send`, in the Simple Profile, in the Main Profile, and there enciphered; then
# datagrams each under a nonce of its own, fewer, since each costs the derivation of a key. Those that the session refuses draw no
# answer; one that it takes draws the answers until the stream's next datagram, which costs nothing here, where nothing is lost.
# Of each: whether the good stream is written whole, the receiver's processor time for each hostile datagram, over that of the same
# stream alone, and its peak resident set before the hostile datagrams and at the end. It takes four minutes, needs python3, uses
# 127.0.0.1 alone and writes only below a new folder in /tmp. Where a tool isn't there it says so and ends with status 3, without
# `recv` with status 4.
# Words: how many hostile datagrams a run (default 1,000,000), how many each millisecond (25).
set -eu
count=${1:-1000000} batch=${2:-25}
here=$(cd "$(dirname "$0")" && pwd)
top=$(dirname "$here")
. "$here/recv_common.sh"
need python3 timeout
work=$(mktemp -d /tmp/hostile.XXXXXX)
started=
trap 'kill $started 2> /dev/null || true; rm -rf "$work"' EXIT
need_recv
rist=$top/crates/rist/out/rist

# Clock ticks of processor time that a process has used.
used() {
    awk '{ print $14 + $15 }' "/proc/$1/stat"
}

peak() {
    awk '/^VmHWM/ { print $2 }' "/proc/$1/status"
}

# run NAME SESSION COUNT BATCH OPTIONS: COUNT hostile datagrams beside as much of the good stream as their time takes, and 3 s more.
run() {
    name=$1 session=$2 hostile=$3 pace=$4 options=$5
    pieces=$((hostile / pace + 3000))
    python3 "$here/pieces.py" make "$work/source" "$pieces"
    python3 "$here/pieces.py" make "$work/other" 200
    "$rist" pack "$work/other" "$work/capture" --flow 541085010 $session
    "$rist" recv "$work/came" 127.0.0.1:5000 --idle 3000 $session > "$work/log" 2>&1 &
    receiver=$!
    started=$receiver
    sleep 0.5
    "$rist" send "$work/source" 127.0.0.1:5000 --gap 1000 --linger 1500 $session > "$work/sender" 2>&1 &
    started="$started $!"
    sleep 2
    alone=$(used $receiver) first=$(peak $receiver)
    python3 "$here/hostile.py" "$work/capture" 5000 "$hostile" "$pace" 1 $options > "$work/hostile"
    both=$(used $receiver)
    sleep 1
    last=$(peak $receiver)
    status=0
    wait $receiver || status=$?
    started=
    echo "$name: $(cat "$work/hostile")"
    # What two seconds of the stream cost alone is what its other seconds cost.
    python3 -c "
hostile, pace, alone, both, tick = $hostile, $pace, $alone, $both, $(getconf CLK_TCK)
stream = alone / 2 * hostile / pace / 1000
print(f'{(both - alone - stream) / tick / hostile * 1e6:.2f} us of processor time a hostile datagram; peak {$first} kB before, {$last} kB at the end')"
    [ "$status" = 0 ] || { cat "$work/log"; echo "rist recv ended with status $status"; return 1; }
    tail -n 3 "$work/log"
    python3 "$here/pieces.py" compare "$work/source" "$work/came" 0 0
}

bad=0
run 'Simple Profile' '' "$count" "$batch" --control || bad=1
run 'Main Profile' '--profile main' "$count" "$batch" '' || bad=1
run 'Main Profile, enciphered' '--profile main --pass secret' "$count" "$batch" '' || bad=1
run 'Main Profile, enciphered, a new nonce each' '--profile main --pass secret' $((count / 100)) 1 --nonces || bad=1
exit $bad
