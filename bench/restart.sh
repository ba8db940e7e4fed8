#!/bin/sh
# A sender that is stopped and started again, with another SSRC and other numbers, and one `rist recv --restart 2000` that is not.
# 8,000 pieces of 1,316 octets, one each millisecond, in two halves, through relay.py with 4 per cent of the datagrams lost each
# way: the second half begins 3 s after the first is through, so that all must come, in order; then, without losses, the first sender
# is killed in the middle and the other begins at once, so that its first two seconds are refused; then `ristsender` (Debian: rist-tools), where it
# is there, killed and started again. It takes two minutes, needs python3, uses 127.0.0.1 alone and writes only below a new folder
# in /tmp. Where a tool isn't there it says so and ends with status 3, without `recv` with status 4.
set -eu
here=$(cd "$(dirname "$0")" && pwd)
top=$(dirname "$here")
. "$here/recv_common.sh"
need python3 timeout
work=$(mktemp -d /tmp/restart.XXXXXX)
started=
trap 'kill $started 2> /dev/null || true; rm -rf "$work"' EXIT
need_recv
python3 "$here/pieces.py" make "$work/source" 8000
python3 "$here/pieces.py" cut "$work/source" 4000 "$work/first" "$work/second"

# begin RELAY: a relay with these words, and a receiver behind it.
begin() {
    timeout 90 python3 "$here/relay.py" $1 --quiet 8 7000:5000 > "$work/relay" &
    started="$!"
    await_ready "$work/relay"
    timeout 90 "$top/bin/rist" recv "$work/came" 127.0.0.1:5000 --restart 2000 --idle 8000 > "$work/log" 2>&1 &
    receiver=$!
    started="$started $receiver"
    sleep 0.3
}

# end FRONT END: waits for the receiver, and says what came of both halves.
end() {
    status=0
    wait $receiver || status=$?
    cat "$work/log"
    wait ${started%% *} || true
    started=
    [ "$status" = 0 ] || { echo "rist recv ended with status $status"; return 1; }
    python3 "$here/pieces.py" restarted "$work/source" "$work/came" 4000 "$1" "$2"
}

send() {
    timeout 60 "$top/bin/rist" send "$work/$1" 127.0.0.1:7000 --gap 1000 --linger 1500 --flow "$2" --first "$3"
}

loss='--lose 4 --lose-back 4 --delay 5 --whole 20'
bad=0
echo 'started again after a pause'
begin "$loss"
send first 270544960 65000
sleep 3
send second 541085010 7
end 0 20 || bad=1

# What is lost in the last moment before the first is killed, nobody can send again: here nothing is lost on the way.
echo 'killed, and another started at once'
begin '--delay 5 --whole 20'
"$top/bin/rist" send "$work/first" 127.0.0.1:7000 --gap 1000 --flow 270544960 &
first=$!
started="$started $first"
sleep 2
kill -KILL $first
wait $first || true
send second 541085010 30000
# The first stream ends where it was killed; of the other, what came before the restart time was over is missing.
end 2500 2500 || bad=1

if command -v ristsender > /dev/null; then
    echo 'ristsender, killed and started again'
    begin '--delay 5 --whole 100'
    for half in first second; do
        ristsender -p 0 -i 'udp://@127.0.0.1:6000' -o 'rist://127.0.0.1:7000' > "$work/ristsender" 2>&1 &
        sender=$!
        started="$started $sender"
        sleep 1.5
        timeout 60 python3 "$here/pieces.py" feed "$work/$half" 6000 1000
        sleep 1
        kill -9 $sender
        wait $sender 2> /dev/null || true
        sleep 2.5
    done
    end 100 100 || bad=1
else
    echo 'no ristsender here (Debian: rist-tools): not tried'
fi
exit $bad
