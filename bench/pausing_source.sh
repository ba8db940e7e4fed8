#!/bin/sh
# Live sources that pause, to `rist send`, and `rist recv` with a delay of 100 ms on a network that loses nothing: encoders that give a
# picture, or 170 ms of radio, at a time, one that gives a picture a second, a radio that is silent for 2.5 s again and again, and bursts
# of 1,000 pieces with 2.5 s between them; by the standard input, and the radio by UDP too. All octets have to come, and none late. Then each source once more
# through answer_times.py, which drops one media datagram of ten, and says how long after a request the answer came: the median has to
# be below 2 ms, of all requests and of those that were made in a silence of the source.
#
# SECONDS_EACH (20) and RIST in the environment stand for how long a source lasts, and for another program than the one that is built here.
# It takes five minutes, needs ffmpeg and python3, uses 127.0.0.1 alone and writes only below a new folder in /tmp. It ends with 1 where
# something came late or is missing, or a median is too long; where a tool isn't there it says so and ends with status 3, without `recv`
# with status 4. A receiver that stands still for 100 ms has late packets of its own, so on a busy machine give the script a high priority;
# and beside each session without drops a process sleeps for 2 ms again and again: where that stood still for 50 ms, a session with late
# packets counts for nothing, and is made again, up to three times in all.
set -eu
here=$(cd "$(dirname "$0")" && pwd)
top=$(dirname "$here")
. "$here/recv_common.sh"
need ffmpeg python3 timeout env
work=$(mktemp -d /tmp/pausing_source.XXXXXX)
started=
trap 'kill $started 2> /dev/null || true; rm -rf "$work"' EXIT
if [ -z "${RIST-}" ]; then
    need_recv
    RIST=$top/crates/rist/out/rist
fi
rist="env --block-signal=INT,TERM $RIST"
long=${SECONDS_EACH:-20}
encoder='ffmpeg -nostdin -loglevel error -re -f lavfi -i'
picture='testsrc2=size=640x360:rate'
radio='-c:a mp2 -b:a 128k -f mpegts'

# paced COUNT GAP PAUSE FILE: pieces of FILE, COUNT of them GAP microseconds apart and then a pause of PAUSE seconds, to its end.
cat > "$work/paced.py" <<'PY'
import sys, time
count, gap, pause, name = int(sys.argv[1]), int(sys.argv[2]), float(sys.argv[3]), sys.argv[4]
due = time.monotonic()
with open(name, 'rb') as source:
    k = 0
    while piece := source.read(1316):
        time.sleep(max(0, due - time.monotonic()))
        sys.stdout.buffer.write(piece)
        sys.stdout.buffer.flush()
        k += 1
        due += gap / 1e6 + (pause if k % count == 0 else 0)
PY

# A process that says, on SIGTERM, for how many ms it once stood still.
cat > "$work/watch.py" <<'PY'
import signal, sys, time
longest = 0
def stop(*_):
    print(round(longest * 1000))
    sys.exit()
signal.signal(signal.SIGTERM, stop)
before = time.monotonic()
while True:
    time.sleep(0.002)
    now = time.monotonic()
    longest = max(longest, now - before - 0.002)
    before = now
PY

# source_of NAME: the stream of this name, to the standard output.
source_of() {
    case $1 in
    x264) $encoder $picture=25 -t "$long" -c:v libx264 -preset ultrafast -tune zerolatency -b:v 3M -maxrate 3M -bufsize 1M -f mpegts - ;;
    mpeg2) $encoder $picture=25 -t "$long" -c:v mpeg2video -b:v 3M -maxrate 3M -bufsize 1M -g 25 -f mpegts - ;;
    radio) $encoder sine=frequency=440:sample_rate=48000 -t "$long" $radio - ;;
    slow) $encoder $picture=1 -t "$long" -c:v libx264 -preset ultrafast -tune zerolatency -b:v 200k -f mpegts - ;;
    silent) python3 "$work/paced.py" 38 66000 2.5 "$work/radio.ts" ;;
    bursts) python3 "$work/paced.py" 1000 2507 2.5 "$work/pieces" ;;
    esac
}
ffmpeg -nostdin -loglevel error -f lavfi -i sine=frequency=440:sample_rate=48000 -t "$((long / 2))" $radio "$work/radio.ts"
python3 "$here/pieces.py" make "$work/pieces" $((long * 200))

# carried NAME PORT GAP: a session of this source to PORT; what was sent is `source`, what came `came`, the counts are in `log`.
carried() {
    status=0 got=0
    rm -f "$work/came" "$work/source"
    timeout 120 $rist recv "$work/came" 127.0.0.1:5000 --delay 100 --idle 4000 > "$work/log" 2>&1 &
    receiver=$!
    started="$started $receiver"
    sleep 0.5
    if [ "$1" = udp ]; then
        timeout 120 $rist send udp://127.0.0.1:6000 "127.0.0.1:$2" --gap "$3" > "$work/sent" 2>&1 &
        sender=$!
        started="$started $sender"
        sleep 0.5
        source_of radio | tee "$work/source" | python3 -c '
import socket, sys
end = socket.socket(socket.AF_INET, socket.SOCK_DGRAM)
while octets := sys.stdin.buffer.raw.read(65536):
    for at in range(0, len(octets), 1316):
        end.sendto(octets[at:at + 1316], ("127.0.0.1", 6000))
'
        sleep 0.5
        kill -TERM $sender
        wait $sender || status=$?
    else
        source_of "$1" | tee "$work/source" | timeout 120 $rist send - "127.0.0.1:$2" --gap "$3" > "$work/sent" 2>&1 || status=$?
    fi
    wait $receiver || got=$?
    cat "$work/sent"
    [ "$status" = 0 ] || echo "rist send ended with status $status"
    [ "$got" = 0 ] || echo "rist recv ended with status $got"
}

bad=0
# tried NAME GAP: both sessions of this source.
tried() {
    for _ in 1 2 3; do
        python3 "$work/watch.py" > "$work/still" &
        watch=$!
        started=$watch
        carried "$1" 5000 "$2"
        kill $watch
        wait $watch || true
        started=
        same='the same octets'
        cmp -s "$work/source" "$work/came" || same='OTHER OCTETS'
        late=$(sed -n 's/.*late \([0-9]*\), behind \([0-9]*\),.*/\1 and \2/p' "$work/log")
        echo "$1: --gap $2, $(($(wc -c < "$work/source") / 1316)) pieces, $same; late and behind: $late; the machine stood still for $(cat "$work/still") ms"
        good=1
        [ "$same $late $status $got" = 'the same octets 0 and 0 0 0' ] || good=0
        [ $good = 0 ] && [ "$(cat "$work/still")" -ge 50 ] || break
    done
    [ $good = 1 ] || { cat "$work/log"; bad=1; }

    timeout 150 python3 "$here/answer_times.py" 7000 5000 10 > "$work/relay" &
    relay=$!
    started=$relay
    await_ready "$work/relay"
    carried "$1" 7000 "$2"
    kill $relay
    wait $relay || true
    started=
    tail -n 1 "$work/relay" | python3 -c '
import json, sys
told = json.loads(sys.stdin.readline())
bad = False
for name, text in (("all", "asked for"), ("silent", "in a silence")):
    it = told[name]
    if it["answered"]:
        print("  %d %s, %d answered, after %s ms in the middle, nine of ten within %s, at the latest %s" %
              (it["asked"], text, it["answered"], it["median"], it["ninety"], it["longest"]))
        bad = bad or it["median"] >= 2
    else:
        print("  %d %s, none answered" % (it["asked"], text))
        bad = bad or name == "all"
print("  %d of %d dropped" % (told["dropped"], told["media"]))
sys.exit(bad)
' || bad=1
}

for it in ${*:-x264:1000 mpeg2:2000 radio:1000 slow:1000 silent:1000 bursts:1000 udp:1000}; do
    tried "${it%:*}" "${it#*:}"
done
[ $bad = 0 ] && echo 'none late, and answers at once' || echo 'FAILED'
exit $bad
