#!/bin/sh
# Pages of `rist report` of five kinds of sessions, to be looked at: a clean hour that `rist pack` makes; a made capture in which bursts are
# lost, of which some come again in time, some late and some never; two links of which one is cut; a sender that is started again; and a
# pcap file of `ristsender` and `ristreceiver` with losses. Where chromium is there it draws each at widths of 1000 and 400 pixels.
#
# Word: the folder for the pages and pictures; it is made, and its name printed. RIST in the environment stands for another program than the
# one that is built here. It takes two minutes, needs root, tcpdump, rist-tools and python3. It writes to that folder, and to a new one
# in /tmp, and ends with 1 where a page can't be made; where a tool isn't there it says so and ends with status 3.
set -eu
here=$(cd "$(dirname "$0")" && pwd)
top=$(dirname "$here")
. "$here/recv_common.sh"
need tcpdump ristsender ristreceiver python3 timeout env
[ "$(id -u)" = 0 ] || { echo 'not root here'; exit 3; }
work=$(mktemp -d /tmp/report_pages.XXXXXX)
chmod 755 "$work"
started=
trap 'kill $started 2> /dev/null || true; rm -rf "$work"' EXIT
if [ -z "${RIST-}" ]; then
    need_recv
    RIST=$top/crates/rist/out/rist
fi
rist="env --block-signal=INT,TERM $RIST"
pages=${1:-$(mktemp -d /tmp/pages.XXXXXX)}
mkdir -p "$pages"
python3 "$here/pieces.py" make "$work/source" 12000
python3 "$here/pieces.py" cut "$work/source" 6000 "$work/first" "$work/second"

# An hour of 360,000 packets, one each 10 ms.
head -c $((360000 * 1316)) /dev/zero | "$RIST" pack - - --gap 10000 | "$RIST" report - "$pages/hour.html"

# Two minutes, a packet each millisecond. Each seven seconds up to 500 in a row are lost; of these seven of ten come again after 60 ms, one
# of ten after 1,100 ms, which is late, and two never.
python3 - "$work/bursts" <<'PY'
import heapq, random, struct, sys
draws = random.Random(3)
records, gone = [], 0
for k in range(120_000):
    if k % 7000 == 3000:
        gone = draws.randrange(50, 500)
    at, again = k * 1000, 0
    if gone:
        gone -= 1
        draw = draws.random()
        if draw > 0.8:
            continue
        at, again = at + (60_000 if draw < 0.7 else 1_100_000), 1
    heapq.heappush(records, (at, k, again))
with open(sys.argv[1], 'wb') as out:
    out.write(b'RISTCAP1')
    while records:
        at, k, again = heapq.heappop(records)
        rtp = struct.pack('>BBHII', 0x80, 33, k % 65536, k * 90 % 2**32, 0x10203040 | again) + bytes([0x47]) * 1316
        out.write(struct.pack('>BBHQ', 0, 0, len(rtp), at) + rtp)
PY
"$RIST" report "$work/bursts" "$pages/bursts.html"

# relayed WORDS: a relay.
relayed() {
    timeout 120 python3 "$here/relay.py" --lose 4 --lose-back 4 --delay 5 --seed 7 --quiet 6 --most 100 "$@" > "$work/relay" &
    started=$!
    await_ready "$work/relay"
}

# received LINKS WORDS: `rist recv` on these links, with a record.
received() {
    links=$1
    shift
    timeout 100 $rist recv /dev/null $links --record "$work/record" --idle 4000 "$@" 2> "$work/log" &
    receiver=$!
    started="$started $receiver"
    sleep 0.5
}

# over: waits for the receiver, and says its counts.
over() {
    wait $receiver
    cat "$work/log"
    kill $started 2> /dev/null || true
    wait $started || true
    started=
}
bad=0

relayed --cut 1@2000 7000:5000 7002:5002
received '127.0.0.1:5000 127.0.0.1:5002'
timeout 60 $rist send "$work/source" 127.0.0.1:7000 127.0.0.1:7002 --gap 1000 --share 2:1
over
"$RIST" report "$work/record" "$pages/cut.html"

relayed 7000:5000
received 127.0.0.1:5000 --restart 2000
timeout 60 $rist send "$work/first" 127.0.0.1:7000 --gap 1000
sleep 3
timeout 60 $rist send "$work/second" 127.0.0.1:7000 --gap 1000 --flow 541085010 --first 7
over
"$RIST" report "$work/record" "$pages/restart.html" --restart 2000

relayed 7000:5000
timeout 60 tcpdump -Z root -i lo -U -B 65536 -w "$work/pcap" 'udp port 5000 or udp port 5001' > "$work/tcpdump" 2>&1 &
capture=$!
timeout 60 ristreceiver -p 0 -i 'rist://@127.0.0.1:5000' -o 'udp://127.0.0.1:6002' > "$work/receiver" 2>&1 &
receiver=$!
timeout 60 ristsender -p 0 -i 'udp://@127.0.0.1:6000' -o 'rist://127.0.0.1:7000' > "$work/sender" 2>&1 &
started="$started $receiver $! $capture"
sleep 1.5
timeout 60 python3 "$here/pieces.py" feed "$work/source" 6000 1000
sleep 2
kill $started 2> /dev/null || true
wait $started || true
started=
"$RIST" report --pcap --udp 5000 "$work/pcap" "$pages/peers.html"

for page in hour bursts cut restart peers; do
    [ -s "$pages/$page.html" ] || { echo "no page: $page"; bad=1; continue; }
    echo "$page: $(sed -n 's/^<tr><th>\([^<]*\)<.th><td>\([^<]*\)<.td><td>\([^<]*\)<.*/\1 \2 \3/p' "$pages/$page.html" | paste -sd ';')"
    command -v chromium > /dev/null || continue
    for width in 1000 400; do
        timeout 60 chromium --headless --no-sandbox --disable-gpu --hide-scrollbars --user-data-dir="$work/chromium" --window-size=$width,$((3200 + 1200 * (width < 500))) \
            --screenshot="$pages/$page-$width.png" "file://$pages/$page.html" > "$work/chromium.log" 2>&1 || { cat "$work/chromium.log"; bad=1; }
    done
done
ls -l "$pages"
exit $bad
