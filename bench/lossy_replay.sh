#!/bin/sh
# Packs a source of more than 70,000 pieces, loses, repeats and reorders the datagrams of the capture, replays it, and
# compares what comes out with the pieces whose datagrams are left, in the order of the source: with numbers of 16 bits
# that wrap twice, with numbers of 32 bits that wrap, and with timestamps that wrap. It takes about half a minute, needs
# python3, and writes only below a new folder in /tmp.
set -eu
command -v python3 > /dev/null || { echo "no python3 here"; exit 3; }
top=$(cd "$(dirname "$0")/.." && pwd)
work=$(mktemp -d /tmp/lossy_replay.XXXXXX)
trap 'rm -rf "$work"' EXIT
"$top/bin/rist" replay "$top/examples/three.ristcap" "$work/first"
head -c 96000000 /dev/urandom > "$work/source"

cat > "$work/lose.py" <<'PYTHON'
import random, sys
capture, source, lossy, expected, seed = sys.argv[1:]
random.seed(int(seed))
octets = open(capture, "rb").read()
records, at = [], 8
while at < len(octets):
    size = int.from_bytes(octets[at + 2:at + 4], "big")
    records.append((octets[at:at + 12], octets[at + 12:at + 12 + size]))
    at += 12 + size
# The first datagram stays where it is; each three behind it come in any order.
order = list(range(1, len(records)))
for k in range(0, len(order) - 3, 3):
    part = order[k:k + 3]
    random.shuffle(part)
    order[k:k + 3] = part
# Each place in this order has the time of the capture's record at that place.
kept, arrivals = {0}, [(0, 0)]
for place, k in enumerate(order, 1):
    if random.random() < 0.02:
        continue
    kept.add(k)
    arrivals += [(place, k)] * (2 if random.random() < 0.02 else 1)
with open(lossy, "wb") as out:
    out.write(octets[:8])
    for place, k in arrivals:
        head, datagram = records[place][0], records[k][1]
        out.write(head[:2] + len(datagram).to_bytes(2, "big") + head[4:] + datagram)
pieces = open(source, "rb").read()
with open(expected, "wb") as out:
    for k in sorted(kept):
        out.write(pieces[1316 * k:1316 * (k + 1)])
print(f"{len(records)} datagrams, {len(records) - len(kept)} lost, {len(arrivals) - len(kept)} repeated", end=": ")
PYTHON

# turn NAME PACK REPLAY
turn() {
    "$top/bin/rist" pack $2 "$work/source" "$work/capture"
    python3 "$work/lose.py" "$work/capture" "$work/source" "$work/lossy" "$work/expected" 7
    "$top/bin/rist" replay $3 "$work/lossy" "$work/back"
    cmp "$work/expected" "$work/back"
    echo "$1: as expected"
}

turn "numbers of 16 bits wrap twice" "--first 65000" ""
turn "numbers of 32 bits wrap" "--profile main --wide --first 4294930000" "--profile main"
turn "timestamps wrap" "--gap 1000000" "--delay 8000"
