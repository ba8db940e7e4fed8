#!/bin/sh
# Replays streams of senders whose clocks run 100 parts in a million fast and slow, with a jitter of 20 ms, with --drift and
# without: how many of the packets come out, and whether in order. With --drift it is all of them.
# Words: how many hours (default 10).
# Needs cc and python3; bin/rist builds the program. It writes only below a new folder in /tmp, four octets a packet.
set -eu
for tool in cc python3; do command -v "$tool" > /dev/null || { echo "no $tool here"; exit 3; }; done
hours=${1:-10}
here=$(cd "$(dirname "$0")" && pwd)
work=$(mktemp -d /tmp/drifting_clock.XXXXXX)
trap 'rm -rf "$work"' EXIT
"$here/../bin/rist" replay "$here/../examples/three.ristcap" /dev/null
cc -O2 -o "$work/feed" "$here/drifting_clock.c"

# seen RATE [FLAG]: what a replay of the stream gives
seen() {
    "$work/feed" "$hours" "$1" | "$here/../bin/rist" replay ${2:-} - "$work/out"
    python3 - "$hours" "$work/out" "$1" "${2:-without --drift}" <<'PY'
import array, sys
hours, name, rate, how = sys.argv[1:]
sent = int(float(hours) * 3600e6 / 900)
places = array.array('I')
with open(name, 'rb') as file:
    places.frombytes(file.read())
places.byteswap()
rising = all(map(int.__lt__, places[:-1], places[1:]))
print(f'{rate} parts in a million, {how}: {len(places)} of {sent} packets came out, '
      f'{"in order" if rising else "NOT IN ORDER"}; the last is {places[-1]}')
PY
}

for rate in 100 -100; do
    seen "$rate" --drift
    seen "$rate"
done
