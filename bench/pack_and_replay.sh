#!/bin/sh
# Packs a source of 40 MB and replays the capture, in clear, deleting nulls in the tunnel, and enciphered; compares what
# comes back with the source; then replays and shows captures of 200 MB, in clear and enciphered. It says the times, the
# rates, and the ratio of the enciphered run to the clear one. It takes about half a minute, needs python3, and writes only below a new folder in /tmp.
set -eu
command -v python3 > /dev/null || { echo "no python3 here"; exit 3; }
top=$(cd "$(dirname "$0")/.." && pwd)
work=$(mktemp -d /tmp/pack_and_replay.XXXXXX)
trap 'rm -rf "$work"' EXIT
"$top/bin/rist" replay "$top/examples/three.ristcap" "$work/first"

now() { date +%s%N; }

# rate NAME OCTETS BEGIN END
rate() {
    echo "$1: $((($4 - $3) / 1000000)) ms, $(($2 * 1000 / (($4 - $3) / 1000 + 1))) KB/s"
}

# A transport stream of 188-octet packets, every fourth a null packet: 40 MB.
head -c 30000000 /dev/urandom > "$work/noise"
python3 - "$work/noise" "$work/source" <<'PYTHON'
import sys
noise = open(sys.argv[1], "rb").read()
with open(sys.argv[2], "wb") as out:
    for k in range(40_000_000 // 188):
        if k % 4 == 3:
            out.write(b"\x47\x1f\xff\x10" + b"\xff" * 184)
        else:
            at = (k * 184) % (len(noise) - 184)
            out.write(b"\x47\x01\x00\x10" + noise[at:at + 184])
PYTHON
size=$(wc -c < "$work/source")

# turn NAME WORDS: packs and replays in a session
turn() {
    name=$1
    pack=$2
    session=$3
    a=$(now)
    "$top/bin/rist" pack $session $pack "$work/source" "$work/capture"
    b=$(now)
    "$top/bin/rist" replay $session "$work/capture" "$work/back"
    c=$(now)
    cmp "$work/source" "$work/back"
    rate "pack, $name" "$size" "$a" "$b"
    rate "replay, $name" "$size" "$b" "$c"
    took=$((c - a))
}

turn clear "" ""
clear=$took
turn "tunnel, nulls deleted, wide numbers" "--nulls --wide" "--profile main"
turn enciphered "" "--profile main --pass secret"
echo "enciphered to clear: $((took * 100 / clear)) hundredths of the time"

# long NAME WORDS: replays and shows a capture of 200 MB
long() {
    "$top/bin/rist" pack $2 "$work/long" "$work/capture"
    size=$(wc -c < "$work/capture")
    a=$(now)
    "$top/bin/rist" replay $2 "$work/capture" "$work/back"
    b=$(now)
    "$top/bin/rist" show $2 "$work/capture" > "$work/lines"
    c=$(now)
    cmp "$work/long" "$work/back"
    rate "replay of $size octets, $1" "$size" "$a" "$b"
    rate "show of $size octets, $1, $(wc -l < "$work/lines") lines" "$size" "$b" "$c"
}

for k in 1 2 3 4 5; do cat "$work/source"; done | head -c 196000000 > "$work/long"
long clear ""
long "128 bits" "--profile main --pass secret"
long "256 bits" "--profile main --pass secret --bits 256"
