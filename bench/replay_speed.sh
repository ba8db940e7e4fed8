#!/bin/sh
# The time of `rist replay` beside that of a C program that does one write for each payload, in one run on one machine: to a
# file and to nowhere. Then, to nowhere, with --drift beside without; and two captures that are hard on the reorder buffer,
# beside the plain one: one that keeps the widest span full, and one whose timestamps fall while its numbers rise.
# Words: how many packets (default 380,000: about 500 MB), octets of a payload (1,316), how many runs (10).
# Needs cc and python3; bin/rist builds the program. The captures lie in a folder that is removed at the end.
set -eu
for tool in cc python3; do command -v "$tool" > /dev/null || { echo "no $tool here"; exit 3; }; done
count=${1:-380000}
size=${2:-1316}
runs=${3:-10}
here=$(cd "$(dirname "$0")" && pwd)
work=$(mktemp -d /tmp/replay_speed.XXXXXX)
trap 'rm -rf "$work"' EXIT

# make NAME GAP SHAPE: a packet each GAP us. In the falling shape each 8,192 packets have timestamps that fall.
make() {
    python3 - "$work/$1" "$count" "$size" "$2" "$3" <<'PY'
import struct, sys
name, count, size, gap, shape = sys.argv[1], *map(int, sys.argv[2:5]), sys.argv[5]
payload = bytes(range(256)) * (size // 256 + 1)
with open(name, 'wb') as out:
    out.write(b'RISTCAP1')
    for k in range(count):
        us, stamp = k * gap, k * gap * 9 // 100
        if shape == 'falling' and k > 0:
            stamp = k // 8192 * 8192 * gap * 9 // 100 + 60000 - 2 * (k % 8192)
        out.write(struct.pack('>BBHQ', 0, 0, 12 + size, us))
        out.write(struct.pack('>BBHII', 0x80, 33, k % 65536, stamp % 2**32, 0x10203040))
        out.write(payload[:size])
PY
}

# compare NAME ONE.. -- OTHER..: runs both commands in turns, and prints the least time of each by the clock and by the
# processor, in seconds, and their ratios.
compare() {
    python3 - "$runs" "$@" <<'PY'
import os, sys, time
runs, name, words = int(sys.argv[1]), sys.argv[2], sys.argv[3:]
at = words.index('--')
clock, busy = [1e9, 1e9], [1e9, 1e9]
for _ in range(runs):
    for k, command in enumerate((words[:at], words[at + 1:])):
        start = time.monotonic()
        _, status, used = os.wait4(os.posix_spawn(command[0], command, os.environ), 0)
        clock[k] = min(clock[k], time.monotonic() - start)
        busy[k] = min(busy[k], used.ru_utime + used.ru_stime)
        if status:
            sys.exit(f'{command[0]} ended with {status}')
print(f'{name}: {clock[0]:.3f} {busy[0]:.3f}; beside {clock[1]:.3f} {busy[1]:.3f} (seconds by the clock and by the processor); '
      f'ratio {clock[0] / clock[1]:.2f} by the clock, {busy[0] / busy[1]:.2f} by the processor')
PY
}

# The program itself: bin/rist first looks for sources that are newer.
"$here/../bin/rist" replay "$here/../examples/three.ristcap" /dev/null
rist=$here/../crates/rist/out/rist
cc -O2 -o "$work/baseline" "$here/replay_baseline.c"
echo "packets $count, octets $size, the least of $runs runs in turns"

make capture 1000 plain
compare "to nowhere, rist beside C" "$rist" replay "$work/capture" /dev/null -- "$work/baseline" "$work/capture" /dev/null
compare "to a file, rist beside C" "$rist" replay "$work/capture" "$work/ours" -- \
    "$work/baseline" "$work/capture" "$work/theirs"
cmp "$work/ours" "$work/theirs"
rm "$work/ours" "$work/theirs"

compare "to nowhere, with --drift, beside without" "$rist" replay --drift "$work/capture" /dev/null -- \
    "$rist" replay "$work/capture" /dev/null
for shape in plain falling; do
    make "$shape" 62 "$shape"
    compare "a span of 16,384 kept full, $shape timestamps, beside the plain capture" \
        "$rist" replay --span 16384 --delay 1015 "$work/$shape" /dev/null -- "$rist" replay "$work/capture" /dev/null
    rm "$work/$shape"
done
