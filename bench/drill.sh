#!/bin/sh
# Ten simulated runs, `rist drill K COUNT LINKS LOSS` for K from 1 to 10: each one's counts, whether its digest is that of the payloads in
# order, as a program of its own makes them, and the processor time of all ten. It ends with 1 where a digest differs.
# Words: COUNT (default 5000), LINKS (4), LOSS in a thousand (100). Needs python3; bin/rist builds the program.
set -eu
command -v python3 > /dev/null || { echo "no python3 here"; exit 3; }
count=${1:-5000}
links=${2:-4}
loss=${3:-100}
here=$(cd "$(dirname "$0")" && pwd)
exec python3 - "$here/../bin/rist" "$count" "$links" "$loss" <<'PY'
import hashlib, os, subprocess, sys

rist, count, links, loss = sys.argv[1], *sys.argv[2:5]


def packet(payload, unit):
    if (payload + unit) % 5 == 0:
        return bytes([0x47, 0x1F, 0xFF, 0x10]) + b'\xff' * 184
    return bytes([0x47, 0x01, 0x00, 0x10]) + bytes((payload + unit + place) % 256 for place in range(4, 188))


want = hashlib.sha256()
for payload in range(int(count)):
    for unit in range(7):
        want.update(packet(payload, unit))
subprocess.run([rist, 'drill', '1', '0', '1', '0'], check=True, capture_output=True)
before = os.times()
whole = True
for number in range(1, 11):
    out = subprocess.run([rist, 'drill', str(number), count, links, loss], check=True, capture_output=True, text=True).stdout
    told = dict(line.split(' ') for line in out.splitlines())
    same = told.pop('sha256') == want.hexdigest()
    whole = whole and same
    print(number, ', '.join(name + ' ' + told[name] for name in told), '' if same else '- payloads are missing', sep='  ')
after = os.times()
busy = after.children_user + after.children_system - before.children_user - before.children_system
print('processor time of all ten: %.2f s' % busy)
sys.exit(0 if whole else 1)
PY
