#!/bin/sh
# Sends a file of 8,000 pieces of 1,316 octets over loopback to `ristreceiver` of librist (Debian: rist-tools), which writes
# them to a socket of its own, and compares what came: the pieces that came are pieces of the file in its order, and none
# is missing but some at the front, which a receiver drops until the first report came. Where that program isn't there it
# says so and ends with status 3. It takes a quarter of a minute, needs python3, and writes only below a new folder in /tmp.
set -e
top=$(cd "$(dirname "$0")/.." && pwd)
command -v ristreceiver > /dev/null || { echo 'no ristreceiver here (Debian: rist-tools)'; exit 3; }
command -v python3 > /dev/null || { echo 'no python3 here'; exit 3; }
work=$(mktemp -d /tmp/send_to_librist.XXXXXX)
trap 'kill $receiver $listener 2> /dev/null || true; rm -rf "$work"' EXIT
receiver= listener=
# Piece k begins with k in four octets, so that each piece is another.
python3 - "$work/source" <<'PYTHON'
import random, sys
random.seed(1)
with open(sys.argv[1], 'wb') as out:
    for k in range(8000):
        out.write(bytes([0x47]) + k.to_bytes(4, 'big') + random.randbytes(1311))
PYTHON
python3 - "$work/came" <<'PYTHON' &
import socket, sys
end = socket.socket(socket.AF_INET, socket.SOCK_DGRAM)
end.setsockopt(socket.SOL_SOCKET, socket.SO_RCVBUF, 8 << 20)
end.bind(('127.0.0.1', 6000))
with open(sys.argv[1], 'wb', buffering=0) as out:
    while True:
        out.write(end.recv(65536))
PYTHON
listener=$!
ristreceiver -p 0 -i 'rist://@127.0.0.1:5000' -o 'udp://127.0.0.1:6000' > "$work/log" 2>&1 &
receiver=$!
sleep 1
"$top/bin/rist" send "$work/source" 127.0.0.1:5000 --linger 3000
sleep 2
python3 - "$work/source" "$work/came" <<'PYTHON'
import sys
source, came = (open(name, 'rb').read() for name in sys.argv[1:])
pieces = [source[i:i + 1316] for i in range(0, len(source), 1316)]
got = [came[i:i + 1316] for i in range(0, len(came), 1316)]
missing = len(pieces) - len(got)
same = 0 <= missing and got == pieces[missing:]
print(f'{len(got)} of {len(pieces)} pieces came, the first {missing} did not: ' + ('the rest in order' if same else 'NOT THE REST IN ORDER'))
sys.exit(0 if same and missing <= 100 else 1)
PYTHON
