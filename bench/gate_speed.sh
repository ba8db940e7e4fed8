#!/bin/sh
# The processor time a GB of `rist gate` at 400 Mbit/s (a datagram each 26 us) over loopback, from one link to one, beside that of a
# C program that receives datagrams and writes their payloads: each three times, in turn, and the least of each; what came is
# compared with the source. Then how long after its release a payload leaves: 3,000 packets, one each millisecond, come at known
# times; a payload is released a playout delay of 200 ms after its packet came, so what it takes beyond that is the gateway's.
# Words: how many seconds of the stream are sent (default 3). It takes a minute and 1 GB, needs cc and python3, uses 127.0.0.1
# alone and writes only below a new folder in /tmp. Where a tool isn't there it ends with status 3, without `gate` with status 4.
set -eu
seconds=${1:-3}
here=$(cd "$(dirname "$0")" && pwd)
top=$(dirname "$here")
. "$here/recv_common.sh"
need cc python3
work=$(mktemp -d /tmp/gate_speed.XXXXXX)
trap 'rm -rf "$work"' EXIT
need_recv
"$top/bin/rist" gate 127.0.0.1:5000 127.0.0.1:5100 --turns 1 > "$work/log" 2>&1 || { cat "$work/log"; echo 'this rist has no gate'; exit 4; }
cc -O2 -o "$work/feed" "$here/recv_feed.c"
cc -O2 -o "$work/plain" "$here/recv_baseline.c"
# The program itself: bin/rist looks first whether it is built.
python3 - "$top/crates/rist/out/rist" "$work" "$seconds" <<'PYTHON'
import os, socket, struct, subprocess, sys, threading, time

rist, work, seconds = sys.argv[1], sys.argv[2], float(sys.argv[3])
LENGTH, GAP = 1316, 26
SOURCE, CAPTURE, CAME = (os.path.join(work, name) for name in ('source', 'capture', 'came'))
PLAIN, FEED = os.path.join(work, 'plain'), os.path.join(work, 'feed')


def make():
    with open(SOURCE, 'wb') as out:
        block = os.urandom(1 << 20)
        left = int(seconds * 1e6 / GAP) * LENGTH
        while left > 0:
            out.write(block[:left])
            left -= len(block)
    subprocess.run([rist, 'pack', SOURCE, CAPTURE, '--gap', str(GAP)], check=True)


def used_by(process, most):
    end = time.monotonic() + most
    while True:
        pid, status, used = os.wait4(process.pid, os.WNOHANG)
        if pid:
            return status, used.ru_utime + used.ru_stime
        if time.monotonic() > end:
            process.kill()
            sys.exit('a program did not end')
        time.sleep(0.05)


def received(port):
    return subprocess.Popen([PLAIN, str(port)], stdout=open(CAME, 'wb'))


def whole():
    return subprocess.run(['cmp', '-s', SOURCE, CAME]).returncode == 0


def at_400():
    make()
    size = os.path.getsize(SOURCE) / 1e9
    best = {}
    for _ in range(3):
        end = received(5100)
        gate = subprocess.Popen([rist, 'gate', '127.0.0.1:5000', '127.0.0.1:5100', '--delay', str(14 * GAP), '--span', '16384',
                                 '--store', '65536', '--idle', '1500'], stderr=subprocess.PIPE)
        time.sleep(0.5)
        subprocess.run([FEED, CAPTURE, '5000'], stdout=subprocess.DEVNULL, check=True)
        status, used = used_by(gate, 30)
        used_by(end, 30)
        best['rist gate'] = min(best.get('rist gate', 1e9), used / size)
        if status or not whole():
            print(f'rist gate: status {os.waitstatus_to_exitcode(status)}, {os.path.getsize(CAME)} of {os.path.getsize(SOURCE)} octets came; '
                  + gate.stderr.read().decode().strip())
        end = received(5000)
        time.sleep(0.5)
        subprocess.run([FEED, CAPTURE, '5000'], stdout=subprocess.DEVNULL, check=True)
        _, used = used_by(end, 30)
        best['plain'] = min(best.get('plain', 1e9), used / size)
    print(f"at {LENGTH * 8 / GAP:.0f} Mbit/s: rist gate {best['rist gate']:.2f} s of the processor a GB, receive and write "
          f"{best['plain']:.2f}; ratio {best['rist gate'] / best['plain']:.2f}", flush=True)


def delays():
    """How long after its release each payload left, in milliseconds."""
    count, delay = 3000, 200
    end = socket.socket(socket.AF_INET, socket.SOCK_DGRAM)
    end.bind(('127.0.0.1', 5100))
    end.settimeout(2)
    gate = subprocess.Popen([rist, 'gate', '127.0.0.1:5000', '127.0.0.1:5100', '--delay', str(delay), '--idle', '1500'])
    time.sleep(0.5)
    came, left = {}, {}

    def take():
        try:
            while True:
                octets = end.recv(2048)
                at = time.monotonic()
                if octets[1] & 0x7F == 33:
                    left.setdefault(struct.unpack('>I', octets[12:16])[0], at)
        except TimeoutError:
            pass

    taker = threading.Thread(target=take)
    taker.start()
    out = socket.socket(socket.AF_INET, socket.SOCK_DGRAM)
    start = time.monotonic()
    for k in range(count):
        rest = start + k / 1000 - time.monotonic()
        if rest > 0:
            time.sleep(rest)
        came[k] = time.monotonic()
        stamp = int((came[k] - start) * 90000) & 0xFFFFFFFF
        out.sendto(struct.pack('>BBHII', 0x80, 33, k & 0xFFFF, stamp, 0x10203040) + struct.pack('>I', k) + bytes(1312), ('127.0.0.1', 5000))
    taker.join()
    gate.wait()
    over = sorted(1000 * (left[k] - came[k]) - delay for k in came if k in left)
    print(f'{len(over)} of {count} payloads left; after their release by {over[len(over) // 2]:.2f} ms in the middle, '
          f'{over[len(over) * 99 // 100]:.2f} at 99 per cent, {over[-1]:.2f} at most', flush=True)


at_400()
delays()
PYTHON
