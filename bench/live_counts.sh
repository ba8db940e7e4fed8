#!/bin/sh
# What a datagram costs `rist recv` and `rist send` on one link in clear over loopback, beside the C programs recv_baseline.c and
# send_baseline.c: instructions in user mode, counted by valgrind's callgrind, and system calls, counted by strace. Each program
# is run with so many datagrams and with four times as many, and the difference is divided by the difference of the datagrams:
# so what it does once doesn't count. A datagram comes after another, each a gap after the one before, so the counts have
# the ticks of that time in them: a receiver ticks each 5 ms.
# Words: the gap in microseconds (default 1000), the datagrams of the shorter run (default 2000). It takes about three minutes;
# where valgrind or strace isn't there, that count is left out. Needs cc and python3, uses 127.0.0.1 alone and writes only
# below a new folder in /tmp. Where a tool isn't there it ends with status 3, without `recv` with status 4.
set -eu
gap=${1:-1000}
short=${2:-2000}
here=$(cd "$(dirname "$0")" && pwd)
top=$(dirname "$here")
. "$here/recv_common.sh"
need cc python3
work=$(mktemp -d /tmp/live_counts.XXXXXX)
trap 'rm -rf "$work"' EXIT
need_recv
cc -O2 -o "$work/receive" "$here/recv_baseline.c"
cc -O2 -o "$work/send" "$here/send_baseline.c"
# The program itself: bin/rist looks first whether it is built.
python3 - "$top/crates/rist/out/rist" "$work" "$gap" "$short" <<'PYTHON'
import os, re, shutil, socket, subprocess, sys, threading, time

rist, work, gap, short = sys.argv[1], sys.argv[2], int(sys.argv[3]), int(sys.argv[4])
LENGTH, PORT = 1316, 5000
SOURCE, TOLD = (os.path.join(work, name) for name in ('source', 'told'))
RECEIVERS = {
    'rist recv': [rist, 'recv', '-', f'127.0.0.1:{PORT}', '--delay', '100', '--idle', '8000'],
    'receive and write': [os.path.join(work, 'receive'), str(PORT)],
}
SENDERS = {
    'rist send': [rist, 'send', '-', f'127.0.0.1:{PORT}', '--gap', str(gap), '--linger', '0'],
    'read and send': [os.path.join(work, 'send'), str(PORT), str(gap)],
}


def make(count):
    with open(SOURCE, 'wb') as out:
        out.write(os.urandom(LENGTH * count))


def feed(count):
    """Sends so many media packets, each a gap after the one before."""
    out = socket.socket(socket.AF_INET, socket.SOCK_DGRAM)
    payload, start = os.urandom(LENGTH), time.monotonic()
    for number in range(count):
        due = start + number * gap / 1e6
        while (rest := due - time.monotonic()) > 0:
            time.sleep(rest)
        stamp = number * gap * 9 // 100
        head = bytes([0x80, 33]) + (number % 65536).to_bytes(2, 'big') + (stamp % 2**32).to_bytes(4, 'big') + bytes([0, 0, 0, 2])
        out.sendto(head + payload, ('127.0.0.1', PORT))


def sink(end):
    """Takes what comes to the port, and drops it."""
    into = socket.socket(socket.AF_INET, socket.SOCK_DGRAM)
    into.bind(('127.0.0.1', PORT))
    into.settimeout(0.2)
    while not end.is_set():
        try:
            into.recv(2048)
        except TimeoutError:
            pass


def received(words, count):
    """Runs a receiver, and says how many octets it wrote."""
    came = os.path.join(work, 'came')
    with open(came, 'wb') as out:
        running = subprocess.Popen(words, stdout=out, stderr=subprocess.DEVNULL)
    time.sleep(3)
    feed(count)
    running.wait(60)
    return os.path.getsize(came)


def sent(words, count):
    """Runs a sender, and says how many octets it read."""
    make(count)
    end = threading.Event()
    taking = threading.Thread(target=sink, args=(end,))
    taking.start()
    with open(SOURCE, 'rb') as octets:
        subprocess.run(words, stdin=octets, stdout=subprocess.DEVNULL, stderr=subprocess.DEVNULL, check=True)
        read = octets.tell()
    end.set()
    taking.join()
    return read


def instructions():
    """Of the callgrind run that just ended: all instructions."""
    with open(TOLD, encoding='utf-8') as told:
        return {'instructions': sum(int(n) for n in re.findall(r'^(?:summary|totals): (\d+)', told.read(), re.M)[:1])}


def calls():
    """Of the strace run that just ended: how often each system call was made."""
    found = {}
    with open(TOLD, encoding='utf-8') as told:
        for line in told:
            words = line.split()
            if len(words) >= 5 and re.fullmatch(r'[\d.]+', words[0]) and words[3].isdigit() and words[-1] != 'total':
                found[words[-1]] = found.get(words[-1], 0) + int(words[3])
    return found


TOOLS = {
    'valgrind': (['valgrind', '--tool=callgrind', f'--callgrind-out-file={TOLD}'], instructions),
    'strace': (['strace', '-f', '-c', '-o', TOLD], calls),
}


def counts(run, name, words, tool):
    """What a datagram takes of each thing that the tool counts."""
    before, read = TOOLS[tool]
    found = []
    for count in (short, 4 * short):
        octets = run(before + words, count)
        if octets != LENGTH * count:
            print(f'{name} under {tool}: {octets} of {LENGTH * count} octets')
        found.append(read())
    less, more = found
    return {key: (more[key] - less.get(key, 0)) / (3 * short) for key in more}


for run, programs in ((received, RECEIVERS), (sent, SENDERS)):
    for name, words in programs.items():
        parts = []
        for tool in TOOLS:
            if not shutil.which(tool):
                print(f'no {tool} here')
                continue
            told = {key: each for key, each in counts(run, name, words, tool).items() if each >= 0.01}
            parts += [f'{each:,.0f} {key}' if tool == 'valgrind' else f'{key} {each:.2f}' for key, each in sorted(told.items())]
        print(f'{name}, a datagram each {gap} us: ' + ', '.join(parts), flush=True)
PYTHON
