#!/bin/sh
# What `rist` shows of how far it is. Over a file that takes more than a second, and from a pipe that does, the error output as a terminal
# has to get lines, the first after a second, no two within 90 ms, each in place of the one before, with shares that never fall, and all
# of it erased at the end; what is printed on the same terminal has to stand on clean lines. An error output that is a pipe or a file has
# to get no octet, and neither has a terminal in the first second, nor from `send`, which runs live. What is written has to be the same in
# all cases. The script ends with 1 where that doesn't hold. It takes a minute, needs python3, and writes only below a new folder in /tmp.
# Words: how many megabytes are packed (100), and a built program that stands for bin/rist (none).
set -eu
size=${1:-100} program=${2:-}
here=$(cd "$(dirname "$0")" && pwd)
top=$(dirname "$here")
. "$here/recv_common.sh"
need python3
work=$(mktemp -d /tmp/progress.XXXXXX)
trap 'rm -rf "$work"' EXIT
if [ -z "$program" ]; then
    need_recv
    program=$top/crates/rist/out/rist
fi
head -c "$((size * 1000000))" /dev/urandom > "$work/source"
"$program" pack "$work/source" "$work/capture"
python3 -u - "$program" "$work" <<'PY'
import os, pty, re, select, subprocess, sys, time
program, work = sys.argv[1:3]
bad = 0
KNOWN = re.compile(r'rist: (\d+) % of \d+\.\d MB, \d+\.\d MB/s, \d+:\d\d left')
UNKNOWN = re.compile(r'rist: \d+\.\d MB, \d+\.\d MB/s')
ERASE = '\x1b[K'


def fail(name, text):
    global bad
    bad = 1
    print(f'FAILED: {name}: {text}')


def run(words, output, feed=None, terminal_output=False):
    """Runs the program with a terminal as its error output. Returns what came there, each piece with its moment, and the status."""
    master, slave = pty.openpty()
    source = subprocess.PIPE if feed else subprocess.DEVNULL
    start = time.monotonic()
    child = subprocess.Popen([program] + words, stdin=source, stdout=slave if terminal_output else output, stderr=slave)
    os.close(slave)
    if feed and os.fork() == 0:
        for part in feed:
            if isinstance(part, bytes):
                try:
                    child.stdin.write(part)
                    child.stdin.flush()
                except BrokenPipeError:
                    break
            else:
                time.sleep(part)
        os._exit(0)
    if feed:
        child.stdin.close()
    came = []
    while True:
        if select.select([master], [], [], 0.5)[0]:
            try:
                piece = os.read(master, 65536)
            except OSError:
                break
            if not piece:
                break
            came.append((time.monotonic() - start, piece))
    status = child.wait()
    os.close(master)
    return came, status, time.monotonic() - start


def look(name, came, status, pattern, lasted):
    """The lines that a terminal got: when, and which."""
    if status:
        fail(name, f'status {status}')
    text = b''.join(piece for _, piece in came).decode()
    lines = [part[:-len(ERASE)] for part in text.split('\r') if part.endswith(ERASE) and part != ERASE]
    print(f'{name}: {lasted:.1f} s, {len(lines)} lines, the last: {lines[-1] if lines else "none"}')
    if not lines:
        return fail(name, 'a terminal shows nothing')
    if came[0][0] < 1:
        fail(name, f'something came after {came[0][0]:.3f} s')
    if '\r'.join([''] + [line + ERASE for line in lines] + [ERASE]) != text:
        fail(name, 'the terminal got something else, or the last line stays')
    for line in lines:
        if not pattern.fullmatch(line):
            fail(name, f'a line is {line!r}')
    if len(lines) > (lasted - 0.9) * 10 + 1:
        fail(name, 'more than ten lines a second')
    shares = [int(pattern.fullmatch(line).group(1)) for line in lines if pattern is KNOWN and KNOWN.fullmatch(line)]
    if shares != sorted(shares) or (shares and not 0 <= shares[0] <= shares[-1] <= 100):
        fail(name, f'shares {shares}')


def slow_reader(name):
    """What takes the output of a command: it pauses behind its first 65,536 octets."""
    text = f'{{ dd bs=65536 count=1 iflag=fullblock 2> /dev/null; sleep 1.5; cat; }} > {name}'
    return subprocess.Popen(['sh', '-c', text], stdin=subprocess.PIPE)


def slowly(name, words):
    """A command over the capture whose output is taken slowly, with a terminal, with a pipe and with a file as its error output."""
    got = []
    for way in 'terminal', 'pipe', 'file':
        reader = slow_reader(f'{work}/out')
        if way == 'terminal':
            came, status, lasted = run(words, reader.stdin)
            look(name, came, status, KNOWN, lasted)
        else:
            errors = subprocess.PIPE if way == 'pipe' else open(f'{work}/errors', 'wb')
            done = subprocess.run([program] + words, stdout=reader.stdin, stderr=errors, check=False)
            text = done.stderr if way == 'pipe' else open(f'{work}/errors', 'rb').read()
            if done.returncode or text:
                fail(name, f'a {way} got {text!r}, status {done.returncode}')
        reader.stdin.close()
        reader.wait()
        got.append(open(f'{work}/out', 'rb').read())
    if not got[0] or got[0] != got[1] or got[0] != got[2]:
        fail(name, 'the output is another one beside a terminal')
    return got[0]


def parts(name, pause):
    with open(name, 'rb') as it:
        octets = it.read()
    quarter, half = len(octets) // 4, len(octets) // 2
    return [octets[:quarter], pause, octets[quarter:half], pause / 4, octets[half:]]


capture = f'{work}/capture'
slowly('show', ['show', capture])
for command in ['replay', capture, '-'], ['pack', f'{work}/source', '-']:
    slowly(command[0], command)
# From a pipe that pauses: no length is known.
for command in ['count', '-'], ['replay', '-', f'{work}/back'], ['report', '-', f'{work}/page']:
    with open(f'{work}/out', 'wb') as output:
        came, status, lasted = run(command, output, parts(capture, 1.2))
        look(command[0] + ' from a pipe', came, status, UNKNOWN, lasted)
with open(f'{work}/out', 'wb') as output:
    came, status, lasted = run(['pack', '-', f'{work}/packed'], output, parts(f'{work}/source', 1.2))
    look('pack from a pipe', came, status, UNKNOWN, lasted)
if open(f'{work}/back', 'rb').read() != open(f'{work}/source', 'rb').read():
    fail('replay', 'the stream is another one')
if open(f'{work}/packed', 'rb').read() != open(capture, 'rb').read():
    fail('pack', 'the capture is another one')

# On a terminal that gets the output too, each line of it is clean: what a terminal shows of it, by its control characters.
came, status, lasted = run(['count', '-'], None, parts(capture, 1.2), terminal_output=True)
text = b''.join(piece for _, piece in came).decode()
shown = [re.sub(r'^.*\r\x1b\[K', '', line) for line in text.replace('\r\n', '\n').split('\n')]
want = open(f'{work}/counts', 'w')
subprocess.run([program, 'count', capture], stdout=want, check=True)
want.close()
if shown != open(f'{work}/counts').read().split('\n') or '\x1b[K' not in text:
    fail('count on one terminal', f'it shows {shown}')
else:
    print('count on one terminal: clean')

# What ends within a second shows nothing.
with open(f'{work}/short', 'wb') as it:
    it.write(open(f'{work}/source', 'rb').read(13160))
subprocess.run([program, 'pack', f'{work}/short', f'{work}/few'], check=True)
for words in ['count', f'{work}/few'], ['pack', f'{work}/short', f'{work}/few']:
    with open(f'{work}/out', 'wb') as output:
        came, status, lasted = run(words, output)
    if came or status:
        fail(f'a short {words[0]}', f'a terminal got {came}')

# A live command: 3,000 pieces, a millisecond each.
with open(f'{work}/live', 'wb') as it:
    it.write(open(f'{work}/source', 'rb').read(1316 * 3000))
with open(f'{work}/out', 'wb') as output:
    came, status, lasted = run(['send', f'{work}/live', '127.0.0.1:5000', '--gap', '1000', '--linger', '0'], output)
if came or lasted < 2.5:
    fail('send', f'in {lasted:.1f} s a terminal got {came}, status {status}')
else:
    print(f'send: {lasted:.1f} s, no line')
print('bad' if bad else 'good')
sys.exit(bad)
PY
