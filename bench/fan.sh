#!/bin/sh
# Several streams of one tunnel, received live by `rist fan`, each into a file of its own. First two streams of one `ristsender` of librist's
# (Debian: rist-tools 0.2.7) with different `stream-id`, which sends each from a socket of its own, through relay.py with 5 per cent of the
# datagrams lost each way: as a NAT does, it has a port for each of these sockets, so an answer for one stream that goes to the other's reaches
# nobody. In clear, under AES-128, and once more with all ports of the relay new after each 1,500 datagrams: each file is compared octet for
# octet with what was fed. At most two pieces before the first that came and twenty after the last may be missing, since the sender is stopped,
# and none between. Then eight places at 20 Mbit/s each over loopback: eight captures of `rist pack`, each at its own port of the tunnel, sent
# to one link by one C program (`recv_feed.c`), to one `rist fan`; and each to a `rist recv` of its own: processor time of both, and their
# ratio.
#
# COUNT, GAP (microseconds) and RIST in the environment stand for another count of pieces, another gap, and another program than the one that
# is built here; SECONDS_EACH for how long the eight streams last. It takes two and a half minutes, uses 127.0.0.1 alone and writes only below
# a new folder in /tmp. It ends with 1 where something is missing; where a tool isn't there it says so and ends with status 3, without `fan`
# with status 4.
set -eu
here=$(cd "$(dirname "$0")" && pwd)
top=$(dirname "$here")
. "$here/recv_common.sh"
need ristsender cc python3 timeout
work=$(mktemp -d /tmp/fan.XXXXXX)
started=
trap 'kill $started 2> /dev/null || true; rm -rf "$work"' EXIT
if [ -z "${RIST-}" ]; then
    need_recv
    RIST=$top/crates/rist/out/rist
fi
status=0
"$RIST" fan "1968=$work/none" 127.0.0.1:5000 --turns 1 > "$work/log" 2>&1 || status=$?
if [ "$status" = 2 ]; then
    echo 'this rist has no fan'
    exit 4
fi
count=${COUNT:-3000} gap=${GAP:-3000}
python3 "$here/pieces.py" make "$work/one" "$count"
python3 "$here/pieces.py" make "$work/two" "$count" nulls

# fanned NAME LIBRIST RIST RELAY: two streams of ristsender with the words LIBRIST to `rist fan` with the words RIST, through a relay with
# the words RELAY.
fanned() {
    echo "$1"
    rm -f "$work/first" "$work/second"
    timeout 120 python3 "$here/relay.py" --one-port --lose 5 --lose-back 5 --delay 5 --seed 61 --quiet 4 --most 100 $4 7000:5000 > "$work/relay" &
    relay=$!
    started="$relay"
    await_ready "$work/relay"
    timeout 120 "$RIST" fan "1000=$work/first,2000=$work/second" 127.0.0.1:5000 --tunnel librist --idle 4000 $3 > "$work/log" 2>&1 &
    receiver=$!
    started="$started $receiver"
    sleep 0.5
    timeout 100 ristsender -p 1 $2 -i 'udp://@127.0.0.1:6000?stream-id=1000,udp://@127.0.0.1:6100?stream-id=2000' \
        -o 'rist://127.0.0.1:7000?buffer=1000' > "$work/librist" 2>&1 &
    sender=$!
    started="$started $sender"
    sleep 1.5
    timeout 60 python3 "$here/pieces.py" feed "$work/one" 6000 "$gap" &
    feed=$!
    timeout 60 python3 "$here/pieces.py" feed "$work/two" 6100 "$gap"
    wait $feed
    sleep 3
    kill $sender 2> /dev/null || true
    status=0
    wait $receiver || status=$?
    kill $relay 2> /dev/null || true
    wait $relay $sender 2> /dev/null || true
    started=
    cat "$work/log"
    grep relay: "$work/relay" || true
    good=0
    python3 "$here/pieces.py" compare "$work/one" "$work/first" 2 20 || good=1
    python3 "$here/pieces.py" compare "$work/two" "$work/second" 2 20 || good=1
    [ "$status" = 0 ] && [ "$good" = 0 ]
}

bad=0
fanned clear '' '' '' || bad=1
fanned sealed '-s drill -e 128' '--pass drill --bits 128' '' || bad=1
fanned 'sealed, ports that change' '-s drill -e 128' '--pass drill --bits 128' '--forget 1500' || bad=1

cc -O2 -o "$work/feed" "$here/recv_feed.c"
python3 - "$RIST" "$work" "${SECONDS_EACH:-10}" <<'PYTHON' || bad=1
import os, subprocess, sys, time

rist, work, seconds = sys.argv[1], sys.argv[2], float(sys.argv[3])
PLACES, LENGTH, GAP = 8, 1316, 526    # a piece each 526 us: 20 Mbit/s
PORTS = [1000 + 1000 * k for k in range(PLACES)]
MOST = 30 + 4 * seconds


def path(name, k):
    return os.path.join(work, f'{name}{k}')


def make():
    """A stream for each place, and a capture of its datagrams at the place's port."""
    for k, port in enumerate(PORTS):
        with open(path('stream', k), 'wb') as out:
            out.write(os.urandom(int(seconds * 1e6 / GAP) * LENGTH))
        subprocess.run([rist, 'pack', path('stream', k), path('capture', k), '--gap', str(GAP), '--profile', 'main', '--port', str(port)], check=True)


def fed(receivers, links):
    """The processor time of receivers while each capture is sent to its link."""
    time.sleep(0.5)
    feeds = [subprocess.Popen([os.path.join(work, 'feed'), path('capture', k), str(link)], stdout=subprocess.DEVNULL) for k, link in enumerate(links)]
    for feed in feeds:
        feed.wait(timeout=MOST)
    used = 0
    for receiver in receivers:
        end = time.monotonic() + MOST
        while True:
            pid, status, usage = os.wait4(receiver.pid, os.WNOHANG)
            if pid:
                break
            if time.monotonic() > end:
                receiver.kill()
                sys.exit('a receiver did not end')
            time.sleep(0.05)
        if status:
            sys.exit(f'a receiver ended with {os.waitstatus_to_exitcode(status)}: {receiver.stderr.read().decode().strip()}')
        used += usage.ru_utime + usage.ru_stime
    return used


def whole(name):
    """How many of the streams came whole."""
    return sum(subprocess.run(['cmp', '-s', path('stream', k), path(name, k)]).returncode == 0 for k in range(PLACES))


make()
COMMON = ['--idle', '1500', '--span', '16384']
outs = ','.join(f'{port}={path("fan", k)}' for k, port in enumerate(PORTS))
fan = subprocess.Popen([rist, 'fan', outs, '127.0.0.1:5000', *COMMON], stderr=subprocess.PIPE)
together = fed([fan], [5000] * PLACES)
each = [subprocess.Popen([rist, 'recv', path('recv', k), f'127.0.0.1:{5100 + 2 * k}', '--profile', 'main', '--port', str(port), *COMMON], stderr=subprocess.PIPE)
        for k, port in enumerate(PORTS)]
apart = fed(each, [5100 + 2 * k for k in range(PLACES)])
print(f'eight places at {LENGTH * 8 / GAP:.0f} Mbit/s for {seconds:.0f} s: one rist fan {together:.2f} s of the processor, '
      f'eight rist recv {apart:.2f}; ratio {together / apart:.2f}')
print(f'whole: {whole("fan")} of {PLACES} of the fan, {whole("recv")} of {PLACES} of the others')
sys.exit(0 if whole('fan') == PLACES else 1)
PYTHON
exit $bad
