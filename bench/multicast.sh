#!/bin/sh
# Multicast groups as source and as output, between network namespaces that stand for an encoder, the machine of `rist send`, that of
# `rist recv`, and a player's with two interfaces. 2,000 pieces of 1,316 octets go to the group 239.1.1.1, which the machine of `send`
# joins as docs/MANUAL.md says (`ip addr add .. autojoin`); `recv` gives them to the group 239.1.1.2, and the player's machine joins that on both
# interfaces. All pieces have to come, in order, with the time to live that `ttl=` says, on the interface of `from=`, or without it
# on that of the route; by UDP and by RTP. First a `send` whose machine has joined nothing: it gets nothing.
#
# RIST in the environment stands for another program than the one that is built here. It takes a minute, needs root, python3 and ip (Debian:
# iproute2), and writes only below a new folder in /tmp. It ends with 1 where something is missing or came otherwise; where a tool isn't
# there, or without root, it says so and ends with status 3, without `recv` with status 4.
set -eu
here=$(cd "$(dirname "$0")" && pwd)
top=$(dirname "$here")
. "$here/recv_common.sh"
need python3 ip timeout env
[ "$(id -u)" = 0 ] || { echo 'not root here'; exit 3; }
work=$(mktemp -d /tmp/multicast.XXXXXX)
started= spaces=
trap 'kill $started 2> /dev/null || true; for it in $spaces; do ip netns del $it 2> /dev/null || true; done; rm -rf "$work"' EXIT
if [ -z "${RIST-}" ]; then
    need_recv
    RIST=$top/crates/rist/out/rist
fi
rist="env --block-signal=INT,TERM $RIST"
count=2000 gap=2000
python3 "$here/pieces.py" make "$work/source" $count
cat > "$work/group.py" <<'PY'
"""group.py give FILE GROUP PORT FROM GAP [rtp]: its pieces to a group; group.py take FILE GROUP PORT [rtp]: what comes to a group, until SIGTERM,
which prints the interfaces and the times to live that it came with."""
import signal, socket, struct, sys, time

words = sys.argv[2:]
is_rtp = words[-1] == 'rtp'
name, group, port = words[0], words[1], int(words[2])
end = socket.socket(socket.AF_INET, socket.SOCK_DGRAM)
if sys.argv[1] == 'give':
    end.setsockopt(socket.IPPROTO_IP, socket.IP_MULTICAST_IF, socket.inet_aton(words[3]))
    start = time.monotonic()
    with open(name, 'rb') as source:
        k = 0
        while piece := source.read(1316):
            time.sleep(max(0, start + k * int(words[4]) / 1e6 - time.monotonic()))
            head = bytes([0x80, 33]) + struct.pack('>HII', k & 0xFFFF, k * 180, 9) if is_rtp else b''
            end.sendto(head + piece, (group, port))
            k += 1
    sys.exit()
IP_PKTINFO, IP_RECVTTL, IP_TTL = 8, 12, 2
end.setsockopt(socket.SOL_SOCKET, socket.SO_RCVBUF, 4 << 20)
end.setsockopt(socket.IPPROTO_IP, IP_PKTINFO, 1)
end.setsockopt(socket.IPPROTO_IP, IP_RECVTTL, 1)
end.bind((group, port))
seen = set()
def stop(*_):
    signal.signal(signal.SIGTERM, signal.SIG_IGN)
    print(', '.join(sorted(f'{device} with a time to live of {ttl}' for device, ttl in seen)) or 'nothing', flush=True)
    sys.exit()
signal.signal(signal.SIGTERM, stop)
with open(name, 'wb', buffering=0) as out:
    print('ready', flush=True)
    while True:
        datagram, ancillary, _, _ = end.recvmsg(4096, 256)
        device = ttl = None
        for level, kind, octets in ancillary:
            if kind == IP_PKTINFO:
                device = socket.if_indextoname(struct.unpack('=i', octets[:4])[0])
            elif kind == IP_TTL:
                ttl = struct.unpack('=i', octets)[0]
        seen.add((device, ttl))
        out.write(datagram[12:] if is_rtp else datagram)
PY

# Four machines, and the wires between them: the encoder's eth0 with in0, out0 with net0, and a0 and b0 with the player's.
for it in encoder sender receiver player; do
    eval "$it=rist-$it-$$"
    spaces="$spaces rist-$it-$$"
    ip netns add "rist-$it-$$"
    ip -n "rist-$it-$$" link set lo up
done

# wire FIRST DEVICE SECOND DEVICE NET
wire() {
    ip link add "$2" netns "$1" type veth peer name "$4" netns "$3"
    ip -n "$1" addr add "10.9.$5.1/24" dev "$2"
    ip -n "$3" addr add "10.9.$5.2/24" dev "$4"
    ip -n "$1" link set "$2" up
    ip -n "$3" link set "$4" up
}
wire "$encoder" eth0 "$sender" in0 1
wire "$sender" out0 "$receiver" net0 2
wire "$receiver" a0 "$player" a0 3
wire "$receiver" b0 "$player" b0 4
ip -n "$receiver" route add 239.0.0.0/8 dev a0
for device in a0 b0; do
    ip -n "$player" addr add 239.1.1.2/32 dev $device autojoin
done
in_space() {
    space=$1
    shift
    exec ip netns exec "$space" timeout 60 "$@"
}

# try NAME SCHEME OUT WANTED: pieces to the first group by this scheme, and to the second one with the words OUT behind its port.
try() {
    echo "$1"
    form=
    [ "$2" = udp ] || form=rtp
    rm -f "$work/came"
    (in_space "$player" python3 "$work/group.py" take "$work/came" 239.1.1.2 5004 $form) > "$work/reader" &
    reader=$!
    (in_space "$receiver" $rist recv "$2://239.1.1.2:5004$3" 10.9.2.2:5000 --idle 3000) > "$work/log" 2>&1 &
    receiving=$!
    (in_space "$sender" $rist send "$2://239.1.1.1:5004" 10.9.2.2:5000 --gap 100) > "$work/sent" 2>&1 &
    sending=$!
    started="$reader $receiving $sending"
    await_ready "$work/reader"
    sleep 1
    (in_space "$encoder" python3 "$work/group.py" give "$work/source" 239.1.1.1 5004 10.9.1.1 $gap $form)
    sleep 1
    status=0 got=0
    kill -TERM $sending
    wait $sending || status=$?
    wait $receiving || got=$?
    kill -TERM $reader
    wait $reader || true
    started=
    cat "$work/sent" "$work/log"
    told=$(tail -n 1 "$work/reader")
    echo "came on $told"
    [ "$status$got" = 00 ] || echo "rist send ended with status $status, rist recv with $got"
    [ "$told" = "$4" ] || { echo "wanted: $4"; return 1; }
    [ "$4" = nothing ] || python3 "$here/pieces.py" compare "$work/source" "$work/came" 0 0 && [ "$status$got" = 00 ]
}

bad=0
try 'a group that the machine has not joined' udp '?ttl=1&from=10.9.4.1' nothing || bad=1
ip -n "$sender" addr add 239.1.1.1/32 dev in0 autojoin
try 'UDP, ttl=1, from the second interface' udp '?ttl=1&from=10.9.4.1' 'b0 with a time to live of 1' || bad=1
try 'UDP, ttl=7, by the route' udp '?ttl=7' 'a0 with a time to live of 7' || bad=1
try 'RTP, by the route and the time to live of the system' rtp '' 'a0 with a time to live of 1' || bad=1
try 'RTP, ttl=255, from the second interface' rtp '?from=10.9.4.1&ttl=255' 'b0 with a time to live of 255' || bad=1
[ $bad = 0 ] && echo 'all pieces, as wanted' || echo 'FAILED'
exit $bad
