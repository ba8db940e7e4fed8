#!/bin/sh
# Two paths between two machines, each of which is down for a while, `rist send` on the one and `rist recv` on the other: network
# namespaces with two pairs of interfaces stand for them. The first path is taken down after 2 s and comes back after 4 s; the second
# one is taken down after 6 s and stays so. 8,000 pieces of 1,316 octets go on both paths, one each millisecond: all must come, in
# order, so the first path has to carry again. It takes a quarter of a minute, needs root, python3 and ip (Debian: iproute2), and
# writes only below a new folder in /tmp. Where a tool isn't there it says so and ends with status 3, without `recv` with status 4.
set -eu
here=$(cd "$(dirname "$0")" && pwd)
top=$(dirname "$here")
. "$here/recv_common.sh"
need python3 ip timeout
[ "$(id -u)" = 0 ] || { echo 'not root here'; exit 3; }
work=$(mktemp -d /tmp/path_down.XXXXXX)
near=rist-near-$$ far=rist-far-$$ started=
trap 'kill $started 2> /dev/null || true; ip netns del $near 2> /dev/null || true; ip netns del $far 2> /dev/null || true; rm -rf "$work"' EXIT
need_recv
rist=$top/crates/rist/out/rist
python3 "$here/pieces.py" make "$work/source" 8000
ip netns add "$near"
ip netns add "$far"
for path in 0 1; do
    ip link add "near$path" netns "$near" type veth peer name "far$path" netns "$far"
    ip -n "$near" addr add "10.9.$path.1/24" dev "near$path"
    ip -n "$far" addr add "10.9.$path.2/24" dev "far$path"
    ip -n "$near" link set "near$path" up
    ip -n "$far" link set "far$path" up
done
timeout 60 ip netns exec "$far" "$rist" recv "$work/came" 10.9.0.2:5000 10.9.1.2:5000 --idle 4000 > "$work/log" 2>&1 &
receiver=$!
started=$receiver
sleep 0.5
timeout 60 ip netns exec "$near" "$rist" send "$work/source" 10.9.0.2:5000 10.9.1.2:5000 --gap 1000 > "$work/sender" 2>&1 &
sender=$!
started="$started $sender"
sleep 2
ip -n "$near" link set near0 down
sleep 2
ip -n "$near" link set near0 up
sleep 2
ip -n "$near" link set near1 down
status=0
wait $sender || status=$?
cat "$work/sender"
echo "rist send ended with status $status"
wait $receiver || status=$?
started=
cat "$work/log"
python3 "$here/pieces.py" compare "$work/source" "$work/came" 0 0 || status=1
exit $status
