#!/bin/bash
# A long run in little time: `rist recv` takes a stream of 100 Mbit/s by four links from another host, a network namespace of this machine. Of
# the datagrams on each link 2 in 100 are lost on each way, at random (nftables). Each minute another link is down for five seconds, and each
# ten minutes the sender ends and another one begins, as another flow. The receiver follows the sender's clock (--drift), tells how
# its links do (--stats) and records what comes (--record) on a disk that is full after 200 MB.
#
# All octets of all senders have to come, in order; the resident memory of `recv` and of each `send` may not grow by more than 1 MB after
# its first half minute; the record has to end with a line that says so, and a replay of it to give the very octets that `recv` wrote first.
#
# It takes an hour, or as many minutes as its first word says, and another sender begins each ten minutes, or each so many as its second word says
# (at least 1). It needs root, ip (Debian: iproute2), nft (nftables), openssl and sha256sum. RIST in the environment stands for another program than
# the one that is built here. It writes only below a new folder in /tmp, no more than 500 MB, ends with 1 where something isn't as it should be;
# where a tool isn't there, or without root, it says so and ends with status 3, without `recv` with status 4.
set -eu
here=$(cd "$(dirname "$0")" && pwd)
top=$(dirname "$here")
. "$here/recv_common.sh"
need ip nft openssl sha256sum head timeout env mount cmp
[ "$(id -u)" = 0 ] || { echo 'not root here'; exit 3; }
minutes=${1:-60}
work=$(mktemp -d /tmp/long_run.XXXXXX)
near=rist-near-$$ far=rist-far-$$ started=
trap 'kill -KILL $started 2> /dev/null || true; ip netns del $near 2> /dev/null || true; ip netns del $far 2> /dev/null || true
    umount "$work/small" 2> /dev/null || true; rm -rf "$work"' EXIT
if [ -z "${RIST-}" ]; then
    need_recv
    RIST=$top/crates/rist/out/rist
fi
rist="env --block-signal=INT,TERM $RIST"
gap=105
each=${2:-10}
each=$((minutes < each ? minutes : each))
senders=$((minutes / each))
pieces=$((each * 60 * 1000000 / gap))
bad=0
fail() { echo "FAILED: $*"; bad=1; }

ip netns add $near
ip netns add $far
links=
for k in 1 2 3 4; do
    ip link add "near$k-$$" netns $near type veth peer name "far$k-$$" netns $far
    ip netns exec $near ip addr add "10.9.$k.1/24" dev "near$k-$$"
    ip netns exec $far ip addr add "10.9.$k.2/24" dev "far$k-$$"
    ip netns exec $near ip link set "near$k-$$" up
    ip netns exec $far ip link set "far$k-$$" up
    links="$links 10.9.$k.2:$((5000 + 2 * k))"
done
for space in $near $far; do
    ip netns exec $space nft -f - << 'NFT'
table inet loss {
    chain in {
        type filter hook input priority 0;
        meta l4proto udp numgen random mod 100 < 2 drop
    }
}
NFT
done

# The octets of a sender, by its number: a key stream.
source_of() {
    openssl enc -aes-128-ctr -nosalt -K 00112233445566778899aabbccddeeff -iv "$(printf '%016x%016x' "$1" 0)" < /dev/zero 2> /dev/null \
        | head -c $((pieces * 1316)) || true
}

# memory NAME PID: its resident memory each five seconds, in kB, from its first half minute on.
memory() {
    sleep 30
    while kill -0 "$2" 2> /dev/null; do
        awk '/VmRSS/ { print $2 }' "/proc/$2/status" >> "$work/memory_$1" 2> /dev/null || true
        sleep 5
    done
}

mkdir "$work/small"
mount -t tmpfs -o size=200m none "$work/small"
mkfifo "$work/out"
# What comes: its SHA-256, and its first 100 MB.
{ tee >(head -c 100000000 > "$work/first"; cat > /dev/null) < "$work/out" | sha256sum > "$work/came"; } &
digest=$!
ip netns exec $far $rist recv "$work/out" $links --span 16384 --delay 1000 --restart 2000 --drift --idle 15000 --stats 1000 \
    --stats-file "$work/stats" --record "$work/small/record" 2> "$work/recv" &
receiver=$!
started="$receiver $digest"
sleep 1
memory recv $receiver &
started="$started $!"

# Each minute another link is down for five seconds.
{
    k=0
    while :; do
        sleep 55
        k=$((k % 4 + 1))
        ip netns exec $near ip link set "near$k-$$" down
        sleep 5
        ip netns exec $near ip link set "near$k-$$" up
    done
} &
cutter=$!
started="$started $cutter"

for number in $(seq "$senders"); do
    mkfifo "$work/source$number"
    source_of "$number" > "$work/source$number" &
    ip netns exec $near $rist send "$work/source$number" $links --flow $((1000 + 2 * number)) --gap $gap --store 16384 --linger 3000 \
        2> "$work/send" &
    sender=$!
    memory "send$number" "$sender" &
    status=0
    wait $sender || status=$?
    [ "$status" = 0 ] || fail "sender $number ended with status $status: $(cat "$work/send")"
    sed "s/^/sender $number: /" "$work/send"
done
status=0
wait $receiver || status=$?
kill $cutter
wait $digest || true
sed 's/^/recv: /' "$work/recv"
[ "$status" = 0 ] || fail "recv ended with status $status"

for number in $(seq "$senders"); do source_of "$number"; done | sha256sum > "$work/sent"
if cmp -s "$work/sent" "$work/came"; then
    echo "$senders senders, $((senders * pieces)) pieces in all: the same octets came"
else
    fail "other octets came than were sent"
fi
for file in "$work"/memory_*; do
    read -r least most << COUNTS
$(sort -n "$file" | sed -n '1p;$p' | tr '\n' ' ')
COUNTS
    echo "${file##*memory_}: $least to $most kB resident"
    [ $((most - least)) -le 1024 ] || fail "the memory of ${file##*memory_} grew"
done
grep -q 'record' "$work/recv" || fail 'nothing said that the record ended'
$RIST replay "$work/small/record" "$work/replayed" --span 16384 --delay 1000 --restart 2000 --drift > /dev/null 2> "$work/replay" || true
sed 's/^/replay: /' "$work/replay"
count=$(stat -c %s "$work/replayed")
# What the record's last second holds is written only if all of it was recorded.
count=$((count > 20000000 ? count - 20000000 : 0))
if [ "$count" -gt 0 ] && cmp -s -n "$count" "$work/replayed" "$work/first"; then
    echo "the record: its replay gives the first $count octets as they came"
else
    fail "the replay of the record gives other octets"
fi
echo "$(wc -l < "$work/stats") lines of statistics"
exit $bad
