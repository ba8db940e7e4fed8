#!/bin/bash
# Sends a stream of 100 Mbit/s from `rist send` to `rist recv` over loopback, each datagram on four links, and compares what came with
# what was sent by its SHA-256. It takes ten minutes, or as many as its first word says, needs openssl, and keeps no stream on disk. It
# ends with 1 where an octet is missing. Where a tool isn't there it says so and ends with status 3, without `recv` with status 4.
set -eu
here=$(cd "$(dirname "$0")" && pwd)
top=$(dirname "$here")
. "$here/recv_common.sh"
need openssl sha256sum head timeout
work=$(mktemp -d /tmp/four_links.XXXXXX)
trap 'rm -rf "$work"' EXIT
need_recv
rist=${RIST:-$top/crates/rist/out/rist}
minutes=${1:-10}
gap=105
pieces=$((minutes * 60 * 1000000 / gap))
links='127.0.0.1:5000 127.0.0.1:5002 127.0.0.1:5004 127.0.0.1:5006'

# The same octets at each call: a key stream.
source_of() {
    openssl enc -aes-128-ctr -nosalt -K 00112233445566778899aabbccddeeff -iv 00000000000000000000000000000000 < /dev/zero 2> /dev/null \
        | head -c $((pieces * 1316)) || true
}
{ timeout $((minutes * 60 + 120)) "$rist" recv - $links --span 16384 --idle 5000 2> "$work/recv"; echo $? > "$work/status"; } | sha256sum > "$work/came" &
receiver=$!
sleep 1
status=0
source_of | timeout $((minutes * 60 + 120)) "$rist" send - $links --gap $gap --store 16384 2> "$work/send" || status=1
wait $receiver
cat "$work/send" "$work/recv"
[ "$(cat "$work/status")" = 0 ] || status=1
source_of | sha256sum > "$work/sent"
if cmp -s "$work/sent" "$work/came"; then echo "$pieces pieces: the same"; else echo "$pieces pieces: not the same"; status=1; fi
exit $status
