#!/bin/sh
# Sends a stream from `rist send` to `rist recv --stats 100` over four links of loopback, once with the lines in a file and once with an
# error output that nobody reads and that is full after some ten seconds. Each time all must come, octet for octet. Each line of the
# file must be a JSON object, each link must come up and go down once, and the totals of its last line must have all that was sent. The
# last line of the receiver must have the counts that `recv` prints at its end.
# The script ends with 1 where that doesn't hold. It takes a minute, needs python3, and writes only below a new folder in /tmp. Where a
# tool isn't there it says so and ends with status 3, without `recv` with status 4.
# Words: how many pieces (20000), and a built program that stands for bin/rist (none).
set -eu
count=${1:-20000} program=${2:-}
here=$(cd "$(dirname "$0")" && pwd)
top=$(dirname "$here")
. "$here/recv_common.sh"
need python3 cmp mkfifo
work=$(mktemp -d /tmp/stats.XXXXXX)
holder=
trap '[ -z "$holder" ] || kill $holder 2> /dev/null || true; rm -rf "$work"' EXIT
if [ -z "$program" ]; then
    need_recv
    program=$top/crates/rist/out/rist
fi
python3 "$here/pieces.py" make "$work/source" "$count"
links='127.0.0.1:5000 127.0.0.1:5002 127.0.0.1:5004 127.0.0.1:5006'
bad=0

# fail TEXT
fail() {
    echo "FAILED: $1"
    bad=1
}

# run ERRORS WORDS: the stream, with the error output of `recv` there.
run() {
    errors=$1
    shift
    # shellcheck disable=SC2086
    "$program" recv "$work/came" $links --idle 3000 --stats 100 "$@" 2> "$errors" &
    recv=$!
    sleep 0.5
    # shellcheck disable=SC2086
    "$program" send "$work/source" $links --gap 1000 --stats 100 --stats-file "$work/sent" 2> "$work/send" || fail "send: $(cat "$work/send")"
    wait $recv || fail 'recv'
    cmp "$work/source" "$work/came" && echo 'all came' || fail 'what came differs'
}

echo 'lines in a file'
run "$work/recv" --stats-file "$work/lines"
cat "$work/recv"
python3 - "$work/lines" "$count" "$work/recv" << 'END' || fail 'the lines'
import json
import sys

last, changes, receiver = {}, {}, []
for line in open(sys.argv[1], encoding="utf-8"):
    it = json.loads(line)
    if it["event"] == "receiver":
        receiver.append(it)
        continue
    last[it["link"]] = it
    if it["event"] != "interval":
        changes.setdefault(it["link"], []).append(it["event"])
assert changes == {link: ["up", "down"] for link in range(4)}, changes
for link, it in sorted(last.items()):
    assert it["datagrams"] >= int(sys.argv[2]) and it["dropped"] == 0, it
    print(link, it["datagrams"], it["octets"])

# The counts that the run printed at its end: the last line of the receiver comes seconds after the last packet, so it has all of them.
said = open(sys.argv[3], encoding="utf-8").read().replace(",", " ").split()
counts = {said[at]: int(said[at + 1]) for at in range(len(said) - 1) if said[at + 1].isdigit()}
assert len(receiver) >= 20 and all(it["flow"] == 0 for it in receiver), len(receiver)
for before, after in zip(receiver, receiver[1:]):
    assert all(before["packets"][name] <= after["packets"][name] for name in before["packets"]), after
    assert before["asked"] <= after["asked"], after
end = receiver[-1]
for name, count in {**end["packets"], "refused": end["refused"]}.items():
    assert name == "recovered" or counts.get(name) == count, (name, count, counts)
assert end["packets"]["recovered"] <= end["packets"]["kept"] and end["held"] == 0, end
# A packet is sent again only where its number was asked for. How many were is compared with tshark's count by report_tshark.sh.
assert end["packets"]["recovered"] <= end["asked"], end
# The output was the source whole, so nothing was lost.
assert end["lost"] == 0 and end["fill"] == 0, end
print("receiver", end)
END
echo 'an error output that nobody reads'
mkfifo "$work/nobody"
# Who holds the pipe open, and reads nothing of it.
sleep 600 < "$work/nobody" &
holder=$!
run "$work/nobody"
exit $bad
