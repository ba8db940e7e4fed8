#!/bin/sh
# What `rist report` tells, beside what `rist count` and `rist replay` make of the same capture: packed captures, in clear, with null packets
# deleted and enciphered, and a session from `rist send` to `rist recv --record` over loopback on two links that lose 5 per cent of the
# datagrams each way. What was sent has to be what came first time, what was recovered and what was never written; kept and late packets
# those of `count`, octets those of `replay`, and each chart has to add up to its row of the table. In the Simple Profile what came on each
# link, jitter, round trips, the buffer's fill and the delay that was used up have to be those that report_count.py counts apart. Then its processor time and its greatest memory over
# millions of records from a pipe: the time at most twice that of `count`, the memory that of a hundredth of them.
# The script ends with 1 where that doesn't hold. It takes two minutes, needs python3, and writes only below a new folder in /tmp.
# Words: how many pieces are sent (10000), how many records are piped (3000000), and a built program that stands for bin/rist (none).
set -eu
count=${1:-10000} records=${2:-3000000} program=${3:-}
here=$(cd "$(dirname "$0")" && pwd)
top=$(dirname "$here")
. "$here/recv_common.sh"
need python3
work=$(mktemp -d /tmp/report.XXXXXX)
relay=
trap '[ -z "$relay" ] || kill $relay 2> /dev/null || true; rm -rf "$work"' EXIT
if [ -z "$program" ]; then
    need_recv
    program=$top/crates/rist/out/rist
fi
bad=0

# told NAME CAPTURE WORDS: the page beside the counts and the replay.
told() {
    name=$1 capture=$2
    shift 2
    "$program" report "$capture" "$work/page" "$@"
    "$program" count "$capture" "$@" > "$work/count"
    "$program" replay "$capture" "$work/back" "$@"
    : > "$work/apart"
    case " $* " in
    *' main '*) ;;
    *' --delay '*) python3 "$here/report_count.py" "$capture" "$2" > "$work/apart" ;;
    *) python3 "$here/report_count.py" "$capture" 1000 > "$work/apart" ;;
    esac
    python3 - "$name" "$work/page" "$work/count" "$work/back" "$work/apart" <<'PY' || bad=1
import os, re, sys
name, page, counts, back, apart = sys.argv[1:6]
# Numbers without the commas between groups of three digits.
text = re.sub(r'(?<=\d),(?=\d{3})', '', open(page, encoding='ascii').read())
row = {it[0]: int(it[1]) for it in re.findall(r'<tr><th>([^<]*)</th><td>(\d+)</td>', text)}
charts = {title: [int(it) for it in re.findall(r'V(\d+)', steps)]
          for title, steps in re.findall(r"<h2>([^<]*)</h2>.*? d='M0 0([^']*)'", text, re.S)}
count = {line.split()[0]: int(line.split()[1]) for line in open(counts)}
sums = {title: sum(points) for title, points in charts.items()}
links = [total for title, total in sums.items() if title.startswith('Link ')]
table = [[int(it) for it in numbers] for numbers in re.findall('<tr>' + r'<td>(\d+)</td>' * 4 + '</tr>', text)]
counted = open(apart).read().splitlines()
told = [f'link {" ".join(map(str, it))}' for it in table]
told += [f'{it[0]} {it[1]}' for it in re.findall(r'<tr><th>((?:Jitter|Round|Buffer|Delay)[^<]*)</th><td>([\d.]+)</td>', text)]
tests = [
    ('sent', row['Sent'], row['First time'] + row['Recovered'] + row['Never written']),
    ('kept', row['First time'] + row['Recovered'], count['kept']),
    ('late', row['Late'], count['late'] + count['behind']),
    ('octets', row['Written'], os.path.getsize(back)),
    ('octets by link', [it[1] for it in table], links),
    ('first time by link', sum(it[2] for it in table), row['First time']),
    ('recovered by link', sum(it[3] for it in table), row['Recovered']),
    *((f'{kind} by link {it[0]}, its chart', it[at], sums.get(f'{kind}, link {it[0]}', 0))
      for it in table for at, kind in ((2, 'First time'), (3, 'Recovered'))),
    ('links, jitter, round trips and the buffer', told, counted or told),
    *((f'chart of {title}', sums[title], row[title]) for title in ('Written', 'First time', 'Recovered', 'Never written', 'Late')),
]
print(f'{name}: ' + ', '.join(f'{key} {value}' for key, value in row.items()) + f'; octets on links {links}')
wrong = [f'{what}: the page says {said}, beside it {found}' for what, said, found in tests if said != found]
bits = row['Written'] * 8
if row['Length'] and not bits // (row['Length'] + 1) // 1000 <= row['Rate'] <= bits // row['Length'] // 1000:
    wrong.append('the rate')
if sum(links) < row['Written'] or '<script' in text or 'http' in text:
    wrong.append('octets on links, or something to fetch')
print('\n'.join(f'FAILED: {it}' for it in wrong) or 'the same numbers')
sys.exit(bool(wrong))
PY
}

# packed NAME PACK WORDS: a capture of a transport stream of which every fourth packet is null.
packed() {
    name=$1 words=$2
    shift 2
    "$program" pack $words "$@" "$work/source" "$work/capture"
    told "$name" "$work/capture" "$@"
}

python3 "$here/pieces.py" make "$work/source" "$count" nulls
packed 'packed in clear' ''
packed 'packed in the tunnel, nulls deleted, wide numbers' '--nulls --wide' --profile main
packed 'packed under a passphrase' '' --profile main --pass secret

python3 "$here/relay.py" --lose 5 --lose-back 5 6000:5000 6002:5002 > "$work/relay" 2>&1 &
relay=$!
await_ready "$work/relay"
"$program" recv "$work/came" 127.0.0.1:5000 127.0.0.1:5002 --idle 4000 --record "$work/record" 2> "$work/recv" &
recv=$!
sleep 0.5
"$program" send "$work/source" 127.0.0.1:6000 127.0.0.1:6002 --gap 1000 --share 1:1 2> "$work/send" || { cat "$work/send"; bad=1; }
wait $recv || { cat "$work/recv"; bad=1; }
kill $relay 2> /dev/null || true
wait $relay || true
relay=
told 'live, 5 per cent lost each way' "$work/record"
told 'the same with a delay of 5 ms' "$work/record" --delay 5
cut=$(($(wc -c < "$work/record") / 2 + 7))
head -c $cut "$work/record" > "$work/cut"
if "$program" report "$work/cut" "$work/page" 2> "$work/said"; then
    echo 'FAILED: a capture that was cut is a good one'
    bad=1
else
    echo "cut in the middle: status $?, $(cat "$work/said"), a page of $(wc -c < "$work/page") octets"
fi
rm -f "$work/page"
if "$program" report "$work/nothing" "$work/page" 2> /dev/null || [ -e "$work/page" ]; then
    echo 'FAILED: a capture that is not there makes a page'
    bad=1
fi

python3 - "$program" "$records" "$work/page" <<'PY' || bad=1
import os, subprocess, sys, time
program, records, page = sys.argv[1], int(sys.argv[2]), sys.argv[3]


def peak(pid):
    """The greatest memory of a process so far, in KB; 0 once it is gone. The `ru_maxrss` of a child is at least that of this program."""
    try:
        with open(f'/proc/{pid}/status') as told:
            return max((int(line.split()[1]) for line in told if line.startswith('VmHWM:')), default=0)
    except OSError:
        return 0


def piped(words, count, gap):
    """Pipes a packed capture of so many records into a command. Returns its processor time in seconds and its greatest memory in KB."""
    source = subprocess.Popen(['head', '-c', str(count * 1316), '/dev/zero'], stdout=subprocess.PIPE)
    pack = subprocess.Popen([program, 'pack', '-', '-', '--gap', str(gap)], stdin=source.stdout, stdout=subprocess.PIPE)
    source.stdout.close()
    told = subprocess.Popen([program, *words], stdin=pack.stdout, stdout=subprocess.DEVNULL)
    pack.stdout.close()
    most = ended = 0
    while not ended:
        most = max(most, peak(told.pid))
        time.sleep(0.02)
        ended, status, used = os.wait4(told.pid, os.WNOHANG)
    assert status == 0 and pack.wait() == 0, (words, status)
    return used.ru_utime + used.ru_stime, most


bad = False
least = max(records // 100, 10000)
few = piped(['report', '-', page], least, 2000)
for gap in (2000, 50):
    report, count = piped(['report', '-', page], records, gap), piped(['count', '-'], records, gap)
    ratio = report[0] / count[0]
    print(f'{records} records, one each {gap} us: report {report[0]:.2f} s and {report[1]} KB, count {count[0]:.2f} s and {count[1]} KB;'
          f' ratio {ratio:.2f}; report of {least} records {few[1]} KB; the page has {os.path.getsize(page)} octets')
    bad = bad or ratio > 2 or report[1] > few[1] + 1024
print('FAILED: time or memory' if bad else 'time and memory are as promised')
sys.exit(bad)
PY
exit $bad
