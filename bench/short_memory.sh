#!/bin/sh
# A simulated run under ever more memory, from what the program takes to say its version on: each run is told in full, by the same seven
# lines, with status 0, or ends with status 1 and writes nothing to the standard output. It ends with 1 where one does neither, or where
# no run was short of memory.
# Words: COUNT (default 1000), LINKS (2), LOSS in a thousand (100), and a built program that stands for bin/rist (none). Needs python3.
set -eu
command -v python3 > /dev/null || { echo "no python3 here"; exit 3; }
count=${1:-1000}
links=${2:-2}
loss=${3:-100}
here=$(cd "$(dirname "$0")" && pwd)
program=${4:-}
if [ -z "$program" ]; then
    "$here/../bin/rist" --version > /dev/null
    program=$here/../crates/rist/out/rist
fi
exec python3 - "$program" "$count" "$links" "$loss" <<'PY'
import resource, subprocess, sys

rist, count, links, loss = sys.argv[1:5]
KILO = 1024


def run(words, kilos):
    def limit():
        resource.setrlimit(resource.RLIMIT_AS, (kilos * KILO, kilos * KILO))

    return subprocess.run([rist, *words], capture_output=True, preexec_fn=limit if kilos else None)


drill = ['drill', '1', count, links, loss]
whole = run(drill, 0)
assert whole.returncode == 0, whole
kilos = 1024
while True:
    try:
        if run(['--version'], kilos).returncode == 0:
            break
    except (OSError, subprocess.SubprocessError):
        pass
    kilos += 256
print('the version is said with', kilos, 'KB')
told = short = other = 0
while told < 4:
    got = run(drill, kilos)
    if got.returncode == 0 and got.stdout == whole.stdout:
        told += 1
    elif got.returncode == 1 and got.stdout == b'':
        short += 1
    else:
        other += 1
        print('with', kilos, 'KB:', got)
    kilos += 256
print(short, 'short of memory, which wrote nothing;', told, 'told in full;', other, 'otherwise')
sys.exit(1 if other or not short else 0)
PY
