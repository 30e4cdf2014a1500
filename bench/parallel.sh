#!/bin/sh
# Times forcing by several workers at once: 48 jobs of `cpp` that take some 50 ms each, with few bytes in and out, with `--local`, `--jobs 1`, 2
# and 4, beside `make -j` and `ninja -j` that do the same jobs by one run of the built program each; then 1,000 small joins over one worker on this
# machine and over four. It prints the milliseconds, the part of the processors that was used, the ratios, and the caller's processor time beside
# that of its workers. It needs python3, and works in a folder on a memory file system. The one argument, if given, is how often a job includes its
# header, which sets its time.
set -eu
here=$(cd "$(dirname "$0")/.." && pwd)
. "$here/bench/setup.sh"
includes=${1:-500}
jobs=48

# Makes a store with the jobs, the words that force all of them, a store for each of them, a makefile and a ninja file.
mkdir -p "$folder/long/.gg/objects"
cd "$folder/long"
python3 - "$jobs" "$includes" <<'END'
import os, shutil, sys
from store import keep, thunk

jobs, includes = int(sys.argv[1]), int(sys.argv[2])

def text(lines):
    return ('\n'.join(lines) + '\n').encode()

def make(i):
    header = ['#define K%d_%d %d' % (i, line % 50, line) for line in range(1000)]
    inputs = [('h.h', keep(text(header))), ('main.c', keep(text(['#include "h.h"'] * includes + ['int v = K%d_1;' % i])))]
    return thunk(keep(b'gg-tool cpp\n'), ['main.c'], inputs, 'out')

items = [make(i) for i in range(jobs)]
with open('words', 'w') as file:
    file.write('\n'.join(items))
for i, item in enumerate(items):
    os.makedirs('job%d/.gg/objects' % i)
    top = os.getcwd()
    os.chdir('job%d' % i)
    make(i)
    os.chdir(top)
gg = os.environ['GG']
with open('Makefile', 'w') as file:
    file.write('all: %s\n' % ' '.join('made%d' % i for i in range(jobs)))
    for i, item in enumerate(items):
        file.write('made%d:\n\t@cd job%d && %s force --local "%s" >/dev/null && touch ../made%d\n' % (i, i, gg, item, i))
with open('build.ninja', 'w') as file:
    for i, item in enumerate(items):
        file.write('rule run%d\n  command = cd job%d && %s force --local "%s" >/dev/null && touch ../made%d\nbuild made%d: run%d\n'
                   % (i, i, gg, item.replace('$', '$$'), i, i, i))
END
cp -r .gg kept

# Forces all items with some words behind `force`, over a fresh store.
force() {
    # shellcheck disable=SC2046
    "$gg" force "$@" $(cat words)
}

# Sets best to the least nanoseconds of three runs, and used to the part of so many processors that was used: over_fresh PROCESSORS COMMAND.
over_fresh() {
    processors=$1
    shift
    best=
    for run in 1 2 3; do
        rm -rf .gg made* .ninja_log .ninja_deps
        cp -r kept .gg
        for job in job*; do rm -rf "$job/.gg/notes"; done
        before=$(processor_time)
        now=$(took "$@")
        spent=$(($(processor_time) - before))
        if [ -z "$best" ] || [ "$now" -lt "$best" ]; then
            best=$now
            used=$(awk "BEGIN { printf \"%.2f\", $spent * 1e7 / $now / $processors }")
        fi
    done
}

# Hundredths of a second that this shell's children have used.
processor_time() {
    # The fields 16 and 17 of the shell's own stat, behind the name in brackets.
    sed 's/.*) //' "/proc/$$/stat" | awk '{ print $14 + $15 }'
}

over_fresh 1 force --local
alone=$best
echo "$jobs jobs, here alone: $((alone / 1000000)) ms, $((alone / jobs / 1000000)) ms a job"
for number in 1 2 4; do
    over_fresh "$number" force --jobs "$number"
    mine=$best
    echo "  --jobs $number: $((mine / 1000000)) ms, $(ratio "$alone" "$mine") times as fast, $used of the processors used"
    for other in make ninja; do
        command -v "$other" >/dev/null 2>&1 || continue
        over_fresh "$number" "$other" -j "$number"
        echo "    $other -j $number: $((best / 1000000)) ms; gg takes $(ratio "$mine" "$best") of that time"
    done
done

free_port() {
    python3 -c 'import socket
with socket.socket() as free:
    free.bind(("127.0.0.1", 0))
    print(free.getsockname()[1])'
}

mkdir -p "$folder/small/.gg/objects"
cd "$folder/small"
python3 - <<'END'
from store import keep, thunk

card, joined = keep(b'gg-tool cat\n'), keep(b'and the same for all\n')
items = [thunk(card, [], [('a', keep(b'one of its own, %d\n' % i)), ('b', joined)], 'out%d' % i) for i in range(1000)]
with open('words', 'w') as file:
    file.write('\n'.join(items))
END
cp -r .gg kept
addresses=
workers=
trap 'kill $workers 2>/dev/null; rm -rf "$folder"' EXIT
for number in 1 2 3 4; do
    address=127.0.0.1:$(free_port)
    "$gg" worker "$address" &
    workers="$workers $!"
    addresses="$addresses --worker $address"
done
sleep 1
# shellcheck disable=SC2086
over_fresh 1 force $(echo "$addresses" | cut -d' ' -f2,3)
one=$best
# shellcheck disable=SC2086
over_fresh 4 force $addresses
echo "1,000 joins over one worker: $((one / 1000000)) ms; over four: $((best / 1000000)) ms, $(ratio "$best" "$one") times"

# The processor time of the long jobs' caller, beside that of the four workers.
cd "$folder/long"
worker_time() {
    for worker in $workers; do sed 's/.*) //' "/proc/$worker/stat" | awk '{ print $12 + $13 }'; done | awk '{ all += $1 } END { print all }'
}
rm -rf .gg
cp -r kept .gg
before=$(worker_time)
caller=$(processor_time)
# shellcheck disable=SC2086
force $addresses >/dev/null
echo "the long jobs over four workers: the caller used $(ratio "$(($(processor_time) - caller))" "$(($(worker_time) - before))") of its workers' processor time"
