#!/bin/sh
# Times forcing over links: 1,000 joins by `cat`, wide and in a chain, with `gg force --jobs 1`, `--jobs 4` and two workers on this machine, each
# beside `gg force --local` of the same; and `gg demo 500` beside `gg demo 250`. It prints the milliseconds and the ratios. It needs python3, and
# works in a folder on a memory file system.
set -eu
here=$(cd "$(dirname "$0")/.." && pwd)
. "$here/bench/setup.sh"

# Makes a store, and the words of the items that are forced: make_store KIND NUMBER.
make_store() {
    mkdir -p "$folder/$1/.gg/objects"
    cd "$folder/$1"
    python3 - "$1" "$2" <<'END'
import sys
from store import keep, thunk

kind, number = sys.argv[1], int(sys.argv[2])
card = keep(b'gg-tool cat\n')
joined = keep(b'and the same for all\n')
items = []
if kind == 'wide':
    for i in range(number):
        items.append(thunk(card, [], [('a', keep(b'one of its own, %d\n' % i)), ('b', joined)], 'out%d' % i))
else:
    ref, empty = joined, keep(b'')
    for i in range(number):
        ref = thunk(card, [], [('a', ref), ('b', empty)], 'out%d' % i)
    items.append(ref)
with open('words', 'w') as file:
    file.write('\n'.join(items))
END
    cp -r .gg kept
}

# Forces with some words behind `force`.
force() {
    # shellcheck disable=SC2046
    "$gg" force "$@" $(cat words)
}

# The least of three runs over a fresh store, in nanoseconds: fresh WORDS.
fresh() {
    best=
    for run in 1 2 3; do
        rm -rf .gg
        cp -r kept .gg
        now=$(took force "$@")
        if [ -z "$best" ] || [ "$now" -lt "$best" ]; then best=$now; fi
    done
    echo "$best"
}

free_port() {
    python3 -c 'import socket
with socket.socket() as free:
    free.bind(("127.0.0.1", 0))
    print(free.getsockname()[1])'
}

one=127.0.0.1:$(free_port)
other=127.0.0.1:$(free_port)
"$gg" worker "$one" &
workers=$!
"$gg" worker "$other" &
workers="$workers $!"
trap 'kill $workers 2>/dev/null; rm -rf "$folder"' EXIT
sleep 1

for kind in wide chain; do
    make_store "$kind" 1000
    here_alone=$(fresh --local)
    echo "$kind, 1,000 joins: $((here_alone / 1000000)) ms here"
    for words in "--jobs 1" "--jobs 4" "--worker $one --worker $other"; do
        # shellcheck disable=SC2086
        over=$(fresh $words)
        echo "  $words: $((over / 1000000)) ms, $(ratio "$over" "$here_alone") times"
    done
done

demo() {
    "$gg" demo "$1"
}

# The least of three runs: demo_time NUMBER.
demo_time() {
    best=
    for run in 1 2 3; do
        now=$(took demo "$1")
        if [ -z "$best" ] || [ "$now" -lt "$best" ]; then best=$now; fi
    done
    echo "$best"
}

small=$(demo_time 250)
large=$(demo_time 500)
echo "demo 250: $((small / 1000000)) ms; demo 500: $((large / 1000000)) ms; ratio $(ratio "$large" "$small")"
