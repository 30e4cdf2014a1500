#!/bin/sh
# Times `gg force --local` on a thunk of `cpp` whose source includes 200 headers of 1,000 lines, and on one of 400, with a macro for each header.
# It prints the lines a second, the ratio of the two times, and the ratio to `cpp -P` on the same files in the same run, where that is
# installed. It needs python3, and works in a folder on a memory file system.
set -eu
here=$(cd "$(dirname "$0")/.." && pwd)
. "$here/bench/setup.sh"

# Makes the headers, the source and a store with the thunk, and the item that names it: make_source NUMBER.
make_source() {
    mkdir -p "$folder/$1/.gg/objects"
    cd "$folder/$1"
    python3 - "$1" <<'END'
import sys
from store import keep, thunk

number = int(sys.argv[1])

def write(path, lines):
    data = ('\n'.join(lines) + '\n').encode()
    with open(path, 'wb') as file:
        file.write(data)
    return (path, keep(data))

inputs = [write('main.c', ['#include "h%d.h"' % i for i in range(number)])]
for i in range(number):
    lines = ['#define K%d %d' % (i, i)]
    lines += ['int v%d_%d = K%d;' % (i, j, (i * 7 + j) % number) for j in range(999)]
    inputs.append(write('h%d.h' % i, lines))
with open('item', 'w') as file:
    file.write(thunk(keep(b'gg-tool cpp\n'), ['main.c'], inputs, 'out'))
END
}

smaller=
for number in 200 400; do
    make_source "$number"
    measure_item
    lines=$((number * 1001))
    printf '%s headers: %s lines a second' "$number" "$(awk "BEGIN { printf \"%d\", $lines * 1e9 / $best }")"
    if command -v cpp >/dev/null 2>&1; then
        other=$(took cpp -P main.c)
        printf '; %s times the time of cpp -P' "$(ratio "$best" "$other")"
    fi
    echo
    if [ -z "$smaller" ]; then
        smaller=$best
    else
        echo "400 headers take $(ratio "$best" "$smaller") times as long as 200"
    fi
done
