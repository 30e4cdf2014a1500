#!/bin/sh
# Times `gg force --local` on thunks of `ar`, `ld` and `cpp` with 2,048 inputs and with 4,096, the most that a thunk may have: members that replace
# those of an archive, objects that are linked, headers that are included. It prints the times and the ratio of the larger to the smaller; looking
# an input up by a walk over all would make it four. It needs python3, and works in a folder on a memory file system.
set -eu
here=$(cd "$(dirname "$0")/.." && pwd)
. "$here/bench/setup.sh"

# Makes a store with the thunk, and the item that names it: make_inputs CARD NUMBER.
make_inputs() {
    mkdir -p "$folder/$1-$2/.gg/objects"
    cd "$folder/$1-$2"
    python3 - "$1" "$2" <<'END_OF_SCRIPT'
import sys
from store import keep, thunk

card, number = sys.argv[1], int(sys.argv[2])

def code(name, called):
    words = ['call ' + called] if called else ['push 1']
    return ('gg-obj 1\nsym %s %d\n%s\nret\nend\n' % (name, len(words) + 1, '\n'.join(words))).encode()

def member(name, data):
    header = '%-16s%-12s%-6s%-6s%-8s%-10d`\n' % (name + '/', '0', '0', '0', '644', len(data))
    return header.encode() + data + b'\n' * (len(data) % 2)

if card == 'ar':
    # One input is the archive as it was.
    names = ['f%d.o' % i for i in range(number - 1)]
    old = b'!<arch>\n' + b''.join(member(name, code('f%d' % i, None)) for i, name in enumerate(names))
    args = ['r'] + list(reversed(names))
    inputs = [('m%04d' % i, keep(code('g%d' % i, None))) for i in range(number - 1)] + [('old', keep(old))]
elif card == 'ld':
    paths = ['%04d.o' % i for i in range(number)]
    args = list(reversed(paths))
    inputs = [(path, keep(code('f%d' % i if i else 'main', None))) for i, path in enumerate(paths)]
else:
    headers = ['h%04d.h' % i for i in range(number - 1)]
    source = ''.join('#include "%s"\n' % path for path in reversed(headers)).encode()
    args = ['main.c']
    inputs = [(path, keep(b'int v%d;\n' % i)) for i, path in enumerate(headers)] + [('main.c', keep(source))]
with open('item', 'w') as file:
    file.write(thunk(keep(b'gg-tool %s\n' % card.encode()), args, inputs, 'out'))
END_OF_SCRIPT
}

for card in ar ld cpp; do
    smaller=
    for number in 2048 4096; do
        make_inputs "$card" "$number"
        measure_item
        echo "$card, $number inputs: $((best / 1000)) us"
        if [ -z "$smaller" ]; then
            smaller=$best
        else
            echo "  twice the inputs take $(ratio "$best" "$smaller") times as long"
        fi
    done
done
