#!/bin/sh
# Times `gg force --local` on a thunk of `ld` over an archive of 1,000 and of 2,000 members: where each member needs the next, so that one pass
# finds all, and where each needs the one before it, so that a pass finds one. It prints the times and the ratio of the larger to the
# smaller. It needs python3, and works in a folder on a memory file system.
set -eu
here=$(cd "$(dirname "$0")/.." && pwd)
. "$here/bench/setup.sh"

# Makes a store with the thunk, and the item that names it: make_archive KIND NUMBER.
make_archive() {
    mkdir -p "$folder/$1-$2/.gg/objects"
    cd "$folder/$1-$2"
    python3 - "$1" "$2" <<'END'
import sys
from store import keep, thunk

kind, number = sys.argv[1], int(sys.argv[2])

def code(name, called):
    words = ['call ' + called] if called else ['push 1']
    return ('gg-obj 1\nsym %s %d\n%s\nret\nend\n' % (name, len(words) + 1, '\n'.join(words))).encode()

def member(name, data):
    header = '%-16s%-12s%-6s%-6s%-8s%-10d`\n' % (name + '/', '0', '0', '0', '644', len(data))
    return header.encode() + data + b'\n' * (len(data) % 2)

names = ['f%d' % i for i in range(number)]
if kind == 'next':
    first, called = names[0], names[1:] + [None]
else:
    first, called = names[-1], [None] + names[:-1]
archive = b'!<arch>\n' + b''.join(member(name, code(name, other)) for name, other in zip(names, called))
inputs = [('0000', keep(code('main', first))), ('0001', keep(archive))]
with open('item', 'w') as file:
    file.write(thunk(keep(b'gg-tool ld\n'), ['0000', '0001'], inputs, 'out'))
END
}

for kind in next before; do
    smaller=
    for number in 1000 2000; do
        make_archive "$kind" "$number"
        measure_item
        echo "$number members, each needing the $(if [ "$kind" = next ]; then echo next; else echo one before it; fi): $((best / 1000)) us"
        if [ -z "$smaller" ]; then
            smaller=$best
        else
            echo "  twice the members take $(ratio "$best" "$smaller") times as long"
        fi
    done
done
