#!/bin/sh
# Times `gg force --local` on many small thunks: wide sets of 1,000 and 4,000 thunks of `cat`, and chains of 1,000 and 20,000 in which
# each has the one before it as an input. Each is forced fresh and again. It prints the microseconds a thunk, the ratio of the
# larger to the smaller, and beside them what `make` and `ninja` take for the same joins with `cat`, one job at a time, where they
# are installed. It needs python3, and works in a folder on a memory file system.
set -eu
here=$(cd "$(dirname "$0")/.." && pwd)
. "$here/bench/setup.sh"

# Makes a store, the words of the command that forces it, a makefile and a ninja file: make_store KIND NUMBER.
make_store() {
    mkdir -p "$folder/$1-$2/.gg/objects"
    cd "$folder/$1-$2"
    python3 - "$1" "$2" <<'END'
import sys
from store import keep, thunk

kind, number = sys.argv[1], int(sys.argv[2])

card = keep(b'gg-tool cat\n')
joined = keep(b'and the same for all\n')
with open('joined', 'wb') as file:
    file.write(b'and the same for all\n')
items, rules = [], []
if kind == 'wide':
    for i in range(number):
        data = b'one of its own, %d\n' % i
        with open('in%d' % i, 'wb') as file:
            file.write(data)
        items.append(thunk(card, [], [('a', keep(data)), ('b', joined)], 'out%d' % i))
        rules.append(('out%d' % i, 'in%d joined' % i))
else:
    ref, empty = joined, keep(b'')
    with open('empty', 'wb') as file:
        pass
    for i in range(number):
        ref = thunk(card, [], [('a', ref), ('b', empty)], 'out%d' % i)
        rules.append(('out%d' % i, '%s empty' % ('joined' if i == 0 else 'out%d' % (i - 1))))
    items.append(ref)
with open('words', 'w') as file:
    file.write('\n'.join(items))
wanted = [out for out, _ in rules] if kind == 'wide' else [rules[-1][0]]
with open('Makefile', 'w') as file:
    file.write('all: %s\n' % ' '.join(wanted))
    for out, ins in rules:
        file.write('%s: %s\n\t@cat %s > %s\n' % (out, ins, ins, out))
with open('build.ninja', 'w') as file:
    file.write('rule join\n  command = cat $in > $out\n')
    for out, ins in rules:
        file.write('build %s: join %s\n' % (out, ins))
    file.write('default %s\n' % ' '.join(wanted))
END
}

force() {
    # shellcheck disable=SC2046
    "$gg" force --local $(cat words)
}

# Forces a store fresh and again, and sets fresh and again to the nanoseconds: the least of three runs each.
measure() {
    cd "$folder/$1-$2"
    cp -r .gg kept
    fresh=
    again=
    for run in 1 2 3; do
        rm -rf .gg
        cp -r kept .gg
        now=$(took force)
        if [ -z "$fresh" ] || [ "$now" -lt "$fresh" ]; then fresh=$now; fi
        now=$(took force)
        if [ -z "$again" ] || [ "$now" -lt "$again" ]; then again=$now; fi
    done
    printf '%s of %s: %s us a thunk fresh, %s us again\n' "$1" "$2" "$(ratio "$fresh" "$(($2 * 1000))")" "$(ratio "$again" "$(($2 * 1000))")"
}

# Times another builder on the same joins: beside COMMAND, fresh and again.
beside() {
    name=$1
    shift
    command -v "$1" >/dev/null 2>&1 || { echo "  $name is not installed"; return 0; }
    rm -f out* .ninja_log .ninja_deps
    other_fresh=$(took "$@")
    other_again=$(took "$@")
    printf '  %s: %s us a join fresh, %s us again; gg is %s times as fast fresh, and its second run takes %s of that time\n' "$name" \
        "$(ratio "$other_fresh" "$((number * 1000))")" "$(ratio "$other_again" "$((number * 1000))")" \
        "$(ratio "$other_fresh" "$fresh")" "$(ratio "$again" "$other_again")"
}

for kind in wide chain; do
    small=
    if [ "$kind" = wide ]; then numbers="1000 4000"; else numbers="1000 20000"; fi
    for number in $numbers; do
        make_store "$kind" "$number"
        measure "$kind" "$number"
        beside make make -s -j1
        beside ninja ninja --quiet -j1
        if [ -z "$small" ]; then
            small=$((fresh / number))
            small_again=$((again / number))
        else
            echo "$kind: the larger takes $(ratio "$((fresh / number))" "$small") times as long a thunk fresh, $(ratio "$((again / number))" "$small_again") again"
        fi
    done
done
