#!/bin/sh
# Times `gg infer` and `gg force` over a build script of 1,000 lines and one of 2,000, which compile, archive and link: inferred, forced, then both
# again over the same store, and `gg build` of the same lines, whose files must be the same. It prints the milliseconds, the ratios of the larger to
# the smaller, and beside them what ninja takes for as many steps of `cat`, one job at a time, or make where ninja isn't installed. It needs
# python3, and works in a folder on a memory file system. The one argument, if given, stands for 1,000, and its double for 2,000.
set -eu
here=$(cd "$(dirname "$0")/.." && pwd)
. "$here/bench/setup.sh"

# Makes a folder with sources, a script of so many lines, the words of the command that forces all that it leaves, a ninja file and a makefile of as
# many steps of `cat`: make_build LINES.
make_build() {
    mkdir -p "$folder/$1"
    cd "$folder/$1"
    python3 - "$1" <<'END'
import sys

def write(path, lines):
    with open(path, 'w') as file:
        file.write('\n'.join(lines) + '\n')

lines = int(sys.argv[1])
archives = max(1, lines // 100)
# Each archive takes a line that removes it and one that makes it, and the link takes one.
functions = lines - 2 * archives - 2
write('k.h', ['#define K 7'])
write('main.c', ['fn main : %s print' % ' '.join('f%d' % i for i in range(functions))])
script, steps = [], []

def compile_source(name, headers):
    script.append('gcc -c %s.c -o %s.o' % (name, name))
    for out, ins in [('i', '%s.c %s' % (name, headers)), ('s', name + '.i'), ('o', name + '.s')]:
        steps.append(('cat/%s.%s' % (name, out), ins))

compile_source('main', '')
objects = [[] for _ in range(archives)]
for i in range(functions):
    write('s%d.c' % i, ['#include "k.h"', 'fn f%d : K %d +' % (i, i)])
    compile_source('s%d' % i, 'k.h')
    objects[i % archives].append('s%d.o' % i)
for k in range(archives):
    script.append('rm -f lib%d.a' % k)
    script.append('ar rcs lib%d.a %s' % (k, ' '.join(objects[k])))
    steps.append(('cat/lib%d.a' % k, ' '.join(objects[k])))
script.append('gcc main.o -L. %s -o prog' % ' '.join('-l%d' % k for k in range(archives)))
steps.append(('cat/prog', 'main.o ' + ' '.join('lib%d.a' % k for k in range(archives))))
write('script', script)
made = ['main.o'] + ['s%d.o' % i for i in range(functions)] + ['lib%d.a' % k for k in range(archives)] + ['prog']
write('words', made)
write('steps', [str(len(steps))])
outs = {out for out, _ in steps}
inputs = [(out, ' '.join('cat/' + name if 'cat/' + name in outs else name for name in ins.split())) for out, ins in steps]
write('build.ninja', ['rule join', '  command = cat $in > $out'] + ['build %s: join %s' % step for step in inputs])
write('Makefile', ['all: ' + ' '.join(sorted(outs))] + ['%s: %s\n\t@cat %s > %s' % (out, ins, ins, out) for out, ins in inputs])
END
}

infer() {
    "$gg" infer <script
}

build() {
    "$gg" build <script
}

force() {
    # shellcheck disable=SC2046
    "$gg" force $(cat words)
}

# A sum of all files that were made.
sum_of_files() {
    xargs cat <words | cksum
}

remove_files() {
    xargs rm -f <words
}

# Sets a variable to a number where it has none or a larger one: least NAME NUMBER.
least() {
    eval "so_far=\${$1:-}"
    if [ -z "$so_far" ] || [ "$2" -lt "$so_far" ]; then eval "$1=$2"; fi
}

milliseconds() {
    awk "BEGIN { printf \"%.1f\", $1 / 1e6 }"
}

# Sets inferred, forced, inferred_again, forced_again and built to the least nanoseconds of three runs each.
measure() {
    inferred='' forced='' inferred_again='' forced_again='' built=''
    for run in 1 2 3; do
        rm -rf .gg
        remove_files
        least inferred "$(took infer)"
        least forced "$(took force)"
        files=$(sum_of_files)
        remove_files
        least inferred_again "$(took infer)"
        least forced_again "$(took force)"
        remove_files
        least built "$(took build)"
        if [ "$(sum_of_files)" != "$files" ]; then
            echo 'the files that were built at once are others' >&2
            exit 1
        fi
    done
}

# Times as many steps of `cat`.
beside_cat() {
    mkdir cat
    if command -v ninja >/dev/null 2>&1; then
        other=ninja
        took_other=$(took ninja --quiet -j1)
    else
        other=make
        took_other=$(took make -s -j1)
    fi
    printf '  %s: %s steps of cat in %s ms; inferring and forcing are %s times as fast\n' "$other" "$(cat steps)" \
        "$(milliseconds "$took_other")" "$(ratio "$took_other" "$((inferred + forced))")"
}

lines=${1:-1000}
smaller=
for number in "$lines" $((2 * lines)); do
    make_build "$number"
    measure
    printf '%s lines: inferred in %s ms, forced in %s ms; again %s ms and %s ms; built at once in %s ms\n' "$number" \
        "$(milliseconds "$inferred")" "$(milliseconds "$forced")" "$(milliseconds "$inferred_again")" "$(milliseconds "$forced_again")" \
        "$(milliseconds "$built")"
    beside_cat
    if [ -z "$smaller" ]; then
        smaller="$inferred $forced $inferred_again $forced_again $built"
    else
        # shellcheck disable=SC2086
        set -- $smaller
        printf 'of %s lines inferring takes %s times as long as of %s, forcing %s; again %s and %s; building at once %s\n' "$number" \
            "$(ratio "$inferred" "$1")" "$lines" "$(ratio "$forced" "$2")" "$(ratio "$inferred_again" "$3")" \
            "$(ratio "$forced_again" "$4")" "$(ratio "$built" "$5")"
    fi
done
