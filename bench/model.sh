#!/bin/sh
# Times `gg model gcc -c` over 200 sources that each include the same 20 headers, one command each, beside `gcc -M` over the same sources in the
# same run, where that is installed; and the time a source at 400 sources beside that at 200. It prints the ratios. It needs python3, and works in a
# folder on a memory file system.
set -eu
here=$(cd "$(dirname "$0")/.." && pwd)
. "$here/bench/setup.sh"

# Makes the headers and so many sources: make_sources NUMBER.
make_sources() {
    mkdir -p "$folder/$1"
    cd "$folder/$1"
    python3 - "$1" <<'END'
import sys

def write(path, lines):
    with open(path, 'w') as file:
        file.write('\n'.join(lines) + '\n')

headers = ['h%02d.h' % i for i in range(20)]
for i, header in enumerate(headers):
    write(header, ['#define H%d %d' % (i, i)])
for i in range(int(sys.argv[1])):
    write('s%03d.c' % i, ['#include "%s"' % header for header in headers] + ['fn s%d : H%d' % (i, i % 20)])
END
}

model_all() {
    for source in *.c; do
        "$gg" model gcc -c "$source" -o "${source%.c}.o"
    done
}

scan_all() {
    for source in *.c; do
        gcc -M "$source"
    done
}

# Sets best to the least nanoseconds of three runs of a command, the store and the placeholders gone before each.
measure() {
    best=
    for run in 1 2 3; do
        rm -rf .gg ./*.o
        now=$(took "$@")
        if [ -z "$best" ] || [ "$now" -lt "$best" ]; then best=$now; fi
    done
}

smaller=
for number in 200 400; do
    make_sources "$number"
    measure model_all
    model=$best
    printf '%s sources: %s milliseconds each' "$number" "$(awk "BEGIN { printf \"%.2f\", $model / $number / 1e6 }")"
    if command -v gcc >/dev/null 2>&1; then
        measure scan_all
        printf '; %s times the time of gcc -M' "$(ratio "$model" "$best")"
    fi
    echo
    if [ -z "$smaller" ]; then
        smaller=$model
    else
        echo "of 400 sources each takes $(ratio "$model" "$((2 * smaller))") times as long as of 200"
    fi
done
