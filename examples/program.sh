#!/bin/sh
# Builds a program of two sources, a header and an archive with gg alone. The models do none of the work: they write thunks and leave
# placeholders, and `gg force` does it. Then the header is changed, and only the steps that see the change are done again.
# The one argument, if given, is the folder to use.
set -eu
here=$(cd "$(dirname "$0")/.." && pwd)
folder=${1:-$(mktemp -d)}
mkdir -p "$folder"
cd "$folder"

# Shows a command, and runs it.
show() {
    echo "\$ $*"
    "$@"
}

gg() {
    "$here/gg" "$@"
}

# How many steps have been done so far.
steps() {
    find .gg/notes -type f | wc -l
}

printf '#define ANSWER 21\n' >answer.h
printf '#include "answer.h"\nfn main : ANSWER twice print\n' >main.c
printf 'fn twice : 2 *\n' >twice.c

show cat answer.h main.c twice.c
# The card `ar` takes its members from inputs named `m0000`, `m0001` and so on.
show gg model gcc -c twice.c -o m0000
show gg create-thunk --card ar --arg rs --arg twice.o --input m0000 --output libtwice.a
show gg model gcc main.c -L. -ltwice -o prog
show cat prog
show gg force prog
show cat prog
before=$(steps)
printf '#define ANSWER 50\n' >answer.h
echo "(the header says 50 now)"
show gg model gcc main.c -L. -ltwice -o prog
show gg force prog
echo "(of 8 steps $(($(steps) - before)) were done again)"
