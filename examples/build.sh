#!/bin/sh
# Does a build script of five commands with gg: inferred, which runs nothing, and forced; once more with another header, where only the steps that
# see the change are done again; and built at once, which gives the same program. The one argument, if given, is the folder to use.
set -eu
here=$(cd "$(dirname "$0")/.." && pwd)
folder=${1:-$(mktemp -d)}
mkdir -p "$folder"
cd "$folder"

# Shows a command, and runs it.
show() {
    echo "\$ $*"
    "$@"
}

gg() {
    "$here/gg" "$@"
}

# The same of `infer` or `build` over the script.
show_script() {
    echo "\$ gg $1 <script"
    gg "$1" <script
}

# How many steps have been done so far.
steps() {
    find .gg/notes -type f | wc -l
}

printf '#define ANSWER 21\n' >answer.h
printf '#include "answer.h"\nfn main : ANSWER twice print\n' >main.c
printf 'fn twice : 2 *\n' >twice.c
cat >script <<'END'
# A program of two sources, a header and an archive.
gcc -g -c twice.c
rm -f libtwice.a
ar rcs libtwice.a twice.o
gcc -g main.c -L. -ltwice -o prog
strip prog
END

show cat answer.h main.c twice.c script
show_script infer
show cat prog
show gg force prog
show cat prog
before=$(steps)
printf '#define ANSWER 50\n' >answer.h
echo "(the header says 50 now)"
show_script infer
show gg force prog
echo "(of 9 steps $(($(steps) - before)) were done again)"
cp prog forced
show_script build
show cmp forced prog
