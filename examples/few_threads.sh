#!/bin/sh
# Forces a build by four workers where the system refuses threads: first where not one can be had, then where the first can be, and so on. Each
# time the files are those of `gg force --local`. It ends with status 0 where that is so. It must be run by root, and needs setpriv and prlimit
# (util-linux): the limit on the number of threads doesn't bind root, so the program is run as another user.
set -eu
here=$(cd "$(dirname "$0")/.." && pwd)
"$here/gg" >/dev/null 2>&1 || true
user=65534
folder=$(mktemp -d)
trap 'rm -rf "$folder"' EXIT
chmod 755 "$folder"
# The user may not be allowed to read the place where the program was built.
cp "$here/.built/gg" "$folder/gg"
chmod 755 "$folder/gg"
mkdir "$folder/build"
cd "$folder/build"

# The sources and the script: each function adds to the one before it.
echo '#define K 3' >k.h
echo 'fn main : f40 print' >main.c
objects=
number=1
while [ "$number" -le 40 ]; do
    if [ "$number" -eq 1 ]; then before=1; else before=f$((number - 1)); fi
    printf '#include "k.h"\nfn f%s : %s K +\n' "$number" "$before" >"s$number.c"
    echo "gcc -c s$number.c -o s$number.o" >>script
    objects="$objects s$number.o"
    number=$((number + 1))
done
echo "ar rcs libs.a$objects" >>script
echo 'gcc main.c -L. -ls -o prog' >>script
"$folder/gg" infer <script
cp -R "$folder/build" "$folder/alone"
(cd "$folder/alone" && "$folder/gg" force --local prog)

# How many threads the user has already, which count too.
has=$(ps -L -U "$user" -o lwp= 2>/dev/null | wc -l)
threads=1
while [ "$threads" -le 6 ]; do
    cp -R "$folder/build" "$folder/limited"
    chown -R "$user" "$folder/limited"
    (
        cd "$folder/limited"
        setpriv --reuid="$user" --clear-groups prlimit --nproc=$((has + threads)) "$folder/gg" force --jobs 4 --report prog
    )
    cmp "$folder/limited/prog" "$folder/alone/prog"
    diff -r "$folder/limited/.gg" "$folder/alone/.gg"
    echo "with $threads threads at most: the same"
    rm -rf "$folder/limited"
    threads=$((threads + 1))
done
