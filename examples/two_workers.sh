#!/bin/sh
# Starts two workers on this machine, infers a build of 200 sources, and forces it over both; in the middle the first worker is killed. The
# other goes on, and the program is the one that `gg build` makes of the same script. It ends with status 0 where that is so. It needs python3,
# to find two free ports. The arguments, if given, are the two ports.
set -eu
here=$(cd "$(dirname "$0")/.." && pwd)
# The program is built where it is missing, before anybody waits for it.
"$here/gg" >/dev/null 2>&1 || true
gg=$here/.built/gg

free_ports() {
    python3 -c 'import socket
with socket.socket() as one, socket.socket() as other:
    one.bind(("127.0.0.1", 0))
    other.bind(("127.0.0.1", 0))
    print(one.getsockname()[1], other.getsockname()[1])'
}

if [ $# -eq 2 ]; then ports="$1 $2"; else ports=$(free_ports); fi
first=127.0.0.1:${ports% *}
second=127.0.0.1:${ports#* }
folder=$(mktemp -d)
workers=
trap 'kill $workers 2>/dev/null || true; rm -rf "$folder"' EXIT
cd "$folder"

# The sources and the script: each function adds to the one before it.
echo '#define K 3' >k.h
echo 'fn main : f200 print' >main.c
objects=
number=1
while [ "$number" -le 200 ]; do
    if [ "$number" -eq 1 ]; then before=1; else before=f$((number - 1)); fi
    printf '#include "k.h"\nfn f%s : %s K +\n' "$number" "$before" >"s$number.c"
    echo "gcc -c s$number.c -o s$number.o" >>script
    objects="$objects s$number.o"
    number=$((number + 1))
done
echo "ar rcs libs.a$objects" >>script
echo 'gcc main.c -L. -ls -o prog' >>script
cp -R . ../"$(basename "$folder")"-built
built=../$(basename "$folder")-built
trap 'kill $workers 2>/dev/null || true; rm -rf "$folder" "$folder-built"' EXIT

echo "\$ gg worker $first &"
"$gg" worker "$first" 2>first_said &
killed=$!
workers=$killed
echo "\$ gg worker $second --times 1 &"
"$gg" worker "$second" --times 1 2>second_said &
kept=$!
workers="$killed $kept"
echo "\$ gg infer <script"
"$gg" infer <script
# The workers may still be starting: a port that refuses is a failure of the link, and too many of these give a link up.
sleep 1
echo "\$ gg force --worker $first --worker $second --retries 2 --report prog"
"$gg" force --worker "$first" --worker "$second" --retries 2 --report prog >answered &
force=$!
# It is killed once some jobs are answered: each leaves a note.
while [ "$(find .gg/notes -type f 2>/dev/null | wc -l)" -lt 20 ] && kill -0 "$force" 2>/dev/null; do sleep 0.01; done
if kill -9 "$killed" 2>/dev/null && kill -0 "$force" 2>/dev/null; then
    echo "(the first worker is killed, with $(find .gg/notes -type f | wc -l) of 605 steps done)"
else
    echo "(the work was done before the first worker was killed)"
fi
wait "$force"
cat answered
wait "$kept"
echo "(the second worker ended with status $?)"
(cd "$built" && "$gg" build <script >/dev/null)
cmp prog "$built/prog"
echo "prog is what gg build makes"
