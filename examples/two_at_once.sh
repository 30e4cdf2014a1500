#!/bin/sh
# Runs twenty programs at once over one store and one wanted file, and kills five of them, again and again: two_at_once.sh [ROUNDS], 100
# where it isn't given. After each round the file and all that lies in the store are whole, each program that wasn't killed has ended with
# status 0, and a program that was killed has left one file under a name of its own at most. It ends with status 0 where all is so.
# It needs a shell, sha256sum, base64, cmp and a `sleep` that takes fractions.
set -eu
here=$(cd "$(dirname "$0")/.." && pwd)
rounds=${1:-100}
folder=$(mktemp -d)
trap 'rm -rf "$folder"' EXIT
mkdir -p "$folder/.gg/objects"
cd "$folder"
. "$here/examples/store.sh"

fail() {
    echo "round $round: $*"
    exit 1
}

# Keeps the thunk that joins the two halves of a file, and prints the reference to its output: joining FILE.
joining() {
    half=$(($(wc -c <"$1") / 2))
    head -c "$half" "$1" >front
    tail -c "+$((half + 1))" "$1" >back
    {
        printf 'gg-thunk 1\nf %s\n' "$(keep card)"
        printf 'i 1:a %s\ni 1:b %s\no 3:out\nend\n' "$(keep front)" "$(keep back)"
    } >thunk
    printf '%s#0' "$(keep thunk)"
}

# A chain of files: each is a placeholder, and its value is the next. So the wanted file is a placeholder whenever a program reads it,
# however often others have replaced it.
printf 'gg-tool cat\n' >card
mkdir chain
echo 'the end of the chain' >chain/0
step=0
while [ "$step" -lt 22 ]; do
    reference=$(joining "chain/$step")
    step=$((step + 1))
    printf 'gg-placeholder 1\n%s\n' "$reference" >"chain/$step"
done
awk 'BEGIN { for (i = 0; i < 50000; i++) print "line", i }' >large
large=$(joining large)
round=0
"$here/gg" force "$large" >expected
gg=$here/.built/gg

# What the store has where all of the chain is known, and what it has before.
cp -R .gg before && rm -rf before/notes "before/objects/$(cut -d' ' -f1 expected)"
while [ "$step" -gt 0 ]; do
    cp "chain/$step" wanted
    "$gg" force wanted >printed
    step=$((step - 1))
    cmp wanted "chain/$step" || fail "the chain is broken"
done
mv .gg after

# Whether the wanted file is one of the chain, but not the first.
is_in_chain() {
    for link in 21 20 19 18 17 16 15 14 13 12 11 10 9 8 7 6 5 4 3 2; do
        if cmp -s wanted "chain/$link"; then
            return 0
        fi
    done
    return 1
}

# Looks at all that a round has left.
look() {
    is_in_chain || fail "the wanted file isn't whole"
    for path in objects notes; do
        for file in ".gg/$path"/[TV]*; do
            cmp -s "$file" "after/${file#.gg/}" || fail "$file isn't whole"
        done
    done
    [ -e ".gg/objects/$(cut -d' ' -f1 expected)" ] || fail "an output is missing"
    left=$(find . -name '·*' | wc -l)
    [ "$left" -le 5 ] || fail "$left files are left under other names"
}

cut_off=0
while [ "$round" -lt "$rounds" ]; do
    round=$((round + 1))
    rm -rf .gg ./·*
    cp -R before .gg
    cp chain/22 wanted
    pids=
    killed=
    for number in 1 2 3 4 5 6 7 8 9 10 11 12 13 14 15 16 17 18 19 20; do
        "$gg" force wanted "$large" >"out$number" 2>"err$number" &
        pids="$pids $!"
        case $number in 2 | 6 | 10 | 14 | 18) killed="$killed $!" ;; esac
    done
    sleep "0.0$((round % 5))$((round % 9))"
    kill -9 $killed 2>/dev/null || true
    number=0
    for pid in $pids; do
        number=$((number + 1))
        status=0
        wait "$pid" 2>/dev/null || status=$?
        case " $killed " in
        *" $pid "*) [ "$status" -ne 137 ] || { cut_off=$((cut_off + 1)); continue; } ;;
        esac
        [ "$status" -eq 0 ] || fail "program $number ended with status $status: $(cat "err$number")"
        [ "$(tail -n 1 "out$number")" = "$(cat expected)" ] || fail "program $number printed something else"
    done
    look
done
echo "$rounds rounds of twenty programs, of which $cut_off were killed: all is whole"
