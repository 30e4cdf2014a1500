#!/bin/sh
# Shows that archives go both ways between gg and the `ar` of the system: `ar t` and `ar x` list and extract what gg's card `ar` wrote,
# without and with a table of symbols, and gg's card reads what `ar rcD` wrote. It ends with status 0 where all is as it should be.
# It needs a shell, sha256sum, base64 and cmp, and does nothing where `ar` isn't installed.
set -eu
command -v ar >/dev/null 2>&1 || { echo "ar is not installed"; exit 0; }
here=$(cd "$(dirname "$0")/.." && pwd)
folder=$(mktemp -d)
trap 'rm -rf "$folder"' EXIT
mkdir -p "$folder/.gg/objects"
cd "$folder"
. "$here/examples/store.sh"

# A thunk's line of an argument or an output: its letter, and its text after its length.
counted() {
    printf '%s %s:%s\n' "$1" "${#2}" "$2"
}

# Makes an archive by gg: make_archive FILE LETTERS [OLD] with the members a.o and b.o where LETTERS has r.
make_archive() {
    {
        printf 'gg-thunk 1\nf %s\n' "$(keep card)"
        counted a "$2"
        case $2 in
        r*) counted a a.o; counted a b.o
            printf 'i 5:m0000 %s\ni 5:m0001 %s\n' "$(keep a.o)" "$(keep b.o)" ;;
        esac
        if [ $# -gt 2 ]; then
            printf 'i 3:old %s\n' "$(keep "$3")"
        fi
        printf 'o 3:out\nend\n'
    } >thunk
    printf 'gg-placeholder 1\n%s#0\n' "$(keep thunk)" >"$1"
    "$here/gg" force "$1"
}

printf 'gg-tool ar\n' >card
printf 'gg-obj 1\nsym a 2\npush 1\nret\nend\n' >a.o
printf 'gg-obj 1\nsym bb 2\npush 2\nret\nend\n' >b.o

for letters in r rs; do
    make_archive "$letters.a" "$letters"
    echo "\$ ar t $letters.a"
    ar t "$letters.a"
    mkdir "of_$letters"
    (cd "of_$letters" && ar x "../$letters.a" && cmp a.o ../a.o && cmp b.o ../b.o)
done

ar rcD theirs.a a.o b.o
make_archive again.a s theirs.a
cmp again.a rs.a
echo "the archive of ar rcD, with a table by gg, is the archive that gg wrote with a table"
