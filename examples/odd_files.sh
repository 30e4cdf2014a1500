#!/bin/sh
# Shows what gg does where something other than a plain file stands at a wanted path or in the store, where names are long, where a file
# has permissions of its own, and where the disk is full. It ends with status 0 where all is as docs/COMMANDS.md says.
# It needs a shell, sha256sum, base64, cmp, mkfifo, stat and timeout.
set -eu
here=$(cd "$(dirname "$0")/.." && pwd)
folder=$(mktemp -d)
trap 'rm -rf "$folder"' EXIT
mkdir -p "$folder/.gg/objects"
cd "$folder"
. "$here/examples/store.sh"

fail() {
    echo "$*"
    exit 1
}

# Runs a command of ten seconds at most, and looks at its status and its line on standard error: ends STATUS LINE WORD ..
ends() {
    wanted_status=$1
    wanted_line=$2
    shift 2
    status=0
    timeout 10 "$here/gg" "$@" >printed 2>line || status=$?
    [ "$status" -eq "$wanted_status" ] || fail "gg $*: status $status: $(cat line)"
    [ "$(cat line)" = "$wanted_line" ] || fail "gg $*: $(cat line)"
    echo "$wanted_status ${wanted_line:-"(no line)"}"
}

# Runs a command where no file may have more than 512 bytes.
on_a_full_disk() {
    (
        trap '' XFSZ
        ulimit -f 1
        "$@" >said
    ) || fail "$(cat said)"
    cat said
}

# Prints the reference to the output of a thunk that joins two files.
joining() {
    printf 'gg-thunk 1\nf %s\ni 1:a %s\ni 1:b %s\no 3:out\nend\n' "$(keep card)" "$(keep "$1")" "$(keep "$2")" >thunk
    printf '%s#0' "$(keep thunk)"
}

# Leaves a placeholder at a path: placeholder PATH.
placeholder() {
    printf 'gg-placeholder 1\n%s\n' "$reference" >"$1"
}

printf 'gg-tool cat\n' >card
printf 'ab' >front
printf 'c' >back
reference=$(joining front back)
placeholder plain
"$here/gg" force "$reference" >printed

# What is no plain file, over links, is absent.
mkfifo pipe
mkdir folder
ln -s /dev/zero device
ln -s pipe leads_to_a_pipe
ln -s nowhere leads_nowhere
ln -s round round
long=$(printf 'n%.0s' $(seq 256))
for path in pipe folder device leads_to_a_pipe leads_nowhere round plain/inside "$long"; do
    ends 8 "gg: no file $path" force "$path"
done

# What lies in the store is no wanted file.
name=$(keep plain)
ends 8 "gg: no file .gg/objects/$name" force ".gg/objects/$name"
cmp plain ".gg/objects/$name"

# What is no plain file in the place of an object is no object.
rm -rf .gg/notes
name=$(keep back)
rm ".gg/objects/$name"
mkfifo ".gg/objects/$name"
ends 3 "gg: missing object $name" force plain
rm ".gg/objects/$name"
mkdir ".gg/objects/$name"
ends 3 "gg: missing object $name" force plain
rmdir ".gg/objects/$name"
keep back >printed

# A name may be as long as the system has them.
long=$(printf 'n%.0s' $(seq 255))
placeholder "$long"
ends 0 '' force "$long"
[ "$(cat "$long")" = abc ] || fail "the file with a long name"

# A file keeps its permissions.
for mode in 600 751 444; do
    placeholder "mode$mode"
    chmod "$mode" "mode$mode"
    ends 0 '' force "mode$mode"
    [ "$(stat -c %a "mode$mode")" = "$mode" ] || fail "the permissions $mode are $(stat -c %a "mode$mode")"
done

# A link is read as what it leads to, and replaced.
placeholder far
ln -s far near
ends 0 '' force near
[ ! -L near ] && [ "$(cat near)" = abc ] || fail "the link wasn't replaced"
cmp plain far

# A disk that is full stays as full as it was.
seq 300 >numbers
reference=$(joining numbers back)
placeholder large
touch said
before=$(find . | sort)
on_a_full_disk ends 12 'gg: store fault' force large
[ "$(find . | sort)" = "$before" ] || fail "files are left: $(find . -name '·*')"
"$here/gg" force "$reference" >printed
on_a_full_disk ends 13 'gg: file fault' force large
[ "$(find . -name '·*')" = '' ] || fail "files are left: $(find . -name '·*')"
ends 0 '' force large
echo "all is as it should be"
