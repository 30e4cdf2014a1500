#!/bin/sh
# Makes a small store in a new folder, with a thunk that joins three values and a placeholder file for its output, and forces it:
# by its name, and then the file.
# It needs nothing but a shell, sha256sum and base64. The one argument, if given, is the folder to use.
set -eu
here=$(cd "$(dirname "$0")/.." && pwd)
folder=${1:-$(mktemp -d)}
mkdir -p "$folder/.gg/objects"
cd "$folder"

. "$here/examples/store.sh"

printf 'gg-tool cat\n' >card
printf 'ab' >a
: >b
printf 'c' >c
{
    printf 'gg-thunk 1\nf %s\n' "$(keep card)"
    for path in a b c; do
        printf 'i 1:%s %s\n' "$path" "$(keep "$path")"
    done
    printf 'o 3:out\nend\n'
} >thunk
thunk=$(keep thunk)

printf 'gg-placeholder 1\n%s#0\n' "$thunk" >joined

echo "in $folder:"
echo "\$ gg force $thunk#0"
"$here/gg" force "$thunk#0"
echo "\$ gg force joined"
"$here/gg" force joined
echo "\$ cat joined"
cat joined
echo
