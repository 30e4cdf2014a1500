#!/bin/sh
# Times `gg force --local` on a thunk of `cat` over 15 MiB in three inputs beside `sha256sum` over the same inputs and the output,
# in one run, and prints its peak memory beside the bytes of its job.
set -eu
here=$(cd "$(dirname "$0")/.." && pwd)
. "$here/bench/setup.sh"
mkdir -p "$folder/.gg/objects"
cd "$folder"

. "$here/examples/store.sh"

printf 'gg-tool cat\n' >card
for path in a b c; do
    head -c 5242880 /dev/urandom >"$path"
done
{
    printf 'gg-thunk 1\nf %s\n' "$(keep card)"
    for path in a b c; do
        printf 'i 1:%s %s\n' "$path" "$(keep "$path")"
    done
    printf 'o 3:out\nend\n'
} >thunk
item="$(keep thunk)#0"
cat a b c >out

# Nanoseconds that a command takes, the least of five runs.
least() {
    best=
    for run in 1 2 3 4 5; do
        prepare
        from=$(date +%s%N)
        "$@" >/dev/null
        took=$(($(date +%s%N) - from))
        if [ -z "$best" ] || [ "$took" -lt "$best" ]; then
            best=$took
        fi
    done
    echo "$best"
}

value="V$(bytes_of_hex "$(sha256sum out | cut -c1-64)" | base64 | tr '+/' '-_' | tr -d '=\n')00f00000"
prepare() {
    rm -f ".gg/objects/$value"
}

forced=$(least "$gg" force --local "$item")
summed=$(least sha256sum a b c out)
echo "gg force: $((forced / 1000)) us; sha256sum: $((summed / 1000)) us; ratio $((forced * 100 / summed)) / 100"

prepare
"$gg" force --local "$item" >/dev/null &
pid=$!
peak=0
while kill -0 "$pid" 2>/dev/null; do
    now=$(sed -n 's/^VmHWM:[^0-9]*\([0-9]*\).*/\1/p' "/proc/$pid/status" 2>/dev/null || true)
    if [ -n "$now" ] && [ "$now" -gt "$peak" ]; then
        peak=$now
    fi
done
wait "$pid"
job=$((3 * 5242880 + 12))
echo "peak memory: $peak KiB; the job's bytes: $((job / 1024)) KiB; ratio $((peak * 1024 * 100 / job)) / 100"
