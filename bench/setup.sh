# What the benchmarks begin with; to be read in by `.`, with $here as the top of the repository. It sets gg, the program, which is built
# where it is missing, and folder, a new folder on a memory file system that is removed at the end. python3 finds store.py.
"$here/gg" >/dev/null 2>&1 || true
gg=$here/.built/gg
export GG="$gg"
folder=$(mktemp -d "${BENCH_FOLDER:-/dev/shm}/gg-bench.XXXXXX")
trap 'rm -rf "$folder"' EXIT
export PYTHONPATH="$here/bench" PYTHONDONTWRITEBYTECODE=1

# Nanoseconds that a command takes.
took() {
    from=$(date +%s%N)
    "$@" >/dev/null
    echo $(($(date +%s%N) - from))
}

# A ratio with two digits after the point.
ratio() {
    awk "BEGIN { printf \"%.2f\", $1 / $2 }"
}

# Forces the item that the file `item` names.
force_item() {
    "$gg" force --local "$(cat item)"
}

# Sets best to the least nanoseconds of three forcings of that item, each with the store as it is.
measure_item() {
    cp -r .gg kept
    best=
    for run in 1 2 3; do
        rm -rf .gg
        cp -r kept .gg
        now=$(took force_item)
        if [ -z "$best" ] || [ "$now" -lt "$best" ]; then best=$now; fi
    done
}
