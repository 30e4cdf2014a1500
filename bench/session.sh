#!/bin/sh
# Times `session_pipe`, which answers a session of jobs as a worker does, over a pair of pipes: 10,000 small jobs, and 100 jobs of `cat` over 4 MB
# beside `sha256sum` over the same frames, which are made before the clock starts. Then it prints the peak memory that a job of `cat` over four
# inputs of 16,000,000 bytes takes, beside the bytes of the job. It needs python3, and works in a folder on a memory file system.
set -eu
here=$(cd "$(dirname "$0")/.." && pwd)
program=$here/crates/session_pipe/out/session_pipe
# The run proves and builds the program where that isn't done yet.
(cd "$here/crates/session_pipe" && rt run <stdin >/dev/null 2>&1)
folder=$(mktemp -d "${BENCH_FOLDER:-/dev/shm}/gg-bench.XXXXXX")
trap 'rm -rf "$folder"' EXIT
cd "$folder"

# Writes the frames of a session of so many jobs, each a `cat` over inputs of so many bytes: make_session JOBS INPUTS BYTES.
make_session() {
    python3 - "$@" <<'END_OF_SCRIPT' >frames
import sys

jobs, inputs, size = map(int, sys.argv[1:])

def count(number):
    return number.to_bytes(4, 'big')

def string(data):
    return count(len(data)) + data

def frame(contents):
    return count(len(contents)) + contents

def start(lease):
    texts = [string(b'i%d' % i) + string((b'%d of %d\n' % (i, lease)).ljust(size, b'.')[:size]) for i in range(inputs)]
    job = string(b'gg-tool cat\n') + count(0) + count(0) + count(inputs) + b''.join(texts) + count(1) + string(b'out')
    return frame(b'J' + lease.to_bytes(8, 'big') + job)

for lease in range(jobs):
    sys.stdout.buffer.write(start(lease))
sys.stdout.buffer.write(frame(b'B'))
END_OF_SCRIPT
}

# Answers the session of the file `frames`, and counts the bytes of the answers.
answer() {
    cat frames | "$program" | wc -c >answered
}

# Nanoseconds that a command takes, the least of three runs.
least() {
    best=
    for run in 1 2 3; do
        from=$(date +%s%N)
        "$@" >/dev/null
        took=$(($(date +%s%N) - from))
        if [ -z "$best" ] || [ "$took" -lt "$best" ]; then best=$took; fi
    done
    echo "$best"
}

make_session 10000 1 1
took=$(least answer)
[ "$(cat answered)" -eq 230000 ] || { echo "not all small jobs were answered"; exit 1; }
echo "10,000 small jobs: $((10000 * 1000000 / (took / 1000))) frames a second"

make_session 100 1 4000000
bytes=$(wc -c <frames)
took=$(least answer)
[ "$(cat answered)" -eq $((100 * (4000000 + 22))) ] || { echo "not all jobs of 4 MB were answered"; exit 1; }
summed=$(least sha256sum frames)
echo "100 jobs of 4 MB: $((bytes * 1000 / took)) MB a second; sha256sum: $((bytes * 1000 / summed)) MB a second; ratio $((took * 100 / summed)) / 100"

make_session 1 4 16000000
job=$(($(wc -c <frames) - 18))
python3 - "$program" "$job" <<'END_OF_SCRIPT'
import resource, subprocess, sys

program, job = sys.argv[1], int(sys.argv[2])
with open('frames', 'rb') as frames:
    subprocess.run([program], stdin=frames, stdout=subprocess.DEVNULL, check=True)
peak = resource.getrusage(resource.RUSAGE_CHILDREN).ru_maxrss
print('peak memory: %d KiB; the job: %d KiB; ratio %.2f' % (peak, job // 1024, peak * 1024 / job))
END_OF_SCRIPT
