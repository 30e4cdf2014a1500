#!/bin/sh
# Times the book on many jobs: 10,000 and 100,000 are offered, started, answered and taken one after another, with at most 64 out at
# a time. Each is done five times. It prints the nanoseconds a job, of the fastest time, and the ratio of the larger to the smaller: the
# book's calls are to take the same time however many jobs it has seen. It uses the program that the gate or `rt run` left in
# crates/book_cases/out, and has `rt run` make it where it is missing.
set -eu
here=$(cd "$(dirname "$0")/.." && pwd)
program=$here/crates/book_cases/out/book_cases
if [ ! -x "$program" ]; then
    (cd "$here/crates/book_cases" && rt run <stdin >/dev/null)
fi

# Nanoseconds that so many jobs take, the least of five times.
least() {
    best=
    for time in 1 2 3 4 5; do
        from=$(date +%s%N)
        echo "work $1" | "$program" >/dev/null
        took=$(($(date +%s%N) - from))
        if [ -z "$best" ] || [ "$took" -lt "$best" ]; then best=$took; fi
    done
    echo "$best"
}

small=$(($(least 10000) / 10000))
large=$(($(least 100000) / 100000))
echo "10,000 jobs: $small ns a job; 100,000 jobs: $large ns a job; ratio $((large * 100 / small)) / 100"
