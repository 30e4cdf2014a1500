#!/bin/sh
# Runs the gate, and prints how long it took and what of it each crate took: the seconds of processor for its own proof, for its tests and for
# its must-fail edits, the longest first. Words are handed on to `rt ci`: `bench/gate.sh --anew` proves all again, where the gate alone
# proves what changed. The gate's own output goes to the file that GATE_LOG names, or else to a new one, which is named at the end. It needs python3.
here=$(cd "$(dirname "$0")/.." && pwd) || exit 1
exec python3 "$here/bench/gate.py" "$here" "$@"
