"""What each crate takes of the gate's time, by looking once a second at the prover's processes. bench/gate.sh runs it."""
import collections
import os
import subprocess
import sys
import tempfile
import time

TICKS = os.sysconf("SC_CLK_TCK")
KINDS = ("proof", "tests", "edits")


def processes():
    """The parent of each process, its seconds of processor, and when it was started."""
    found = {}
    for pid in filter(str.isdigit, os.listdir("/proc")):
        try:
            with open(f"/proc/{pid}/stat") as file:
                fields = file.read().rpartition(")")[2].split()
        except OSError:
            continue
        found[int(pid)] = (int(fields[1]), (int(fields[11]) + int(fields[12])) / TICKS, fields[19])
    return found


def is_below(pid, top, found):
    """Whether a process was started by another, or by one that was."""
    while pid in found and pid != top:
        pid = found[pid][0]
    return pid == top


def what_for(pid):
    """The crate and the kind of work that a process of the prover is for."""
    try:
        with open(f"/proc/{pid}/cmdline") as file:
            words = file.read().split("\0")
        at = os.readlink(f"/proc/{pid}/cwd")
    except OSError:
        return None
    if os.path.basename(words[0]) != "rattle" or "--crate-name" not in words:
        return None
    kind = "edits" if "rt-edit" in at else "tests" if "--test" in words else "proof"
    return words[words.index("--crate-name") + 1], kind


def main():
    here, words = sys.argv[1], sys.argv[2:]
    log = os.environ.get("GATE_LOG") or tempfile.mkstemp(prefix="gate.", suffix=".log")[1]
    begun, work, spent = time.time(), {}, {}
    with open(log, "w") as out:
        gate = subprocess.Popen(["rt", "ci", *words], cwd=here, stdout=out, stderr=subprocess.STDOUT)
        while gate.poll() is None:
            found = processes()
            for pid, (_, seconds, start) in found.items():
                if is_below(pid, gate.pid, found):
                    work[pid, start] = what_for(pid) or work.get((pid, start))
                    spent[pid, start] = seconds
            time.sleep(1)
    whole = time.time() - begun
    taken = collections.Counter()
    for process, what in work.items():
        if what:
            taken[what] += spent[process]
    crates = sorted({name for name, _ in taken}, key=lambda name: -sum(taken[name, kind] for kind in KINDS))
    print(f"{'crate':24}" + "".join(f"{kind:>8}" for kind in KINDS) + f"{'all':>8}")
    for name in crates:
        row = [taken[name, kind] for kind in KINDS]
        print(f"{name:24}" + "".join(f"{seconds:8.0f}" for seconds in (*row, sum(row))))
    row = [sum(taken[name, kind] for name in crates) for kind in KINDS]
    print(f"{'all':24}" + "".join(f"{seconds:8.0f}" for seconds in (*row, sum(row))))
    with open(log) as file:
        lines = file.read().splitlines()
    print(f"the gate took {whole / 60:.1f} minutes on {os.cpu_count()} processors: {lines[-1] if lines else 'nothing was printed'}")
    print(f"its output is in {log}")
    return gate.returncode


sys.exit(main())
