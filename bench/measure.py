"""Runs the cases of a benchmark, and tells what each took, beside what other programs take for the same text."""

import collections
import os
import shutil
import subprocess
import sys
import tempfile

# What a fresh interpreter does: it runs a command, and tells its status, processor seconds and peak bytes. A process
# counts the memory of the one that started it until its own program is loaded, so this one has to be small.
MEASURE = """
import resource, subprocess, sys
done = subprocess.run(sys.argv[1:], stdout=subprocess.DEVNULL, stderr=subprocess.DEVNULL, check=False)
used = resource.getrusage(resource.RUSAGE_CHILDREN)
print(done.returncode, used.ru_utime + used.ru_stime, used.ru_maxrss * 1024)
"""

# A peer is stopped after so many seconds; `timeout` ends with this status then.
PEER_SECONDS = 60
STOPPED = 124

# The words of a run, the texts that it reads and writes, and the command line of each peer for the same text.
Case = collections.namedtuple("Case", "words read written peers")

# What a case took: bytes read and written, status, processor seconds, peak bytes; of each peer the processor seconds,
# or None where it was stopped, and nothing where it is not there.
Taken = collections.namedtuple("Taken", "read written status seconds peak peers")


def run(command):
    """Status, processor seconds and peak bytes of a command."""
    told = subprocess.run([sys.executable, "-c", MEASURE] + command, stdout=subprocess.PIPE, check=True).stdout.split()
    return int(told[0]), float(told[1]), int(told[2])


def size_of(paths):
    return sum(os.path.getsize(path) for path in paths if os.path.exists(path))


def take(program, case, limit=PEER_SECONDS):
    """Runs a case and its peers."""
    status, seconds, peak = run([program, *case.words])
    peers = {}
    for name, command in case.peers.items():
        if shutil.which(command[0]):
            stopped, theirs, _ = run(["timeout", str(limit), *command])
            peers[name] = None if stopped == STOPPED else theirs
    return Taken(size_of(case.read), size_of(case.written), status, seconds, peak, peers)


def line_of(family, size, unit, taken, before):
    """A line on what a case took, and by how much that grew since the case before."""
    whole = taken.read + taken.written
    line = (
        f"{family:14} {size:8} {unit} {whole:10} bytes: status {taken.status}, {taken.seconds:7.3f} s, "
        f"{taken.peak / 2**20:7.1f} MiB, {taken.peak / whole:5.1f} bytes a byte"
    )
    if before:
        line += f", time x{taken.seconds / max(before.seconds, 0.001):.1f}, memory x{taken.peak / before.peak:.1f}"
    for name, seconds in taken.peers.items():
        line += f", {name} more than {PEER_SECONDS} s" if seconds is None else f", {name} {seconds:.3f} s"
    return line


def main(families, prepare, unit, note=lambda case, taken: ""):
    """Runs all families of a benchmark: `families` has the sizes of each, `prepare` writes the texts of a case into a
    folder. The words of the command line are the program, and the folder."""
    program = sys.argv[1] if len(sys.argv) > 1 else "crates/asptools/out/asptools"
    folder = sys.argv[2] if len(sys.argv) > 2 else tempfile.mkdtemp()
    os.makedirs(folder, exist_ok=True)
    _, _, least = run([program])
    print(f"a run without a text, and the least that is seen: {least / 2**20:.1f} MiB")
    for family, sizes in families.items():
        before = None
        for size in sizes:
            case = prepare(family, size, folder)
            taken = take(program, case)
            print(line_of(family, size, unit, taken, before) + note(case, taken), flush=True)
            before = taken
