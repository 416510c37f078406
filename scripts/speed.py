"""Loads the library of crates/speed, or another with the same call, does its workloads, and counts what they take."""

import ctypes, os, re, subprocess, sys
from pathlib import Path

from sources import CRATES, TOP
from workloads import workloads

COUNTED, FAILED = 1_000, 2**64 - 1
# The page with the table of times, and how the table's head begins.
PAGE, HEAD = TOP / "docs/SPEED.md", "| What | Port, {} |"


def port():
    """The port's library as one that can be loaded."""
    subprocess.run([TOP / "scripts/link_c", "speed"], check=True)
    return CRATES / "speed/out/libspeed.so"


def loaded(shared):
    """A library's call, which does a workload."""
    call = ctypes.CDLL(str(shared)).speed
    call.restype = ctypes.c_uint64
    call.argtypes = [ctypes.c_uint32, ctypes.c_char_p, ctypes.c_size_t, ctypes.c_uint64]
    return lambda work: call(work.number, work.octets, len(work.octets), work.times)


def do_each(shared):
    """Does each workload once under callgrind, which writes what it counted before each call of `getppid`."""
    call = loaded(shared)
    for work in workloads(COUNTED):
        os.getppid()
        call(work)
    os.getppid()


def cost_of(dump, shared):
    """A library's own instructions, its calls of other libraries, and what these took, by callgrind."""
    numbers = re.findall(rf"ob=(\(\d+\)) {re.escape(str(shared))}$", dump, re.MULTILINE)
    parts = [part for part in re.split(r"^ob=", dump, flags=re.MULTILINE) if part.startswith(tuple(numbers))]
    own = calls = others = called = 0
    is_other = False
    for line in "".join(parts).splitlines():
        if line.startswith("cob="):
            is_other = True
        elif line.startswith("calls="):
            called = int(line[6:].split()[0])
        elif re.match(r"[-+*\d]", line):
            # Behind a line with calls it is what the called function took.
            cost = int(line.split()[1])
            own += 0 if called else cost
            calls, others = (calls + called, others + cost) if is_other else (calls, others)
            called, is_other = 0, False
    return own, calls, others


def counts(shared, folder):
    """The name of each workload, and for one of it what `cost_of` returns."""
    flags = ["--quiet", "--tool=callgrind", "--dump-before=getppid", f"--callgrind-out-file={folder}/dump"]
    subprocess.run(["valgrind", *flags, sys.executable, __file__, shared], check=True)
    for number, work in enumerate(workloads(COUNTED), 2):
        taken = cost_of(Path(folder, f"dump.{number}").read_text(), shared)
        yield work.name, [round(count / work.times, 2) for count in taken]


if __name__ == "__main__":
    do_each(sys.argv[1])
