"""Runs a program of this repository: as it is built, or unproved if it isn't built from these sources."""

import os, re, subprocess, sys, tempfile
from pathlib import Path

sys.path.insert(0, str(Path(__file__).resolve().parent.parent / "scripts"))

from sources import CRATES, below


def built(name):
    """The program, if it is built from these sources."""
    crate = f"{name}_cli"
    program = CRATES / crate / "out" / crate
    folders = [CRATES / one / part for one in [crate, *below(crate)] for part in ("src", "specs", "proofs")]
    sources = [file for folder in folders for form in ("*.rt", "*.antt") for file in folder.rglob(form)]
    is_new = os.access(program, os.X_OK) and all(file.stat().st_mtime <= program.stat().st_mtime for file in sources)
    return program if is_new else None


def runs_unproved(name, words, inputs):
    """Runs the program unproved, after one build for all inputs: of each the status and both outputs."""
    why = "this build is not proved and takes a minute or two at each run"
    print(f"{name}: {why}; scripts/build {name} proves and builds it once.", file=sys.stderr, flush=True)
    with tempfile.TemporaryDirectory() as folder:
        # The names are in the order of the inputs, and in no line that a program writes.
        names = [f"{Path(folder).name}-{number:06}" for number in range(len(inputs))]
        for case, octets in zip(names, inputs):
            Path(folder, case).write_bytes(octets)
        command = ["rt", "try", "--seconds", "600", "--cases", folder, "--", *words]
        ran = subprocess.run(command, cwd=CRATES / f"{name}_cli", capture_output=True)
    said = re.split(rb"^case=(\S+) run=ended status=(\d+) .*\n", ran.stderr, flags=re.MULTILINE)
    wrote = re.split(rb"^== (\S+)\n", ran.stdout, flags=re.MULTILINE)
    stdout = dict(zip(wrote[1::2], wrote[2::2]))
    ends = {case: (int(status), stdout[case], stderr) for stderr, case, status in zip(*[iter(said[:-1])] * 3)}
    if len(ends) < len(names):
        sys.stderr.buffer.write(ran.stdout + ran.stderr)
        why = "no answer. An unproved run writes at most 1 MiB"
        print(f"{name}: {why}; scripts/build {name} has no such bound.", file=sys.stderr)
        sys.exit(2)
    return [ends[case.encode()] for case in names]
