#!/usr/bin/env python3
"""Times ring_bench, which takes buffers through both ends of a split or of a packed ring, beside bench/twin, a plain Rust
program that does the work of the split one. Build ring_bench first, by `rt run` in crates/ring_bench; the twin is built
here, by cargo:

    python3 bench/rings.py [PROGRAM]

PROGRAM is the built ring_bench; by default crates/ring_bench/out/ring_bench. Prints two tables: nanoseconds a buffer and
their ratios, of runs of all in turn on a small and on a great ring; and ring_bench alone, on a split ring, as the number
of buffers grows. What a program takes for no buffer is subtracted.
"""

import os
import re
import shutil
import statistics
import subprocess
import sys
import tempfile

from timing import TOP, built_program, peak, seconds

RUNS = 9
BUFFERS = 1_000_000
RINGS = [("256", "128"), ("1024", "512")]
GROWTH = [100_000, 1_000_000, 4_000_000]

# Callgrind is slow: it is given so many times fewer buffers.
CALLGRIND_SHARE = 20


def built_twin(folder):
    """The twin, built into a folder; None where there is no cargo."""
    if not shutil.which("cargo"):
        return None
    manifest = str(TOP / "bench/twin/Cargo.toml")
    build = ["cargo", "build", "--release", "--offline", "--quiet", "--manifest-path", manifest, "--target-dir", folder]
    subprocess.run(build, check=True)
    return os.path.join(folder, "release", "twin")


def nanoseconds(command, ring):
    """The time that one buffer takes through a ring."""
    start = seconds([*command, "0", *ring])
    return (seconds([*command, str(BUFFERS), *ring]) - start) / BUFFERS * 1e9


def compare(commands, pairs):
    """Prints the times of the commands, named by their columns, and the ratios of these pairs within the same turn."""
    columns = [(name, ring) for ring in RINGS for name in commands]
    turns = [{column: nanoseconds(commands[column[0]], column[1]) for column in columns} for _ in range(RUNS)]

    def over(a, b):
        return f"{statistics.median(turn[a] / turn[b] for turn in turns):.2f}"

    heads = [f"{name}, ns a buffer" for name in commands] + [f"{a} over {b}" for a, b in pairs]
    print(f"| Ring, in flight | {' | '.join(heads)} |")
    print("|---" * (1 + len(heads)) + "|")
    for ring in RINGS:
        cells = [f"{statistics.median(turn[name, ring] for turn in turns):.0f}" for name in commands]
        cells += [over((a, ring), (b, ring)) for a, b in pairs]
        print(f"| {', '.join(ring)} | {' | '.join(cells)} |")
    ratios = [over((name, RINGS[1]), (name, RINGS[0])) for name in commands] + [""] * len(pairs)
    print(f"| {RINGS[1][0]} over {RINGS[0][0]} | {' | '.join(ratios)} |", flush=True)


def counted_by_perf(command):
    """The instructions of a command; None where perf counts none here."""
    with tempfile.NamedTemporaryFile("r") as file:
        perf = ["perf", "stat", "-x", ",", "-e", "instructions:u", "-o", file.name]
        subprocess.run(perf + command, stdout=subprocess.DEVNULL, check=False)
        found = re.search(r"^(\d+),", file.read(), re.MULTILINE)
    return int(found.group(1)) if found else None


def counted_by_callgrind(command):
    """The instructions of a command; None where callgrind counts none here."""
    valgrind = ["valgrind", "--tool=callgrind", f"--callgrind-out-file={os.devnull}"]
    ran = subprocess.run(valgrind + command, capture_output=True, text=True, check=False)
    found = re.search(r"Collected : (\d+)", ran.stderr)
    return int(found.group(1)) if found else None


def counter():
    """What counts instructions here: its name, the function, and how many times fewer buffers it is given."""
    if shutil.which("perf") and counted_by_perf(["true"]):
        return "perf", counted_by_perf, 1
    if shutil.which("valgrind") and counted_by_callgrind(["true"]):
        return f"callgrind, of 1/{CALLGRIND_SHARE} of the buffers", counted_by_callgrind, CALLGRIND_SHARE
    return "no counter here", None, 1


def growth(program):
    """Prints time, peak memory and instructions of a program as the number of buffers grows."""
    name, count, share = counter()
    print(f"| Buffers | Seconds | ns a buffer | Peak MiB | Instructions a buffer ({name}) |")
    print("|---|---|---|---|---|")
    start = seconds([program, "0"])
    before = count([program, "0"]) if count else 0
    for buffers in GROWTH:
        took = seconds([program, str(buffers)])
        each = (took - start) / buffers * 1e9
        fewer = buffers // share
        instructions = f"{(count([program, str(fewer)]) - before) / fewer:.0f}" if count else "-"
        most = peak([program, str(buffers)])
        print(f"| {buffers:,} | {took:.3f} | {each:.0f} | {most:.1f} | {instructions} |", flush=True)


def main():
    program = sys.argv[1] if len(sys.argv) > 1 else built_program("ring_bench")
    with tempfile.TemporaryDirectory() as folder:
        twin = built_twin(folder)
        if twin is None:
            print("There is no cargo here, so there is no twin to compare with.\n")
        commands = {"split": [program, "split"], "packed": [program, "packed"]}
        pairs = [("packed", "split")]
        if twin:
            commands["twin"] = [twin]
            pairs.append(("split", "twin"))
        compare(commands, pairs)
    print()
    growth(program)


if __name__ == "__main__":
    main()
