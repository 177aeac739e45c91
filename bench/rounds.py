#!/usr/bin/env python3
"""Times `vt run mmio` beside `cat` of the same input: on the empty script, on the first example, and on 1,000 and 50,000
rounds of one buffer each. Prints a table of seconds and peak resident memory. Build the program first, by `rt run` in
crates/vt_cli:

    python3 bench/rounds.py [PROGRAM]

PROGRAM is the built program; by default crates/vt_cli/out/vt_cli.
"""

import statistics
import sys

from timing import OPENING, TOP, built_program, file_of, peak, script, seconds

RUNS = 5


def rounds(count):
    """A script that posts, serves and reaps a buffer of five bytes in each round."""
    lines = list(OPENING)
    for number in range(count):
        lines += [f"post con 1 {number % 65536} r:68656c6c6f", "notify con 1", "ev serve con 1", "reap con 1"]
    return script(lines)


def row(name, text, vt):
    """Prints the row of one script: medians of runs of both commands in turn."""
    with file_of(text) as path:
        runs = [(seconds(vt, path), seconds(["cat"], path)) for _ in range(RUNS)]
        times = [statistics.median(column) for column in zip(*runs)]
        peaks = [peak(vt, path), peak(["cat"], path)]
    print(f"| {name} | {len(text):,} | {times[0]:.4f} | {peaks[0]:.1f} | {times[1]:.4f} | {peaks[1]:.1f} |", flush=True)


def main():
    program = sys.argv[1] if len(sys.argv) > 1 else built_program("vt_cli")
    vt = [program, "run", "mmio"]
    print("| Script | Bytes | vt seconds | vt peak MiB | cat seconds | cat peak MiB |")
    print("|---|---|---|---|---|---|")
    row("empty", b"", vt)
    row("the first example", (TOP / "examples/console/five_bytes.txt").read_bytes(), vt)
    row("1,000 rounds", rounds(1_000), vt)
    row("50,000 rounds", rounds(50_000), vt)


if __name__ == "__main__":
    main()
