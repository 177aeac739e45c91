#!/usr/bin/env python3
"""Times `vt run mmio` on scripts of operations of the console. Build the program first, by `rt run` in crates/vt_cli:

    python3 bench/operations.py [PROGRAM]

PROGRAM is the built program; by default crates/vt_cli/out/vt_cli. The first table is of scripts on both queues, with four
events in the gaps of each operation and without: operations a second, and the peak of resident memory. The second is of one
operation each, again and again, as the number of lines grows. What it takes for the lines that bring the console up is
subtracted.
"""

import statistics
import sys

from timing import OPENING, built_program, file_of, peak, script, seconds

RUNS = 5
LONG = 100_000
LINES = [30_000, 100_000, 300_000]

# The numbers of operations of a script on both queues, and its rounds: those without events in a gap have them on lines of
# their own.
OPERATIONS = [1_000, 100_000]
WITHOUT_EVENTS = [
    ["notify con 0"],
    ["post con 0 1 w:5", "ev key 68656c6c6f", "ev serve con 0"],
    ["reap con 0"],
    ["notify con 1"],
    ["post con 1 2 r:68656c6c6f", "ev serve con 1"],
    ["reap con 1"],
]
WITH_EVENTS = [
    ["notify con 0 @0:key 68 @0:serve con 1 @1:consize 80 25 @1:key 65"],
    ["post con 0 1 w:5 @0:serve con 1 @1:consize 100 40 @2:key 6c @3:serve con 0"],
    ["reap con 0 @0:serve con 1 @1:consize 80 25 @1:key 6c @2:serve con 1"],
    ["notify con 1 @0:key 6f @0:consize 100 40 @0:serve con 0 @1:consize 80 25"],
    ["post con 1 2 r:68656c6c6f @0:consize 100 40 @1:serve con 0 @2:consize 80 25 @4:serve con 1"],
    ["reap con 1 @0:consize 100 40 @1:serve con 0 @1:consize 80 25 @2:serve con 0"],
]

# With these lines alone a driver has not accepted any features yet.
DRIVEN = OPENING[:4]

# What is timed: a name, the lines before, and the operations of a round.
CASES = [
    ("probe, refused", OPENING, ["probe con"]),
    ("reset", OPENING, ["reset con"]),
    ("features", OPENING, ["features con"]),
    ("getstatus", OPENING, ["getstatus con"]),
    ("accept", DRIVEN, ["accept con 0000000100000000"]),
    ("all of the bring-up but the probe", OPENING, OPENING[1:]),
    ("notify", OPENING, ["notify con 1"]),
    ("reap, nothing used", OPENING, ["reap con 1"]),
    ("arm", OPENING, ["arm con 1"]),
    ("disarm", OPENING, ["disarm con 1"]),
    ("readcfg", OPENING, ["readcfg con cols"]),
    ("readcfg, changed while it is read", OPENING, ["readcfg con cols @2:consize 100 40"]),
    ("writecfg", OPENING, ["writecfg con emerg 33"]),
    ("irq queues", OPENING, ["irq queues con"]),
    ("irq config", OPENING, ["irq config con"]),
    ("irq config, changed before", OPENING, ["irq config con @0:consize 100 40"]),
    ("post and reap, 5 bytes sent", OPENING + ["notify con 1"], ["post con 1 1 r:68656c6c6f @4:serve con 1", "reap con 1"]),
    ("post and reap, 128 bytes sent", OPENING + ["notify con 1"], ["post con 1 1 r:" + "5a" * 128 + " @4:serve con 1", "reap con 1"]),
    ("post and reap, 5 bytes received", OPENING + ["notify con 0"], ["post con 0 1 w:5 @0:key 68656c6c6f @3:serve con 0", "reap con 0"]),
]


def seconds_more(vt, before, after):
    """The time that a script takes more than its first lines alone do: the median of runs in turn. A short script takes little
    beside the start of the program, so it runs the more often.
    """
    runs = RUNS * max(1, LONG // len(after))
    with file_of(script(before)) as first, file_of(script(before + after)) as whole:
        return statistics.median(seconds(vt, whole) - seconds(vt, first) for _ in range(runs))


def lines_of(rounds, count):
    """The lines of so many operations, round after round."""
    return [line for number in range(count) for line in rounds[number % len(rounds)]]


def both_queues(name, rounds, vt):
    """Prints the rows of the scripts on both queues of one kind."""
    for count in OPERATIONS:
        after = lines_of(rounds, count)
        with file_of(script(OPENING + after)) as whole:
            resident = peak(vt, whole)
        print(f"| {count:,} operations{name} | {count / seconds_more(vt, OPENING, after):,.0f} | {resident:.1f} |", flush=True)


def row(name, before, operations, vt):
    """Prints how many operations of one case run a second, for each number of lines."""
    cells = []
    for count in LINES:
        after = operations * (count // len(operations))
        cells.append(f"{len(after) / seconds_more(vt, before, after):,.0f}")
    print(f"| {name} | {' | '.join(cells)} |", flush=True)


def main():
    program = sys.argv[1] if len(sys.argv) > 1 else built_program("vt_cli")
    vt = [program, "run", "mmio"]
    print("| Script on both queues | Operations a second | Peak resident MiB |")
    print("|---" * 3 + "|")
    both_queues("", WITHOUT_EVENTS, vt)
    both_queues(", four events each", WITH_EVENTS, vt)
    print()
    print(f"| Operations a second | {' | '.join(f'{count:,} lines' for count in LINES)} |")
    print("|---" * (1 + len(LINES)) + "|")
    for name, before, operations in CASES:
        row(name, before, operations, vt)


if __name__ == "__main__":
    main()
