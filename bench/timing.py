"""What the benchmarks share: the time and the peak memory of a command that reads a file, and the programs that they time."""

import ctypes
import os
import subprocess
import sys
import tempfile
import time
from contextlib import contextmanager
from pathlib import Path

TOP = Path(__file__).resolve().parent.parent

# The lines that bring the console up on MMIO: its features, the sizes of both queues, and the last step.
OPENING = [
    "probe con",
    "reset con",
    "status con ack",
    "status con driver",
    "accept con 0000000100000000",
    "status con featok",
    "setq con 0 256",
    "setq con 1 256",
    "status con drvok",
]


def script(lines):
    """The bytes of a script with these lines."""
    return "".join(line + "\n" for line in lines).encode()


@contextmanager
def file_of(text):
    """The name of a file with these bytes, which is gone afterwards."""
    with tempfile.NamedTemporaryFile() as file:
        file.write(text)
        file.flush()
        yield file.name


def check(command, status):
    if status != 0:
        sys.exit(f"{' '.join(command)}: wait status {status}")


def seconds(command, path=os.devnull):
    """The time from the start of a command, which reads a file, to its end."""
    with open(path, "rb") as source:
        began = time.perf_counter()
        child = subprocess.Popen(command, stdin=source, stdout=subprocess.DEVNULL)
        status = child.wait()
        ended = time.perf_counter()
    check(command, status)
    return ended - began


def peak(command, path=os.devnull):
    """The most MiB of memory that a command, which reads a file, had resident.

    Linux counts what a process had resident before `exec` too, which would be all of Python. So a small shell starts the
    command and ends, and Python, as the next parent that adopts children, waits for the command. A shell gives what it starts
    in the background no input, so the file goes by another number.
    """
    set_child_subreaper = 36
    ctypes.CDLL(None).prctl(set_child_subreaper, 1, 0, 0, 0)
    starts = ["sh", "-c", 'exec 3<&0; "$@" <&3 3<&- >/dev/null & exec echo $!', "sh"] + command
    with open(path, "rb") as source:
        pid = int(subprocess.run(starts, stdin=source, stdout=subprocess.PIPE, check=True).stdout)
    _, status, usage = os.wait4(pid, 0)
    check(command, status)
    return usage.ru_maxrss / 1024


def built_program(crate):
    """The program that was built for a crate, by the crate's name."""
    program = TOP / "crates" / crate / "out" / crate
    if not os.access(program, os.X_OK):
        sys.exit(f"no program {program}: build it by `rt run` in crates/{crate}")
    return str(program)
