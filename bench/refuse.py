"""Runs a program with one refusal after another, and prints a line of a table for each kind.

refuse.py LIBRARY STEP FOLDER NAME OUTPUTS PROGRAM WORDS..: LIBRARY is the built refuse.c. The program runs in FOLDER; OUTPUTS are the
files that it may write there, with commas between them. Each STEP-th number is tried. The exit status is 1 where a run ended as none
may: by a signal, by another status, with an out or a file that is no front of the whole, or with another text on err.
"""

import os
import subprocess
import sys

LIBRARY, STEP, FOLDER, NAME, OUTPUTS = sys.argv[1:6]
COMMAND = sys.argv[6:]
FILES = [name for name in OUTPUTS.split(",") if name]


def run(**refusals):
    """Runs the program: its status, out, err, and the files that it may write (None where one is not there)."""
    for name in FILES:
        path = os.path.join(FOLDER, name)
        if os.path.exists(path):
            os.remove(path)
    environment = dict(os.environ, LD_PRELOAD=LIBRARY, **{name: str(value) for name, value in refusals.items()})
    done = subprocess.run(COMMAND, cwd=FOLDER, env=environment, stdin=subprocess.DEVNULL, capture_output=True, timeout=120, check=False)
    written = []
    for name in FILES:
        path = os.path.join(FOLDER, name)
        written.append(open(path, "rb").read() if os.path.exists(path) else None)
    return done.returncode, done.stdout, done.stderr, written


def counted():
    """A run in which nothing is refused, and its numbers of growths, of calls, of reads and writes of several bytes, of threads."""
    path = os.path.join(FOLDER, "counts")
    whole = run(COUNT_TO=path)
    with open(path) as file:
        numbers = [int(number) for number in file.read().split()]
    os.remove(path)
    return whole, numbers


def are_fronts(written, whole):
    """Whether each file is not there or a front of the whole one."""
    return all(part is None or (all_of_it is not None and all_of_it.startswith(part)) for part, all_of_it in zip(written, whole))


WHOLE, COUNTS = counted()


def ending(ended):
    """How a run ended: 'whole', a status, or 'wrong'."""
    status, out, err, written = ended
    _, whole_out, whole_err, whole_written = WHOLE
    if ended == WHOLE:
        return "whole"
    if not (whole_out.startswith(out) and are_fronts(written, whole_written)):
        return "wrong"
    if status == 8 and (err == b"want of memory\n" or b"want of memory\n".startswith(err) or whole_err.startswith(err.removesuffix(b"want of memory\n"))):
        return "8"
    if status == 6 and err == b"shelf fault\n" and out == b"":
        return "6"
    if status == 10 and whole_err.startswith(err.removesuffix(b"sink fault\n")):
        return "10"
    return "wrong"


def tried(kind, variable, total):
    """Tries each number of a kind, and prints how the runs ended. Tells how many ended as none may."""
    ends = {"whole": 0, "8": 0, "6": 0, "10": 0, "wrong": 0}
    out = {"empty": 0, "part": 0, "whole": 0}
    for number in range(1, total + 1, int(STEP)):
        ended = run(**{variable: number})
        end = ending(ended)
        ends[end] += 1
        if end not in ("whole", "wrong"):
            out["empty" if not ended[1] else "whole" if ended[1] == WHOLE[1] else "part"] += 1
        if end == "wrong" and ends["wrong"] <= 5:
            print(f"{NAME}: {kind} {number}: status {ended[0]}, out {ended[1][:60]!r}, err {ended[2][:60]!r}", file=sys.stderr)
    number_tried = sum(ends.values())
    print(f"| {NAME} | {kind} | {total} | {number_tried} | {ends['whole']} | {ends['8']} | {ends['6']} | {ends['10']} | {out['empty']}, {out['part']}, {out['whole']} | {ends['wrong']} |", flush=True)
    return ends["wrong"]


def main():
    """Tries all kinds."""
    wrong = tried("growth", "REFUSE_GROWTH", COUNTS[0])
    wrong += tried("call that fails", "REFUSE_CALL", COUNTS[1])
    wrong += tried("call that moves one byte", "SHORT_CALL", COUNTS[1])
    wrong += tried("thread", "REFUSE_THREAD", COUNTS[3])
    each = run(SHORT_EACH=1)
    same = each == WHOLE
    print(f"| {NAME} | one byte each time | {COUNTS[2]} | 1 | {int(same)} | 0 | 0 | 0 | 0, 0, 0 | {int(not same)} |", flush=True)
    return 1 if wrong or not same else 0


sys.exit(main())
