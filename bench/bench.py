#!/usr/bin/env python3
"""Times the built program on inputs at its limits and checks each answer.

The inputs come from fixed seeds (families.py). A problem's answer is checked by the program's own `check`; a graph's object by the size
of a largest set of its problem (`convert`, then `solve` and `check`) less the offset; the replies of `check` and `improve` at their limits
are known beforehand. It prints a table, one row a family: how many files, the mean and the worst time from process start to exit, the most
memory, and the worst file. Not a part of the gate.
"""

import argparse
import contextlib
import os
import subprocess
import sys
import tempfile
import threading
import time
from dataclasses import dataclass
from pathlib import Path

import families

PROGRAM = Path(__file__).resolve().parent.parent / "crates/parity/out/parity"
# The line of a reply that tells its size.
SIZES = {"matching": "size", "cactus": "size", "spaths": "count", "genus": "genus"}


@dataclass
class Run:
    reply: str
    status: str
    seconds: float
    megabytes: float


def watch(process, peaks):
    """Reads the most memory that the process has held, again and again until it has ended: wait4 would tell no less than this script's own."""
    with contextlib.suppress(OSError, StopIteration, ValueError):
        while process.returncode is None:
            with open(f"/proc/{process.pid}/status") as status:
                line = next(line for line in status if line.startswith("VmHWM:"))
            peaks.append(int(line.split()[1]) / 1024)
            time.sleep(0.001)


def run(program, words, text, limit):
    """Runs the program on the text, and measures it from start to exit."""
    with tempfile.TemporaryFile() as source, tempfile.TemporaryFile() as reply, tempfile.TemporaryFile() as status:
        source.write(text.encode())
        source.seek(0)
        began = time.perf_counter()
        process = subprocess.Popen([program, *words], stdin=source, stdout=reply, stderr=status)
        stopper = threading.Timer(limit, process.kill)
        stopper.start()
        peaks = [0.0]
        watcher = threading.Thread(target=watch, args=(process, peaks))
        watcher.start()
        _, ended = os.waitpid(process.pid, 0)
        seconds = time.perf_counter() - began
        stopper.cancel()
        process.returncode = os.waitstatus_to_exitcode(ended)
        watcher.join()
        reply.seek(0)
        status.seek(0)
        said = status.read().decode().strip() or f"stopped after {limit} s"
        return Run(reply.read().decode(), said, seconds, max(peaks))


def number_after(word, text):
    return next(int(line.split()[1]) for line in text.splitlines() if line.startswith(word + " "))


def fault_of_answer(program, problem, answer, limit):
    """What is wrong with an answer to a problem, by the program's own check."""
    verdict = run(program, ("check",), problem + answer, limit)
    return None if verdict.reply == "yes\n" else f"check says {verdict.reply.strip() or verdict.status}"


def fault_of_object(program, file, reply, limit):
    """What is wrong with the size of a graph's object, by the problem of the graph."""
    problem = run(program, ("convert", *file.words), file.text, limit).reply
    solved = run(program, ("solve",), problem, limit)
    if solved.status != "done":
        return f"its problem isn't solved: {solved.status}"
    offset = int(problem.split("\n", 1)[0].split()[2])
    wanted, found = number_after("size", solved.reply) - offset, number_after(SIZES[file.family], reply)
    differ = None if wanted == found else f"its problem says {wanted}, and it has {found}"
    return differ or fault_of_answer(program, problem, solved.reply, limit)


def fault_of(program, file, done, limit):
    if file.wanted:
        return None if done.reply.startswith(file.wanted) else f"{done.reply.strip() or done.status} in the place of {file.wanted}"
    if done.status != "done":
        return done.status
    if file.family in SIZES:
        return fault_of_object(program, file, done.reply, limit)
    return None if file.family == "sample" else fault_of_answer(program, file.text, done.reply, limit)


def measure(program, family, limit, most, out):
    """Runs the files of a family, and returns its row and its faults."""
    runs, faults = [], []
    for number, file in enumerate(families.files_of(family)):
        if most and number == most:
            break
        done = run(program, file.words, file.text, limit)
        runs.append((done.seconds, done.megabytes, file.name))
        wrong = fault_of(program, file, done, limit)
        faults += [f"{family}: {file.name}: {wrong}"] if wrong else []
        print(f"{family}: {file.name}: {1000 * done.seconds:.1f} ms, {done.megabytes:.1f} MB{': ' + wrong if wrong else ''}", file=out)
    times = [seconds for seconds, _, _ in runs]
    row = [family, len(runs), f"{1000 * sum(times) / len(times):.1f}", f"{1000 * max(times):.1f}", f"{max(m for _, m, _ in runs):.0f}", max(runs)[2]]
    return row, faults


def beside_networkx(program, limit):
    """Times of maximum matchings, the program's and networkx's, on the same graphs; no rows where networkx is missing."""
    try:
        import networkx
    except ImportError:
        return []
    rows = []
    for file in families.files_of("matching"):
        graph = networkx.Graph(line.split()[1:] for line in file.text.splitlines() if line.startswith("edge "))
        began = time.perf_counter()
        networkx.max_weight_matching(graph, maxcardinality=True)
        theirs = time.perf_counter() - began
        ours = run(program, file.words, file.text, limit).seconds
        rows.append([file.name, f"{1000 * ours:.1f}", f"{1000 * theirs:.1f}"])
    return rows


def table(head, rows):
    lines = ["| " + " | ".join(map(str, row)) + " |" for row in [head, ["---"] * len(head), *rows]]
    return "\n".join(lines)


def main():
    parser = argparse.ArgumentParser(description=__doc__, formatter_class=argparse.RawDescriptionHelpFormatter)
    parser.add_argument("families", nargs="*", metavar="FAMILY", help=f"one of {', '.join(families.NAMES)} (all of them)")
    parser.add_argument("--program", type=Path, default=PROGRAM, help="the built program (%(default)s)")
    parser.add_argument("--limit", type=float, default=60, help="seconds after which a run is stopped (%(default)s)")
    parser.add_argument("--most", type=int, default=0, help="at most so many files of each family (all)")
    parser.add_argument("--verbose", action="store_true", help="a line for each file, on standard error")
    parser.add_argument("--networkx", action="store_true", help="maximum matchings beside networkx, where it is installed")
    given = parser.parse_args()
    unknown = [family for family in given.families if family not in families.NAMES]
    if unknown:
        parser.error(f"no family is named {unknown[0]}")
    if not given.program.is_file():
        parser.error(f"there is no program at {given.program}: `rt ci` builds it")
    with open(os.devnull, "w") as nowhere:
        out = sys.stderr if given.verbose else nowhere
        measured = [measure(given.program, family, given.limit, given.most, out) for family in given.families or families.NAMES]
    print(table(["family", "files", "mean ms", "worst ms", "most MB", "worst file"], [row for row, _ in measured]))
    if given.networkx:
        rows = beside_networkx(given.program, given.limit)
        print("\n" + table(["maximum matching", "ms", "networkx, ms"], rows) if rows else "\nnetworkx isn't installed")
    faults = [fault for _, found in measured for fault in found]
    print("\n" + "\n".join(faults) if faults else "\nall answers are right")
    return 1 if faults else 0


if __name__ == "__main__":
    sys.exit(main())
