#!/usr/bin/env python3
"""Plans one fault after another in a script, replays each, and prints tables of what came of them.

usage: fault_table.py [PROGRAM] [--steps]

PROGRAM is the proved program, crates/sei_main/out/sei_main of this repository if none is named. To make the tables by hand:

    (cd crates/sei_main && rt run -- replay < stdin)    proves and builds the program
    python3 tools/fault_table.py                        prints the tables of docs/FAULTS.md, in some minutes
    python3 tools/fault_table.py --steps                prints them with a row for each step

It needs Python 3.9 and nothing else, and writes no file.

Two scripts are run in one bucket of one slot: a `set` on the empty bucket and then a `get`, and a `set` and
then two `get`s. The first struck request is the `set`, the second the first of the two `get`s; the request
after the struck one reads the key back. For each phase and each kind of fault a plan is made for every step
that the traversal makes there, and the reports are counted. Reads are those of the first three values of a
step, masks are 1, and jumps lead to the first step of each phase:

    right    the whole report is that of the script without a fault, so the key was read back right: the
             plan did not strike, or what it did was right all the same
    refused  the connection was refused, and nothing was sent of this request and those after it
    PHASE CAUSE  the traversal aborted there; the right message of it was sent before, or none, and
             nothing after it

Each cell has the count first: `5 right, 1 take gate`. The number that belongs to a cause is left out.
With `--steps` each step has a row, each fault a column, and a cause its number. Neighbouring steps that end
alike share a row.

Of each replay the whole report is looked at: which messages are sent, that `took` counts them and `left`
the bytes of the requests from the struck one on, the last line, and the exit status, which is 3 after an
abort and else 0. If anything is wrong, it is told on standard error, `WRONG` stands in the table, and
the status is 1. A phase in which no fault strikes is wrong too.
"""
import os
import subprocess
import sys
from collections import Counter
from concurrent.futures import ThreadPoolExecutor

# The program if none is named.
PROGRAM = os.path.join(os.path.dirname(os.path.abspath(__file__)), "..", "crates", "sei_main", "out", "sei_main")
SET = "set a 0 0 1\\r\\nx\\r\\n"
GET = "get a\\r\\n"
PHASES = ["guard", "take", "first", "restore", "second", "compare", "verify", "enter", "give", "send", "done"]
KINDS = [
    ("read", [f"read {nth} 1" for nth in range(3)]),
    ("write", ["write 1"]),
    ("flip", ["flip"]),
    ("skip", ["skip"]),
    ("repeat", ["repeat"]),
    ("jump", [f"jump {phase} 0" for phase in PHASES]),
]
FAULTS = [fault for _, faults in KINDS for fault in faults]
# The search for steps ends after this many indices in a row at which no step is made.
MOST_MISSED = 2000


class Load:
    """Requests on connection 0, one call each, and which of them is struck."""

    def __init__(self, program, title, requests, struck):
        self.program = program
        self.title = title
        self.requests = requests
        self.struck = struck
        self.quiet, status = self.replay(None)
        self.sent = [line for line in self.quiet if line.startswith("sent 0 ")]
        took = f"took 0 {len(requests)}"
        self.is_sound = status == 0 and len(self.sent) == len(requests) and self.quiet == [*self.sent, took, "end ok"]

    def replay(self, fault):
        """The report and the exit status, with this fault planned for the struck request, or with none."""
        planned = [f"fault 0 {self.struck} {fault}"] if fault else []
        said = "".join(self.requests)
        text = "\n".join(["geometry 1 1 3", "open 0 plain", *planned, f"say 0 {said}", "drain", ""])
        done = subprocess.run([self.program, "replay"], input=text.encode(), stdout=subprocess.PIPE, check=False)
        return done.stdout.decode().splitlines(), done.returncode

    def bytes_left(self):
        """How many bytes the struck request and those after it have."""
        said = "".join(self.requests[self.struck :])
        return len(said.encode().decode("unicode_escape"))

    def reports(self, line):
        """The reports in which the struck request ends with this line: only an abort may stand after its message."""
        is_abort = line.startswith("abort ")
        last = "end aborted" if is_abort else "end ok"
        most = self.struck + 1 if is_abort else self.struck
        for sent in range(self.struck, most + 1):
            yield [*self.sent[:sent], line, f"took 0 {sent}", f"left 0 {self.bytes_left()}", last]

    def outcome(self, fault):
        """What came of a fault, with the exact cause; None if a report or a status is wrong."""
        report, status = self.replay(fault)
        if report == self.quiet:
            return "right" if status == 0 else None
        abort = f"abort 0 {self.struck} "
        for line in report:
            if line.startswith(abort) and report in self.reports(line):
                return line.removeprefix(abort) if status == 3 else None
            if line == "refused 0" and report in self.reports(line):
                return "refused" if status == 0 else None
        return None

    def makes(self, phase, index):
        """Whether a step is made at this index: there a jump to a place that is no step aborts."""
        return self.replay(f"{phase} at {index} jump guard 4000")[0] != self.quiet

    def steps(self, phase):
        """The indices at which the phase makes a step."""
        found, missed, index = [], 0, 0
        while missed < MOST_MISSED:
            if self.makes(phase, index):
                found.append(index)
                missed = 0
            else:
                missed += 1
            index += 1
        return found

    def ends(self, pool, phase):
        """For each step of a phase, what comes of each fault."""
        steps = self.steps(phase)
        if not steps:
            sys.stderr.write(f"wrong: {''.join(self.requests)} makes no step of {phase} that a fault could strike\n")
        faults = [f"{phase} at {index} {fault}" for index in steps for fault in FAULTS]
        ends = list(pool.map(self.outcome, faults))
        for fault, end in zip(faults, ends):
            if end is None:
                sys.stderr.write(f"wrong: {''.join(self.requests)} with fault 0 {self.struck} {fault}\n")
        width = len(FAULTS)
        return {index: dict(zip(FAULTS, ends[at * width :])) for at, index in enumerate(steps)}


def row(cells):
    return "| " + " | ".join(cells) + " |"


def heading(cells):
    return [row(cells), "|---" * len(cells) + "|"]


def counted(ends):
    """The ends with their counts, those that are right first, and causes without their numbers."""
    kinds = Counter("WRONG" if end is None else " ".join(end.split()[:2]) for end in ends)
    ordered = sorted(kinds.items(), key=lambda kind: (kind[0] != "right", kind[0]))
    return ", ".join(f"{count} {kind}" for kind, count in ordered)


def phase_rows(phase, ends):
    cells = [counted(end[fault] for end in ends.values() for fault in faults) for _, faults in KINDS]
    return [row([f"{phase}, {len(ends)}", *cells])]


def step_rows(phase, ends):
    """A row for each step; neighbouring steps that end alike share one."""
    rows = []
    for index, end in ends.items():
        cells = [end[fault] or "WRONG" for fault in FAULTS]
        if rows and rows[-1][1] == cells:
            rows[-1][0].append(index)
        else:
            rows.append(([index], cells))
    return [row([f"{phase} {', '.join(map(str, steps))}", *cells]) for steps, cells in rows]


def table(pool, load, by_steps):
    """The lines of the table of one script, and whether all is right in it."""
    lines = [load.title, ""]
    lines += heading(["step", *FAULTS]) if by_steps else heading(["phase, steps", *(name for name, _ in KINDS)])
    is_sound = load.is_sound
    if not is_sound:
        sys.stderr.write(f"wrong: {''.join(load.requests)} without a fault\n")
    for phase in PHASES:
        ends = load.ends(pool, phase)
        lines += step_rows(phase, ends) if by_steps else phase_rows(phase, ends)
        is_sound = is_sound and bool(ends) and all(None not in end.values() for end in ends.values())
    return lines, is_sound


def main(words):
    by_steps = words[-1:] == ["--steps"]
    programs = words[:-1] if by_steps else words
    program = programs[0] if programs else PROGRAM
    if len(programs) > 1 or program.startswith("-") or not os.access(program, os.X_OK):
        sys.stderr.write(__doc__)
        return 1
    loads = [
        Load(program, "A `set` of a new key:", [SET, GET], 0),
        Load(program, "A `get` of it:", [SET, GET, GET], 1),
    ]
    with ThreadPoolExecutor(os.cpu_count()) as pool:
        tables = [table(pool, load, by_steps) for load in loads]
    print("\n\n".join("\n".join(lines) for lines, _ in tables))
    return 0 if all(is_sound for _, is_sound in tables) else 1


if __name__ == "__main__":
    sys.exit(main(sys.argv[1:]))
