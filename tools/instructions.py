#!/usr/bin/env python3
"""Prints how many machine instructions a call, a step and a word of a value take, as tables for docs/BENCHMARKS.md.

    tools/instructions.py [YARDSTICK]

YARDSTICK is the proved program, `crates/yardstick/out/yardstick` if it is left out; `rt run` in its folder or `rt ci`
makes it. Without valgrind this says so and passes.

How each number is computed. The program is run under valgrind's callgrind, which counts instructions and is not
disturbed by other load on the machine.

- A whole call: a run with 25 calls less one with 5, divided by 20. So nothing that happens once is counted.
- A step of a whole call: that, divided by the steps of a call. It has a share of what a call does once: reading the
  request, testing its code, clearing logs and lists, comparing and copying the reply.
- A further step: a call that walks 1,024 slots less one that walks 1 slot, divided by the steps that it makes more.
  The call is a `get` of a key that is not there. Both calls read the same request and give the same reply, and what
  is written is the same, so what is left is the traversal's own loop. An empty slot takes four statements in each pass.
- A word of a value: a call with a value of 101 words less one with 1 word, divided by 100, in a bucket whose items
  have room for 1,024 words. It has all that is done for the word: steps, logs, comparison, codes, copies and, of a
  `set`, reading it in the request.

Keys have 8 bytes, and the bucket one slot and room for 3 words of a value, if nothing else is said.
"""
import re
import shutil
import subprocess
import sys
import tempfile

PROGRAM = "crates/yardstick/out/yardstick"
FEW, MANY = 5, 25
WORD = 8
KEY_BYTES = WORD
SLOTS = 1_024
VALUE_WORDS = 3
MOST_VALUE_WORDS = 1_024
MORE_WORDS = 100

CORES = ("plain", "script")
WAYS = ("run", "step")


def run(program, words):
    """The instructions and the steps of one run."""
    with tempfile.TemporaryDirectory() as folder:
        done = subprocess.run(
            ["valgrind", "--tool=callgrind", f"--callgrind-out-file={folder}/out", program, *words],
            capture_output=True, text=True)
    made = re.search(r"^calls (\d+) steps (\d+)$", done.stdout, re.MULTILINE)
    taken = re.search(r"Collected\s*:\s*(\d+)", done.stderr)
    if not made or not taken:
        sys.exit(f"instructions: nothing was counted:\n{done.stdout}{done.stderr[-800:]}")
    return int(taken.group(1)), int(made.group(2))


def call(program, core, way, command, slots=1, value_words=VALUE_WORDS, words=1):
    """The instructions and the steps of one call."""
    def many(calls):
        return run(program, [core, way, command, str(calls), str(slots), str(value_words), str(KEY_BYTES), str(WORD * words)])
    few, few_steps = many(FEW)
    more, more_steps = many(MANY)
    return (more - few) / (MANY - FEW), (more_steps - few_steps) / (MANY - FEW)


def further_step(program, core, way):
    """The instructions of a step more, and how many there are."""
    near, near_steps = call(program, core, way, "miss")
    far, far_steps = call(program, core, way, "miss", slots=SLOTS)
    return (far - near) / (far_steps - near_steps), far_steps - near_steps


def further_word(program, core, way, command):
    """The instructions and the steps of a word more of a value."""
    one, one_steps = call(program, core, way, command, value_words=MOST_VALUE_WORDS)
    more, more_steps = call(program, core, way, command, value_words=MOST_VALUE_WORDS, words=1 + MORE_WORDS)
    return (more - one) / MORE_WORDS, (more_steps - one_steps) / MORE_WORDS


def main():
    program = sys.argv[1] if len(sys.argv) > 1 else PROGRAM
    if not shutil.which("valgrind"):
        print("instructions: valgrind is not here, so nothing is counted")
        return
    kinds = [(core, way) for core in CORES for way in WAYS]

    print("| core | way | call | steps | instructions for a call | for a step of it |")
    print("|---|---|---|---|---|---|")
    whole = {}
    for core, way in kinds:
        for command in ("set", "get", "miss"):
            taken, steps = call(program, core, way, command)
            whole[core, way, command] = taken
            print(f"| {core} | {way} | `{command}` | {steps:,.0f} | {taken:,.0f} | {taken / steps:.1f} |")

    print()
    print("| core | way | for a further step | for a word of a value, `set` | steps | the same, `get` | steps |")
    print("|---|---|---|---|---|---|---|")
    step, word = {}, {}
    for core, way in kinds:
        step[core, way], _ = further_step(program, core, way)
        set_word, set_steps = further_word(program, core, way, "set")
        word[core, way], get_steps = further_word(program, core, way, "get")
        print(f"| {core} | {way} | {step[core, way]:.1f} | {set_word:,.0f} | {set_steps:.0f} | {word[core, way]:,.0f} | {get_steps:.0f} |")

    bars = [
        ("a further step, plain core, by `run`", step["plain", "run"], 65),
        ("a further step, script core, by `run`", step["script", "run"], 75),
        ("a further step, script core, by `step`", step["script", "step"], 140),
        ("a `set` of one-word key and value, plain core, by `run`", whole["plain", "run", "set"], 15_000),
        ("a `get` of it, plain core, by `run`", whole["plain", "run", "get"], 15_000),
        ("a word of a value of a `get`, plain core, by `run`", word["plain", "run"], 900),
    ]
    print()
    print("| instructions for | counted | wanted at most |")
    print("|---|---|---|")
    for what, counted, most in bars:
        shown = f"{counted:,.0f}" if most >= 900 else f"{counted:.1f}"
        print(f"| {what} | {shown} | {most:,} |")


if __name__ == "__main__":
    main()
