#!/usr/bin/env python3
"""Writes a script for `replay` to standard output: sets and gets on few keys, over one connection."""
import argparse
import sys
from itertools import count, islice

REQUESTS_A_LINE = 100
TAIL = "drain\n"

DETAILS = """
The bucket has SLOTS slots, each with WORDS value words.

Every other request is a `set` of a number, the one behind it a `get` of the same key. With `--only set`
each request is a `set` of another number, and with `--only get` each is a `get`, behind one `set` of each
key that comes in addition. A `say` line feeds a hundred requests, and the script ends in `drain`.

With `--faults` the first N sets have a planned fault: `fault 0 T first store 41 write 1`, T being the number
of the traversal. The first pass then stores a wrong value word in the first slot, which is undone, and the
traversal finishes. A set of a key that stands in another slot does not make that step, and is not struck.
"""


def head(slots, words):
    return f"geometry 1 {slots} {words}\nopen 0 plain\n"


def plan(traversal):
    return f"fault 0 {traversal} first store 41 write 1\n"


def plans(faults, only):
    """The fault lines of so many sets: every other traversal is a set, or each one is."""
    step = 1 if only == "set" else 2
    return "".join(plan(step * number) for number in range(faults))


def set_of(key, number):
    value = str(number)
    return f"set key{key} 0 0 {len(value)}\\r\\n{value}\\r\\n"


def get_of(key):
    return f"get key{key}\\r\\n"


def requests(only, keys):
    """The requests, one behind the other, without an end."""
    if only == "get":
        yield from (set_of(key, key) for key in range(keys))
        yield from (get_of(number % keys) for number in count())
    for number in count():
        if only == "set":
            yield set_of(number % keys, number)
        elif number % 2 == 0:
            yield set_of(number // 2 % keys, number)
        else:
            yield get_of(number // 2 % keys)


def lines(asked):
    """`say` lines that feed these requests."""
    while said := "".join(islice(asked, REQUESTS_A_LINE)):
        yield f"say 0 {said}\n"


def within(size, said):
    """The first of these lines, as many as have so many bytes together."""
    for line in said:
        size -= len(line)
        if size < 0:
            return
        yield line


def at_least(least):
    """Reads a number of the command line."""

    def read(word):
        number = int(word)
        if number < least:
            raise argparse.ArgumentTypeError(f"{word} is below {least}")
        return number

    return read


def arguments():
    form = argparse.RawDescriptionHelpFormatter
    reader = argparse.ArgumentParser(description=__doc__, epilog=DETAILS, formatter_class=form)
    reader.add_argument("number", metavar="NUMBER", type=at_least(1), help="how many requests; with --bytes, of how many bytes the script is at most")
    reader.add_argument("keys", metavar="KEYS", type=at_least(1), nargs="?", default=8, help="on how many keys (8)")
    reader.add_argument("slots", metavar="SLOTS", type=at_least(1), nargs="?", default=64, help="how many slots the bucket has (64)")
    reader.add_argument("words", metavar="WORDS", type=at_least(1), nargs="?", default=8, help="how many value words a slot has (8)")
    reader.add_argument("--bytes", action="store_true", help="as many requests as the size allows")
    reader.add_argument("--only", choices=["set", "get"], help="requests of one kind")
    reader.add_argument("--faults", type=at_least(0), default=0, metavar="N", help="plan a fault for each of the first N sets")
    given = reader.parse_args()
    if given.only == "get" and given.faults:
        reader.error("--faults plans faults for sets")
    return given


def main():
    given = arguments()
    begin = head(given.slots, given.words) + plans(given.faults, given.only)
    asked = requests(given.only, given.keys)
    if given.bytes:
        said = within(given.number - len(begin) - len(TAIL), lines(asked))
    else:
        first = given.keys if given.only == "get" else 0
        said = lines(islice(asked, first + given.number))
    sys.stdout.write(begin)
    sys.stdout.writelines(said)
    sys.stdout.write(TAIL)


if __name__ == "__main__":
    main()
