"""What bench/frames and bench/control share: they time modes of the program `codec_bench`, each beside other work on
the same input.

First each of the two does its work once, and what both print is compared. Then, in each round, each does it as
often as --times says, one after the other, so that what else the machine does falls on both alike. The table has
the median wall time of each from its start to its end, that time for each message, and their ratio.

The program is the repository's crate crates/codec_bench, which `rt run` proves and builds first where needed, or
PROGRAM. With --callgrind the script prints in place of the table where the program spends its instructions, a
tenth as often; that wants valgrind.
"""

import argparse
import os
import statistics
import subprocess
import sys
import tempfile
from typing import Callable, NamedTuple

from timing import TOP, Run, print_functions, want

CRATE = f"{TOP}/crates/codec_bench"


class Pair(NamedTuple):
    """A mode of the program, and what it is timed beside, by a name and its words."""

    mode: str
    beside: str
    # How many messages the mode reads or writes each time.
    messages: int
    # Given the program's path, the words that run the other work, without how often.
    words: Callable[[str], list[str]]
    # Given what the mode printed when it did its work once, what the other work is to print.
    expected: Callable[[str], str] = lambda printed: printed


def built_program():
    """The repository's program, after a run of it that builds it if need be."""
    want("rt")
    built = subprocess.run(["rt", "run"], cwd=CRATE, capture_output=True, text=True)
    if built.returncode:
        sys.exit(f"rt run in {CRATE}: status {built.returncode}\n{built.stderr}")
    return f"{CRATE}/out/codec_bench"


def printed(words):
    return subprocess.run([*words, "1"], check=True, capture_output=True, text=True).stdout


def compare(program, pair):
    """Ends the script where the two print other sums."""
    sums = printed([program, pair.mode])
    other = printed(pair.words(program))
    if other != pair.expected(sums):
        sys.exit(f"{pair.mode} printed {sums!r}, and {pair.beside} {other!r}")


def print_table(program, pairs, given):
    for pair in pairs:
        compare(program, pair)
    runs = {(pair.mode, side): [] for pair in pairs for side in (0, 1)}
    for _ in range(given.rounds):
        for pair in pairs:
            for side, words in enumerate(([program, pair.mode], pair.words(program))):
                runs[pair.mode, side].append(Run([*words, str(given.times)]).seconds)
    print(f"{os.cpu_count()} processors, {given.times} times, {given.rounds} rounds, median wall time")
    print("| Work | Time | For a message | Beside | Time | For a message | Ratio |")
    print("|---|---|---|---|---|---|---|")
    for pair in pairs:
        times = [statistics.median(runs[pair.mode, side]) for side in (0, 1)]
        each = [f"{time * 1e3:.0f} ms | {time * 1e9 / given.times / pair.messages:.0f} ns" for time in times]
        print(f"| `{pair.mode}` | {each[0]} | {pair.beside} | {each[1]} | {times[0] / times[1]:.1f} |")


def print_profiles(folder, program, pairs, given):
    for pair in pairs:
        print(f"instructions of `codec_bench {pair.mode}`, {given.times // 10} times, by function")
        print_functions(folder, [program, pair.mode, str(given.times // 10)])


def main(description, times, make_pairs):
    """Times the pairs that `make_pairs` gives of a temporary folder."""
    words = argparse.ArgumentParser(description=description)
    words.add_argument("--rounds", type=int, default=11)
    words.add_argument("--times", type=int, default=times, help="how often each does its work in a round")
    words.add_argument("--program", type=os.path.abspath, help="a program in place of the repository's")
    words.add_argument("--callgrind", action="store_true", help="print where the time goes instead")
    given = words.parse_args()
    with tempfile.TemporaryDirectory() as folder:
        pairs = make_pairs(folder)
        program = given.program or built_program()
        if given.callgrind:
            print_profiles(folder, program, pairs, given)
        else:
            print_table(program, pairs, given)
