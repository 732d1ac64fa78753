"""What bench/check and bench/show share: they time a command of `nt` beside a plain loop in C.

Both programs read logs of one million `int64` values from bench/make_log: one with the shortest fields, one
with the longest. Each log's printed text is compared once. Then, in each round, each program reads each log
once with its output to /dev/null, so that what else the machine does falls on both alike. The table has the
median wall time of each program from its start to its end, their ratio, and the most memory that each held in a
further run, beside the size of the log.

The program is the repository's, which the script `nt` builds first where needed, or PROGRAM. With --callgrind
the script prints in place of the table where the program spends its instructions, on one log with a tenth of
the values; that wants valgrind. What is built and written here lies in a temporary folder, and goes with it.
bench/codec_timing.py and bench/desk take their runs and their profiles from here too.
"""

import argparse
import filecmp
import os
import shutil
import statistics
import subprocess
import sys
import tempfile
import time

HERE = os.path.dirname(os.path.realpath(__file__))
TOP = os.path.dirname(HERE)
MEGABYTE = 1_000_000
# How many functions --callgrind prints.
FUNCTIONS = 25


def want(command):
    if not shutil.which(command):
        sys.exit(f"{command} is wanted, and is not in PATH")


def make_log(folder, name, values, *options):
    path = f"{folder}/{name}.wpilog"
    subprocess.run([f"{HERE}/make_log", str(values), *options, path], check=True)
    return path


def compile_plain(folder, command):
    want("cc")
    path = f"{folder}/plain_{command}"
    subprocess.run(["cc", "-O2", "-o", path, f"{HERE}/plain_{command}.c"], check=True)
    return path


def built_program(*words):
    """The repository's program, after a run of `nt` with these words that builds it if need be."""
    subprocess.run([f"{TOP}/nt", *words], check=True, stdin=subprocess.DEVNULL, stdout=subprocess.DEVNULL)
    return f"{TOP}/crates/nt/out/nt"


class Run:
    """One run of a program: its wall time in seconds. SOURCE is a file for its standard input."""

    def __init__(self, words, source=os.devnull):
        with open(source, "rb") as stdin:
            began = time.perf_counter()
            status = subprocess.run(words, stdin=stdin, stdout=subprocess.DEVNULL).returncode
            self.seconds = time.perf_counter() - began
        if status:
            sys.exit(f"{' '.join(words)}: status {status}")


def peak_memory(words, source=os.devnull):
    """The most memory in bytes that a run of a program held, by GNU time.

    The system counts for a program what the one that starts it held then, so that is to be a small one, and not
    this script.
    """
    want("time")
    with tempfile.NamedTemporaryFile("r") as told, open(source, "rb") as stdin:
        measured = ["time", "-f", "%M", "-o", told.name, *words]
        subprocess.run(measured, check=True, stdin=stdin, stdout=subprocess.DEVNULL)
        return int(told.read()) * 1024


def compare(folder, commands, fields, log):
    """Ends the script where the programs print different texts of this log."""
    texts = []
    for name, words in commands.items():
        texts.append(f"{folder}/{name}.txt")
        with open(texts[-1], "wb") as text:
            subprocess.run([*words, log], check=True, stdout=text)
    if not filecmp.cmp(*texts, shallow=False):
        sys.exit(f"nt and the plain loop printed different texts of the log with the {fields} fields")
    for text in texts:
        os.remove(text)


def print_table(folder, command, given):
    logs = {
        "shortest": make_log(folder, "shortest", given.values),
        "longest": make_log(folder, "longest", given.values, "--wide"),
    }
    program = given.program or built_program("check", logs["shortest"])
    commands = {"nt": [program, command], "plain": [compile_plain(folder, command)]}
    for fields, path in logs.items():
        compare(folder, commands, fields, path)
    runs = {(log, name): [] for log in logs for name in commands}
    for _ in range(given.rounds):
        for log, path in logs.items():
            for name, words in commands.items():
                runs[log, name].append(Run([*words, path]))
    print(f"{os.cpu_count()} processors, {given.values} values, {given.rounds} rounds, median wall time")
    print("fields    log MB   nt ms  plain ms  nt/plain  nt peak MB  plain peak MB")
    for log, path in logs.items():
        nt, plain = (statistics.median(run.seconds for run in runs[log, name]) for name in commands)
        peaks = [peak_memory([*words, path]) / MEGABYTE for words in commands.values()]
        print(
            f"{log:8} {os.path.getsize(path) / MEGABYTE:7.1f} {nt * 1000:7.1f} {plain * 1000:9.1f}"
            f" {nt / plain:9.1f} {peaks[0]:11.1f} {peaks[1]:14.1f}"
        )


def print_functions(folder, words, source=os.devnull):
    """Prints the functions in which a run of these words spends its instructions, with this standard input."""
    want("valgrind")
    out = f"{folder}/callgrind.out"
    profiled = ["valgrind", "--tool=callgrind", f"--callgrind-out-file={out}", *words]
    with open(source, "rb") as stdin:
        quiet = subprocess.DEVNULL
        subprocess.run(profiled, check=True, stdin=stdin, stdout=quiet, stderr=quiet)
    report = subprocess.run(["callgrind_annotate", out], check=True, capture_output=True, text=True).stdout
    counts = [line for line in report.splitlines() if "%)" in line]
    print(*counts[: FUNCTIONS + 1], sep="\n")


def print_profile(folder, command, given):
    log = make_log(folder, "profile", given.values // 10)
    program = given.program or built_program("check", log)
    print(f"instructions of `nt {command}` on {given.values // 10} values, by function")
    print_functions(folder, [program, command, log])


def main(command):
    """Times this command of `nt` beside bench/plain_COMMAND.c."""
    words = argparse.ArgumentParser(description=f"times `nt {command}` beside a plain loop in C")
    words.add_argument("--rounds", type=int, default=11)
    words.add_argument("--values", type=int, default=1_000_000)
    words.add_argument("--program", type=os.path.abspath, help="a program in place of the repository's")
    words.add_argument("--callgrind", action="store_true", help="print where the time goes instead")
    given = words.parse_args()
    with tempfile.TemporaryDirectory() as folder:
        (print_profile if given.callgrind else print_table)(folder, command, given)
