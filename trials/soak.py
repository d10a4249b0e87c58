"""The soak: millions of random operations through both programs.

    python3 soak.py [--first-seed S] [--chunk N] MILLIONS COMMAND...

runs MILLIONS million operations (a fraction will do) in chunks, each with its
own seed, through the second program and through COMMAND, which speaks the
same language on its standard input and output; the two run side by side. It
prints how many operations ran, how many lines differed and the time. On a
difference it stops after that chunk with the exit status 1 and keeps the
script and both outputs in a temporary folder whose path it prints. The first
chunk begins with the hand-written cases.
"""

import argparse
import os
import shutil
import subprocess
import sys
import tempfile
import time

import compare
import generate

HERE = os.path.dirname(os.path.abspath(__file__))
MODEL = [sys.executable, os.path.join(HERE, os.pardir, "second", "bench.py")]


def run_both(folder, command):
    # Starts both on the script and waits for both; gives their exit statuses.
    started = []
    for name, words in (("model", MODEL), ("command", command)):
        script = open(os.path.join(folder, "script"), "rb")
        output = open(os.path.join(folder, name), "wb")
        started.append(subprocess.Popen(words, stdin=script, stdout=output))
        script.close()
        output.close()
    return [process.wait() for process in started]


def soak_chunk(folder, seed, operations, with_cases, command):
    # One chunk: gives the operations run and the lines that differ.
    lines = generate.make_script(seed, operations, with_cases)
    with open(os.path.join(folder, "script"), "w", encoding="ascii") as file:
        file.write("\n".join(lines) + "\n")
    statuses = run_both(folder, command)
    if any(statuses):
        print("seed %d: exit statuses of the model and the command: %s" % (seed, statuses))
    model = compare.read_lines(os.path.join(folder, "model"))
    other = compare.read_lines(os.path.join(folder, "command"))
    differing = len(compare.differences(model, other))
    if differing:
        print("seed %d (first: the model, second: the command):" % seed)
        compare.report(model, other, lines)
    return len(lines), differing + sum(status != 0 for status in statuses)


def main():
    parser = argparse.ArgumentParser(description="millions of operations through both programs")
    parser.add_argument("--first-seed", type=int, default=int(time.time()))
    parser.add_argument("--chunk", type=int, default=100000)
    parser.add_argument("millions", type=float)
    parser.add_argument("command", nargs=argparse.REMAINDER)
    wanted = parser.parse_args()
    if not wanted.command:
        parser.error("the command is missing")
    print("first seed %d, chunks of %d operations" % (wanted.first_seed, wanted.chunk), flush=True)
    start = time.time()
    total, seed, differing = 0, wanted.first_seed, 0
    folder = tempfile.mkdtemp(prefix="soak-")
    while total < wanted.millions * 1000000 and not differing:
        left = int(wanted.millions * 1000000) - total
        done, differing = soak_chunk(folder, seed, min(wanted.chunk, left), total == 0, wanted.command)
        total += done
        seed += 1
        print("%d operations, %d lines differ, %.0f s" % (total, differing, time.time() - start), flush=True)
    if differing:
        print("script and outputs kept in " + folder)
        return 1
    shutil.rmtree(folder)
    return 0


if __name__ == "__main__":
    sys.exit(main())
