"""How the self check checks: a value against the expected one, a script against its answers.

A part of the SECOND PROGRAM; selfcheck.py has the worked cases.
"""

from bench import Bench

ACCEPTANCES = ("M 0", "O 0", "W 0", "C 0", "P 0", "L 0", "J 0")

verdicts = []                # of each check, whether it came out right


def check(what, found, expected):
    verdicts.append(found == expected)
    if found != expected:
        print("WRONG: %s\n  found    %s\n  expected %s" % (what, found, expected))


def talk(what, script, answers):
    # Sends each line of the script to a new bench; plain acceptances (`C 0`,
    # `P 0`, ...) are left out of the comparison.
    bench = Bench()
    found = [bench.answer(line) for line in script.split("; ")]
    told = [answer for answer in found if answer not in ACCEPTANCES]
    check(what, "; ".join(told), answers)


def summary():
    # Says how many checks were made; gives the exit status.
    wrong = verdicts.count(False)
    print("%d checks, %d wrong" % (len(verdicts), wrong))
    return 1 if wrong else 0
