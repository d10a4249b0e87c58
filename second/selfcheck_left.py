"""The self check of the cycles left: worked cases, by hand from request M-103, and three counts compared.

A part of the SECOND PROGRAM; selfcheck.py runs it.
"""

from copy import deepcopy

from bench import Bench
from checking import check, talk

# FIGS' bytes, the byte that starts the figure, ZOOM's byte, all of its cycles.
WORKED = [
    ("0,0,0", 0x6C, 0, 1), ("3,9,0", 0x6C, 0, 10), ("A,5,0,FF,3F,FA,3F,4,0", 0x6C, 0, 6), ("B,0,0", 0x6C, 0, 1),
    # Sides of 2 and 3 dots; one of them 0; DC has no part.
    ("40,7,7,2,0,3,0", 0x6C, 0, 10), ("41,0,0,0,0,3,0", 0x6C, 0, 6), ("46,0,0,5,0,0,0", 0x6C, 0, 10),
    # DC 7 with DM 0, 1, 3 and 7.
    ("22,7,0,9,0,12,0,FF,3F,0,0", 0x6C, 0, 8), ("25,7,0,9,0,12,0,FF,3F,1,0", 0x6C, 0, 7),
    ("20,7,0,9,0,12,0,FF,3F,3,0", 0x6C, 0, 5), ("27,7,0,9,0,12,0,FF,3F,7,0", 0x6C, 0, 1),
    # Two rows of three dots by 1, 2 and 3; one row of one dot by 16; D fresh, 8.
    ("12,1,0,3,0", 0x68, 0x00, 6), ("13,1,0,3,0", 0x68, 0x01, 24), ("10,1,0,3,0", 0x68, 0xF2, 54),
    ("12,0,0,1,0", 0x68, 0x0F, 256), ("16,1,0", 0x68, 0x00, 16)]

# The same of what draws nothing: other types, slanted characters (SL and GC)
# among them, GC under FIGD, GCHRD without GC, no dots, all dots passed over.
NOTHING = [
    ("90,1,0,3,0", 0x68), ("90,1,0,3,0", 0x6C), ("80,3,0", 0x6C), ("12,1,0,3,0", 0x6C), ("2,3,0", 0x68), ("30,1,0,3,0", 0x68),
    ("28,7,0,9,0,12,0,FF,3F,0,0", 0x6C), ("40,3,0,0,0,0,0", 0x6C), ("12,1,0,0,0", 0x68),
    ("22,7,0,9,0,12,0,FF,3F,8,0", 0x6C), ("22,7,0", 0x6C)]


def check_cycles_left():
    check_worked()
    check_the_largest()
    check_reset_and_refusals()
    check_false_counts()
    check_small_figures()
    check_count_lines()


def begun(parameters, start, zoom):
    # A bench with the figure's command taken, in its own unit.
    bench = Bench()
    lines = ["C 46", "P %X" % zoom, "C 49", "P 5", "P 0", "P 30", "U 20", "C 4C"] + ["P " + byte for byte in parameters.split(",")]
    for line in lines + ["U 20", "C %X" % start]:
        bench.answer(line)
    check("left while %X waits" % start, bench.answer("F 103"), "F 103 0")
    check("its unit", bench.answer("U 1"), "U 0 1 1")
    return bench


def check_worked():
    for parameters, start, zoom, cycles in WORKED:
        bench = begun(parameters, start, zoom)
        for left in range(cycles, 0, -1):
            check("left of %s" % parameters, [bench.answer("F 103"), bench.answer("U 1")], ["F 103 %X" % left, "U 0 1 1"])
        check("after the last of %s" % parameters, [bench.answer(line) for line in ("F 103", "U 1", "F 103", "S")],
              ["F 103 0", "U 0 0 2", "F 103 0", "S 4"])
    for parameters, start in NOTHING:
        check("nothing left of %s by %X" % (parameters, start), begun(parameters, start, 0).answer("F 103"), "F 103 0")


def check_the_largest():
    # 262,144 rows of 262,128 dots: 16,383 * 2^22. 2^32: 65,536 rows of 65,536.
    bench = begun("12,FF,3F,FF,3F", 0x68, 0x0F)
    check("the largest", [bench.answer(line) for line in ("F 103", "U 1", "F 103", "U 100", "F 103", "C 0", "F 103")],
          ["F 103 FFFC00000", "U 0 1 1", "F 103 FFFBFFFFF", "U 0 100 1", "F 103 FFFBFFEFF", "C 0", "F 103 0"])
    check("its number", 0xFFFC00000, 68715282432)
    bench = begun("12,FF,F,0,10", 0x68, 0x0F)
    check("2^32", [bench.answer(line) for line in ("F 103", "U 1", "F 103", "J 103 0", "S", "J 103 FFFFFFFF", "S")],
          ["F 103 100000000", "U 0 1 1", "F 103 FFFFFFFF", "J 0", "S 0", "J 0", "S C"])
    # In 32 bits it would be 0: false, and no J 103 can put it right.
    bench = begun("12,FF,F,0,10", 0x68, 0x0F)
    check("0 for 2^32", [bench.answer(line) for line in ("J 103 0", "S", "C 0", "J 103 100000000", "F 103", "M 10", "F 103", "S")],
          ["J 0", "S 0", "C 1", "?", "F 103 0", "M 0", "F 103 0", "S 4"])


def check_reset_and_refusals():
    # Six dots, one of them done; sixteen entries wait behind them.
    start = "C 4C; P 2; P 5; P 0; C 6C; U 6; " + "P 7; " * 16
    talk("a full buffer, no byte, the pen", start + "P 7; F 103; C 6B; F 103; R; F 103; L 40000; F 103; U 0; F 103; U 1; F 103",
         "U 0 6 1; P 3; F 103 5; C 3; F 103 5; R 5 0; F 103 5; L 6; F 103 5; U 0 0 1; F 103 5; U 0 1 1; F 103 4")
    talk("RESET", start + "C 0; F 103; S; U 9", "U 0 6 1; F 103 0; S 4; U 0 0 2")
    talk("M in a figure", start + "M 18; F 103; M 20; F 103; S", "U 0 6 1; M 2; F 103 5; F 103 0; S 4")
    talk("a run refused with 2", "O 18; " + start + "J 108 0; U 5; F 103; J 108 1; U 1; F 103",
         "U 0 6 1; U 2 0 0; F 103 5; U 0 1 1; F 103 4")
    # WDAT's sets and RDAT's items are none; the second figure counts anew.
    talk("sets and items", "C 20; P 1; P 2; F 103; U 2; F 103; U 1; F 103; C 4C; P 2; P 9; P 0; C A0; U 6; F 103; U 20; F 103; S",
         "F 103 0; U 0 2 1; F 103 0; U 0 1 1; F 103 0; U 0 6 1; F 103 0; U 0 7 3; F 103 0; S 3")
    talk("two figures", "C 4C; P 2; P 1; P 0; C 6C; C 6C; U 7; F 103; U 1; F 103; U 2; F 103",
         "U 0 7 1; F 103 0; U 0 1 1; F 103 2; U 0 2 1; F 103 0")


def check_false_counts():
    everything = "C 0; C 6B; P 1; R; S; L 5; L 40000; U 0; U 9; F 103; "
    refused = "C 1; C 1; P 1; R 1 0; S 0; L 1; L 1; U 1 0 0; U 1 0 0; F 103 %s"
    # Nothing in progress; in a figure of six dots with five to come.
    talk("idle", "J 103 1; " + everything + "J 103 0; S; R; L 40000; U 9", refused % 1 + "; S 4; R 5 0; L 6; U 0 0 2")
    for count in ("6", "4", "0", "FFFFFFFF"):
        talk("in a figure, %s" % count, "C 4C; P 2; P 5; P 0; C 6C; U 6; J 103 %s; " % count + everything + "J 103 5; S; U 9; F 103",
             "U 0 6 1; " + refused % count + "; S C; U 0 5 2; F 103 0")
    # A read: the byte stays, the mode too. A full buffer: RESET as well. Folded
    # wiring with 24 words: 1 before 2.
    talk("in a read", "C E0; U 1; J 103 5; " + everything + "J 103 0; S; P 1; R; R",
         "U 0 1 1; " + refused % 5 + "; S 1; P 4; R 0 0; R 0 0")
    talk("a full buffer", "P 7; " * 16 + "J 103 1; " + everything + "J 103 0; S; P 1; C 0; S", refused % 1 + "; S 2; P 3; S 4")
    talk("1 before 2", "O 18; J 108 0; U 9; J 103 1; U 9; U 0; J 108 1; U 0; F 103; J 103 0; U 0",
         "U 2 0 0; U 1 0 0; U 1 0 0; U 1 0 0; F 103 1; U 0 0 1")
    check_false_count_and_sheet()


def check_false_count_and_sheet():
    # Dot (3, 1). The check: 0101 + 0301 + 3 + 1 + 7220 = 203A. No entry is
    # taken, no run done; a refused sheet is refused first.
    bench = Bench()
    bench.answer("B 00000101" + "01030300010000000000" + "00" * 496 + "3A20")
    bench.answer("Q 1 10")
    check("X with a false count", [bench.answer(line) for line in ("J 103 1", "T 0", "X", "F 103", "V 0 3", "Q 0 1", "X")],
          ["J 0", "T 14 D 0", "X 0 D 0 0", "F 103 1", "V 0 0 0", "Q 0", "X B 0 0 0"])
    check("X with the true one", [bench.answer(line) for line in ("Q 1 10", "J 103 0", "X", "V 0 3", "F 103")],
          ["Q 0", "J 0", "X 0 D 0 E", "V 0 8 0", "F 103 0"])


def to_the_end(chip):
    # The cycles that a copy of the controller does until its figure is over.
    copy, cycles = deepcopy(chip), 0
    while copy.figure is not None:
        copy.figure_cycle()
        cycles += 1
    return cycles


def check_small_figures():
    # Many small figures: after each unit the count that is kept, the one by the
    # definition, and the cycles that are in fact still to come.
    for first_byte in (0x00, 0x0B, 0x40, 0x22, 0x12, 0x90):
        for numbers in ((0, 1, 0, 0), (1, 2, 3, 1), (4, 1, 2, 3), (3, 0, 4, 5), (2, 3, 0, 0)):
            for zoom in (0, 2):
                dc, d, d2, dm = numbers
                bench = begun("%X,%X,0,%X,0,%X,0,5,3F,%X,0" % (first_byte, dc, d, d2, dm), 0x68 if first_byte == 0x12 else 0x6C, zoom)
                found = []
                while bench.chip.figure is not None:
                    found.append((bench.chip.left, bench.chip.cycles_to_come()) == (to_the_end(bench.chip),) * 2)
                    bench.answer("U 1")
                found.append(bench.chip.left == bench.chip.cycles_to_come() == 0)
                check("three counts of %X, %s, ZOOM %d" % (first_byte, numbers, zoom), all(found), True)


def check_count_lines():
    for line in ("F 0103", "F 1030", "F 103 0", "F 104", "f 103", "J 103", "J 0103 0", "J 103 100000000", "J 103 1FFFFFFFF", "J 103 0 0",
                 "J 103 a", "J 103 -1", "J 104 0", "j 103 0"):
        check("line %r" % line, Bench().answer(line), "?")
    talk("leading zeros", "J 103 00000000000FFFFFFFF; F 103; J 103 0000; F 103", "F 103 FFFFFFFF; F 103 0")
