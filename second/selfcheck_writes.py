"""The self check of bit-mapped WDAT: worked cases, by hand from request M-101.

A part of the SECOND PROGRAM; selfcheck.py runs it.
"""

from checking import talk

# Sync byte 1 is the first that RESET loads: C is bit 5, G is bit 1. GD is bit 6
# of DC's high byte. Then mask FFFF and DIR right, from word 0: eight units.
WORK = "W 0 1234; W 1 1234; W 2 1234; W 3 1234; C 0; P %X; C 4C; P 2; P 0; P %X; C 4A; P %X; P %X; U 20; "

# For each sync byte and GD whether the work is bit-mapped: "When sync byte 1 has
# C = 0 and G = 1, or C = G = 0 with GD set". The last six have other bits too.
WORKS = {(0x02, 0): True, (0x02, 1): True, (0x00, 1): True, (0x00, 0): False, (0x20, 0): False, (0x20, 1): False,
         (0x22, 0): False, (0x22, 1): False, (0xDF, 0): True, (0xDD, 1): True, (0xDD, 0): False, (0xFD, 1): False,
         (0xFF, 1): False, (0x8A, 0): True}

# WDAT's byte, its parameters, the pattern with all bits, the bit-mapped one.
SETS = [(0x20, "P 4D; P B2", 0xB24D, 0xFFFF), (0x20, "P B2; P 4D", 0x4DB2, 0x0000), (0x20, "P 1; P 0", 0x0001, 0xFFFF),
        (0x20, "P FE; P FF", 0xFFFE, 0x0000), (0x30, "P AB", 0x00AB, 0x00FF), (0x30, "P AA", 0x00AA, 0x0000),
        (0x38, "P AB", 0xAB00, 0xFF00), (0x38, "P AA", 0xAA00, 0x0000)]


def check_bit_mapped_work():
    check_patterns()
    check_operations()
    check_when_judged()
    check_figures_and_reads()


def check_patterns():
    # REPLACE with mask FFFF leaves the pattern itself in word 0; EAD is 1 after
    # it. "WDAT 30 with AB, mask FFFF, word 1234: 00AB" is among them.
    for (sync, gd), bit_mapped in WORKS.items():
        for command, parameters, all_bits, filled in SETS:
            pattern = filled if bit_mapped else all_bits
            units = 2 + parameters.count(";")
            talk("WDAT %X, %s, sync byte %02X, GD %d" % (command, parameters, sync, gd),
                 WORK % (sync, 0x40 * gd, 0xFF, 0xFF) + "C %X; %s; U 20; V 0 2; C E0; U 1; R" % (command, parameters),
                 "U 0 8 2; U 0 %X 2; V %X 1234; U 0 1 1; R 0 1" % (units, pattern))


def check_operations():
    # Mask 0F0F, words 1234, bit-mapped by G. Low byte with bit 0: pattern 00FF.
    # REPLACE 103F, COMPLEMENT 123B, RESET 1230, SET 123F; a word with bit 0,
    # pattern FFFF: 1F3F, 1D3B, 1030, 1F3F; with none REPLACE clears: 1030.
    start = WORK % (0x02, 0, 0x0F, 0x0F)
    for operation, low, word, none in ((0, "103F", "1F3F", "1030"), (1, "123B", "1D3B", "1234"),
                                       (2, "1230", "1030", "1234"), (3, "123F", "1F3F", "1234")):
        talk("bit-mapped, operation %d" % operation,
             start + "C %X; P 1; C %X; P 1; P 0; P 0; P 1; U 20; V 0 4" % (0x30 + operation, 0x20 + operation),
             "U 0 8 2; U 0 7 2; V %s %s %s 1234" % (low, word, none))


def check_when_judged():
    # A half-sent word writes nothing; the second byte completes it, in its unit.
    talk("a set completes", WORK % (2, 0, 0xFF, 0xFF) + "C 20; P 1; U 20; V 0 1; P 0; U 1; V 0 1",
         "U 0 8 2; U 0 2 2; V 1234; U 0 1 1; V FFFF")
    # The bit of a word that was dropped has no part in the next.
    talk("a half word dropped", WORK % (2, 0, 0xFF, 0xFF) + "C 20; P 1; C 20; P 0; P 1; U 20; V 0 2", "U 0 8 2; U 0 5 2; V 0 1234")
    # RESET with another sync byte between two sets; RESET alone keeps it.
    talk("RESET between sets", WORK % (2, 0, 0xFF, 0xFF) + "C 30; P 3; U 9; C 0; P 20; C 30; P 3; U 9; C 0; C 30; P 5; U 9; "
         "C 0; P 2; C 30; P 5; U 9; V 0 4", "U 0 8 2; U 0 2 2; U 0 3 2; U 0 2 2; U 0 3 2; V FF 3 5 FF")
    # With C = G = 0 the GD of the last DC counts: FIGS' byte alone leaves it.
    talk("GD stays", WORK % (0, 0x40, 0xFF, 0xFF) + "C 4C; P 2; C 30; P 3; U 9; C 4C; P 2; P 9; C 30; P 3; U 9; "
         "C 4C; P 2; P 0; P BF; C 30; P 3; U 9; V 0 3", "U 0 8 2; U 0 4 2; U 0 5 2; U 0 6 2; V FF FF 3")


def check_figures_and_reads():
    # Four dots of the pattern 0005 from dot 0 of word 0: 5 in bit-mapped work too.
    # RDAT gives the words as they are.
    talk("dots in bit-mapped work", WORK % (2, 0x40, 0, 0) + "W 0 0; C 78; P 5; P 0; C 49; P 0; P 0; P 0; U 20; "
         "C 4C; P 2; P 3; P 40; C 6C; U 20; V 0 2", "U 0 8 2; U 0 7 2; U 0 9 2; V 5 1234")
    talk("RDAT in bit-mapped work", WORK % (2, 0x40, 0, 0) + "C 4C; P 2; P 1; P 40; C A0; U 20; R; R", "U 0 8 2; U 0 6 2; R 0 34; R 0 12")
