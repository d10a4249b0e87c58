"""The second program's controller with counters in it, for coverage.py."""

import os
import sys
from collections import Counter

HERE = os.path.dirname(os.path.abspath(__file__))
sys.path.insert(0, os.path.join(HERE, os.pardir, "second"))

import figures as figures_module     # noqa: E402
from chip import Chip                # noqa: E402
from commands import NAMES           # noqa: E402
from counted_left import CountedCalls  # noqa: E402
from counted_wirings import (  # noqa: E402
    count_crossing, count_meeting, count_move, count_transfer, over_the_end, where_met)
from counted_writes import count_beside, count_change, count_set, kind_of_work  # noqa: E402
from figures import signed, wrapped  # noqa: E402
from reads import READ_MODE, WRITE_MODE  # noqa: E402
from rows import (  # noqa: E402
    DIRECTIONS, MOST_PARAMETERS, MOVES, OPERATION_NAMES, PLACES, TRANSFERS, WHENS, class_of_command, kind_of_mask, reached,
    wide_marks)
from wiring import OPEN              # noqa: E402


class CountingChip(CountedCalls):

    older_gd = False             # whether the last FIGS left GD as it was
    last_work = None             # the kind of work of the last WDAT set

    def command_port(self, byte):
        held, mode = len(self.buffer), self.mode
        if byte == 0:
            self.count_reset(held, mode)
        elif self.read is not None:
            reached("RDAT %s ended by a command" % TRANSFERS[self.read.transfer])
        answer = Chip.command_port(self, byte)
        if byte != 0:
            reached("command queued" if answer == 0 else "refusal 3: command")
            if mode == READ_MODE:
                reached("command in read mode")
                if held == 16:
                    reached("command in read mode with 16 held")
        return answer

    def count_reset(self, held, mode):
        reached("command RESET")
        if self.wiring == OPEN:
            self.count_open_reset(held, mode)
        if held == 16 and mode == WRITE_MODE:
            reached("RESET with a full buffer")
        if mode == READ_MODE:
            reached("RESET in read mode")
        if self.display:
            reached("RESET with display on")
        if self.figure is not None:
            reached("RESET in a figure")
            reached(self.figure.kind + " cut by RESET")
            self.lately.add("RESET in a figure: " + self.figure.kind)
            self.count_stop("RESET")
        if self.read is not None:
            reached("RDAT %s ended by RESET" % TRANSFERS[self.read.transfer])

    def count_open_reset(self, held, mode):
        reached("RESET under open wiring")
        if self.figure is not None:
            reached("RESET under open wiring, in a figure")
        if mode == READ_MODE:
            reached("RESET under open wiring, in read mode")
        elif held == 16:
            reached("RESET under open wiring, with a full buffer")

    def count_stop(self, what):
        # Where an arc stands when it is stopped.
        if self.figure.kind == "arc":
            reached("arc: %s %s" % (what, where_in_arc(self.figure)))

    def parameter_port(self, byte):
        answer = Chip.parameter_port(self, byte)
        if answer == 0:
            reached("parameter queued")
        else:
            reached("refusal 4" if answer == 4 else "refusal 3: parameter")
            if answer == 4 and len(self.buffer) == 16:
                reached("refusal 4 with 16 held")
        return answer

    def read_byte(self):
        answer = Chip.read_byte(self)
        if answer[0] == 0:
            reached("byte read")
        else:
            reached("refusal 5 in %s mode" % ("write" if self.mode == 0 else "read"))
        return answer

    def status(self):
        value = Chip.status(self)
        for bit in (7, 3, 2, 1, 0):
            reached("status bit %d is %d" % (bit, value >> bit & 1))
        return value

    def post_pen(self, address):
        was_set = self.pen_set
        answer = Chip.post_pen(self, address)
        reached("pen posted" if answer == 0 else "refusal 6")
        if answer == 0 and was_set:
            reached("pen replaced")
        return answer

    def run(self, budget):
        begun = self.figure is not None and self.figure.place > 0
        done, reason = Chip.run(self, budget)
        reached("run: " + ["", "budget spent", "nothing to do", "a read awaits room"][reason])
        if budget == 0:
            reached("run: budget 0")
        elif reason == 1 and self.nothing_to_do():
            reached("run: budget spent as the work ends")
        if self.figure is not None:
            reached("run: a figure cut")
            self.count_stop("a run ends")
            if begun and done > 0 and self.figure.dots > 2 ** 32:
                reached("run: goes on in more than 2^32 dots, and is cut")
        if budget == 0xFFFFFFFF:
            reached("run: the largest budget")
        if reason == 3:
            reached("RDAT %s awaits room at %d" % (TRANSFERS[self.read.transfer], len(self.buffer)))
        return done, reason

    def begin_command(self, byte):
        if self.command is not None:
            name = NAMES[self.command]
            if name in MOST_PARAMETERS and self.taken < MOST_PARAMETERS[name]:
                reached("cut short: %s after %d" % (name, self.taken))
        if self.half_word is not None:
            by = NAMES[byte] if NAMES[byte] in ("WDAT", "RESET", "unknown") else "another command"
            reached("half word dropped by " + by)
            count_beside(self, "half word dropped by " + by)
        Chip.begin_command(self, byte)

    def take_command(self, byte):
        reached(class_of_command(byte))
        name = NAMES[byte]
        if name in ("FIGD", "GCHRD"):
            reached("%s of type %s" % (name, format(self.figs >> 3, "05b")))
            self.count_no_arc(name, self.figs >> 3)
        if name in ("RDAT", "CURD", "LPRD"):
            reached("%s with %s behind it" % (name, "entries" if self.buffer else "nothing"))
        if name == "FIGS":
            self.older_gd = True
        if name == "LPRD" and self.pen_set:
            reached("LPRD clears bit 7")
        Chip.take_command(self, byte)
        if name in ("FIGD", "GCHRD") and self.figure is None:
            self.lately.add(name + " that draws nothing")
        if name == "RDAT" and self.read is None:
            reached("RDAT %s of no items" % TRANSFERS[byte >> 3 & 3])

    def count_no_arc(self, name, figure_type):
        if self.dm <= self.dc and figure_type & 4:
            if name == "FIGD" and figure_type != 4:
                reached("FIGD of A and another bit, with dots")
            if name == "GCHRD" and figure_type == 4:
                reached("GCHRD of A alone, with dots")

    def take_parameter(self, byte):
        name = "" if self.command is None else NAMES[self.command]
        number = self.taken + 1
        if name == "":
            reached("parameter before any command")
        elif name == "unknown":
            reached("parameter of an unknown byte")
        elif name in MOST_PARAMETERS:
            reached("parameter %s %s" % (name, number if number <= MOST_PARAMETERS[name] else "surplus"))
            if name == "CURS" and number == 3:
                reached("CURS names dot %d" % (byte >> 4))
            if name == "FIGS" and number == 3:
                self.older_gd = False
        elif name == "PRAM":
            reached("parameter PRAM " + ("kept" if self.command % 16 + number <= 16 else "past 15"))
        elif name == "WDAT":
            self.count_wdat()
        else:
            reached("parameter of " + name)
        Chip.take_parameter(self, byte)

    def count_wdat(self):
        transfer = self.command >> 3 & 3
        if transfer == 0:
            reached("parameter WDAT %s of a word" % ("first" if self.half_word is None else "second"))
        else:
            reached("parameter WDAT " + TRANSFERS[transfer])

    def pattern_of_set(self, all_bits, byte, filled):
        count_set(self, all_bits, byte, self.older_gd)
        count_change(self.last_work, kind_of_work(self))
        self.last_work = kind_of_work(self)
        return Chip.pattern_of_set(self, all_bits, byte, filled)

    def write_set(self, pattern):
        reached("WDAT %s %s" % (TRANSFERS[self.command >> 3 & 3], OPERATION_NAMES[self.operation]))
        reached("WDAT moves " + DIRECTIONS[self.figs & 7])
        before = self.ead
        count_transfer(self, "WDAT", self.command >> 3 & 3)
        Chip.write_set(self, pattern)
        self.lately.add("a WDAT set")
        count_move(self, "WDAT", before)

    def read_item(self):
        transfer, held = self.read.transfer, len(self.buffer)
        reached("RDAT %s along %s" % (TRANSFERS[transfer], DIRECTIONS[self.figs & 7]))
        if self.ead >= len(self.memory) and self.wiring != OPEN:
            reached("RDAT folded")
        before = self.ead
        count_transfer(self, "RDAT", transfer)
        count_beside(self, "RDAT " + TRANSFERS[transfer])
        if transfer != 0 and held == 15:
            reached("RDAT %s goes on at 15" % TRANSFERS[transfer])
        Chip.read_item(self)
        self.lately.add("an RDAT item")
        count_move(self, "RDAT", before)
        if self.read is None:
            reached("RDAT %s completed" % TRANSFERS[transfer])

    def memory_cycle(self, pattern):
        figure = self.figure
        many[count_cycle, figure and figure.kind, figure and figure.direction, self.operation, pattern & 1,
             kind_of_mask(self.mask), where_met(self), self.ead >= len(self.memory)] += 1
        if figure is not None and self.mask in DOTS:
            place = 0 if figure.place == 0 else 2 if figure.place == figure.dots - 1 else 1
            many[count_dot, place, DOTS[self.mask]] += 1
        Chip.memory_cycle(self, pattern)

    def start_arc(self):
        dc, dm = self.dc, self.dm
        facts = {
            "DM 0": dm == 0, "DM 1": dm == 1, "DM 2 to DC - 1": 2 <= dm < dc, "DM = DC": dm == dc,
            "DM = DC + 1": dm == dc + 1, "DM over DC + 1": dm > dc + 1, "DC 0": dc == 0,
            "DM 16,383 and none left": dc < dm == 0x3FFF, "DC 8,192 or more, DM less": dm < 0x2000 <= dc,
            "DM 8,192 or more, a dot left": 0x2000 <= dm <= dc, "DM = DC = 16,383": dm == dc == 0x3FFF,
            "the first dot past dot 15": 16 <= dm <= dc,
        }
        for what, holds in facts.items():
            if holds:
                reached("arc: " + what)
        if dm > dc:
            reached("figure of no dots: arc")
        Chip.start_arc(self)

    def start_figure(self, kind, dots, passed=0):
        if dots == 0:
            reached("figure of no dots: " + kind)
        elif kind == "rectangle":
            reached("rectangle: " + ("D = 0 only" if self.d == 0 else "D2 = 0 only" if self.d2 == 0 else "both sides"))
        elif kind == "character":
            reached("character: factor %d" % ((self.zoom & 15) + 1))
            if self.dc + 1 > 8:
                reached("character: more than 8 rows")
            if self.d > 8:
                reached("character: more than 8 dots")
            if dots > 2 ** 32:
                reached("character: more than 2^32 units")
        Chip.start_figure(self, kind, dots, passed)
        if self.figure is not None:
            self.lately.clear()
            count_beside(self, kind)
            factor = self.figure.factor
            self.figure.marks = wide_marks((self.dc + 1) * factor, self.d * factor) if kind == "character" else {}

    def figure_cycle(self):
        kind = self.figure.kind
        if self.figure.place in self.figure.marks:
            reached("character: " + self.figure.marks[self.figure.place])
        Chip.figure_cycle(self)
        if self.figure is None:
            reached(kind + " ends in its last dot")
            self.lately.add("the last cycle: " + kind)

    def figure_step(self, figure):
        if figure.kind == "line":
            self.count_line(figure)
        if figure.kind == "character" and figure.place % (figure.d * figure.factor) == 0:
            reached("character: returns to the row's start")
        before = figure.arc_d, figure.arc_d2, figure.arc_d1, self.ead
        Chip.figure_step(self, figure)
        if figure.kind == "arc":
            self.count_arc(figure, *before)
        if self.wiring == OPEN and figure.kind != "character":
            over = over_the_end(before[3], self.ead, len(self.memory))
            many[count_crossing, last_step[0], over, abs(self.ead - before[3]) > 0x20000] += 1

    def count_line(self, figure):
        d = signed(figure.d)
        reached("line: D negative" if d < 0 else "line: D zero or more")
        if not -0x2000 <= d + signed(figure.d1 if d < 0 else figure.d2) < 0x2000:
            reached("line: the sum wraps")

    def count_arc(self, figure, d, d2, d1, ead):
        # What an arc's move did, from the numbers before it.
        when = 2 if figure is not self.figure else 0 if figure.place == 0 else 1
        judged = wrapped(d + d1)
        negative = judged < 0
        many[count_arc_move, figure.direction, negative, when, (self.ead - ead) // 0x20000,
             judged == 0, judged != d + d1, negative and judged + d2 != wrapped(judged + d2),
             d1 - 2 != wrapped(d1 - 2), negative and d2 - 2 != wrapped(d2 - 2)] += 1


def where_in_arc(figure):
    if figure.place > 0:
        return "between dots"
    return "before the first dot, with " + ("moves to make" if figure.passed > 0 else "none")


# What is counted at every dot is kept by its values first: the rows' names are worked out once for all alike.

many = Counter()
last_step = [0]              # the direction of the step made last
DOTS = {1 << dot: dot for dot in range(16)}


def count_cycle(times, kind, direction, operation, bit, mask, where, past):
    reached("cycle with mask " + mask, times)
    reached("cycle by " + OPERATION_NAMES[operation], times)
    if where is None:
        reached("cycle folded" if past else "cycle not folded", times)
    else:
        count_meeting(where, kind, operation, mask, times)
    if kind is not None:
        reached("%s along %s" % (kind, DIRECTIONS[direction]), times)
        reached("%s by %s" % (kind, OPERATION_NAMES[operation]), times)
        reached("%s, pattern bit %d" % (kind, bit), times)
    if kind == "arc":
        reached("arc with mask " + mask, times)


def count_arc_move(times, direction, diagonal, when, jump, zero, d_and_d1, d_and_d2, d1, d2):
    reached("arc: %s along DIR %d %s" % (MOVES[diagonal], direction, WHENS[when]), times)
    if jump not in (0, -1):
        reached("arc: EAD wraps %s %s" % ("below 0" if jump > 0 else "past 262,143", WHENS[when]), times)
    happened = {"D is 0 when judged": zero, "D wraps with D1": d_and_d1, "D wraps with D2": d_and_d2,
                "D1 wraps": d1, "D2 wraps": d2}
    for what, holds in happened.items():
        if holds:
            reached("arc: " + what, times)


def count_dot(times, place, dot):
    reached("a figure's %s dot at dot %d of a word" % (PLACES[place], dot), times)


def counting_step(ead, mask, direction, pitch):
    # Stands in for the step of figures.py while counting.
    after, new_mask = plain_step(ead, mask, direction, pitch)
    last_step[0] = direction
    many[count_step, direction, mask & 0x8000 != 0, mask & 1, pitch == 0, (after > ead) - (after < ead)] += 1
    return after, new_mask


def count_step(times, direction, highest, lowest, level, moved):
    name = DIRECTIONS[direction]
    carry = "right" in name and highest or "left" in name and lowest
    reached("step %s, %s" % (name, "carry" if carry else "no carry"), times)
    if level:
        reached("step with pitch 0", times)
    if moved < 0 and direction in (0, 1, 2):
        reached("step wraps past 262,143", times)
    if moved > 0 and direction in (4, 5, 6):
        reached("step wraps below 0", times)


def settle():
    for (count, *values), times in many.items():
        count(times, *values)
    many.clear()


plain_step = figures_module.step
figures_module.step = counting_step
