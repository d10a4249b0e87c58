"""The episodes about drawing sheets: lawful ones, damaged ones, odd sizes."""

from basics import (
    DOTS_OF_A_SHEET, FIGURE_TYPES, LARGEST_PICTURES, LENGTHS, PLAIN_COMMANDS, RDAT_BYTES, SIZES_AT_THE_EDGE, WDAT_BYTES, Basics)
from building import block_body, number_bytes, record, with_check


class Sheets(Basics):
    """One function for each kind of episode; generate.py has their weights."""

    def choose_picture(self):
        # Mostly one that fits the memory.
        if self.chance(0.12):
            words, height = self.below(255) + 1, self.below(400) + 1
        else:
            words = self.below(min(255, self.length)) + 1
            if self.chance(0.5):
                words = self.below(min(6, self.length)) + 1
            height = self.below(min(4096, self.length // words)) + 1
            if self.chance(0.3):
                height = min(4096, self.length // words)
        self.set_picture(words, height)

    def set_picture(self, words, height):
        self.words, self.height = words, height
        self.emit("Q", words, height)

    def choose_glyphs(self, glyphs):
        self.glyphs = glyphs
        table = bytes(self.pick([0, 0xFF, self.byte(), self.byte()]) for _ in range(8 * glyphs))
        self.emit(("G " + table.hex().upper()).strip())

    def coordinate(self, limit):
        if self.chance(0.25):
            return self.pick([0, limit - 1])
        return self.below(limit)

    def near(self, value, limit):
        # Another coordinate, mostly not far away.
        reach = self.pick([0, 1, 2, 3, 5, 16, 17, 40, 200])
        other = value + self.below(2 * reach + 1) - reach
        return max(0, min(limit - 1, other))

    def random_record(self, left):
        # Gives a lawful record, its dots and its entries; `left` is how many
        # dots may still be drawn.
        width = 16 * self.words
        kind = self.pick([1, 2, 2, 3, 3, 4])
        operation = self.below(4)
        x, y = self.coordinate(width), self.coordinate(self.height)
        side = min(width, self.height, 128)
        if kind == 4 and self.glyphs > 0 and side >= 8 and left >= 64:
            return self.glyph_record(operation, width, side, left)
        if kind == 1 or kind == 4 or left <= 0:
            return record(1, operation, x, y, [0, 0, 0, 0]), 1, 11
        x1, y1 = self.near(x, width), self.near(y, self.height)
        if self.chance(0.15):
            reach = min(self.below(30), width - 1 - x, self.height - 1 - y)
            x1, y1 = x + reach, y + reach
        rest = number_bytes(x1) + number_bytes(y1)
        across, down = abs(x1 - x), abs(y1 - y)
        if kind == 2:
            return record(2, operation, x, y, rest), max(across, down) + 1, 19
        entries = 19 if across == 0 or down == 0 else 21
        return record(3, operation, x, y, rest), 2 * (across + down) + 1, entries

    def glyph_record(self, operation, width, side, left):
        factor = self.pick([1, 1, 1, 2, 3, self.below(16) + 1])
        while factor > 1 and (8 * factor > side or 64 * factor * factor > left + 2000):
            factor -= 1
        if self.chance(0.1):
            factor = self.below(side // 8) + 1
        x = self.coordinate(width - 8 * factor + 1)
        y = self.coordinate(self.height - 8 * factor + 1)
        number = self.pick([0, self.glyphs - 1, self.below(self.glyphs)])
        return record(4, operation, x, y, [number, factor, 0, 0]), 64 * factor * factor, 21

    def random_blocks(self):
        # Gives bodies (510 bytes each, to be checked) and the entries needed.
        blocks = self.pick([1, 1, 1, 1, 1, 2, 2, 3, 4, self.below(16) + 1, 16])
        if self.chance(0.5):
            blocks = 1
        left = DOTS_OF_A_SHEET
        needed = 2
        bodies = []
        for number in range(blocks):
            records = []
            for _ in range(self.pick([0, 1, 2, 3, 5, self.below(12), 50 if self.chance(0.2) else 4])):
                one, dots, entries = self.random_record(left)
                records.append(one)
                left -= dots
                needed += entries
            bodies.append(block_body(number, len(records), 1 if number == blocks - 1 else 0, records))
        return bodies, needed

    def emit_sheet(self, sheet):
        # In one line, block by block, or cut somewhere else.
        self.emit("Z")
        text = sheet.hex().upper()
        cut = self.pick([1024, 1024, 16384, 2 * (self.below(600) + 200)])
        for start in range(0, len(text), cut):
            self.emit("B " + text[start:start + cut])

    def good_sheet(self):
        if self.chance(0.3):
            self.new_memory(self.pick([0x400, 0x1000, 0x4000, self.pick(LENGTHS)]))
        if self.chance(0.05):
            self.new_memory(0x40000)
            self.set_picture(*self.pick(LARGEST_PICTURES))
        else:
            self.choose_picture()
        if self.chance(0.6):
            self.choose_glyphs(self.pick([1, 2, 5, 0, 32, 256] if self.chance(0.1) else [1, 2, 5]))
        bodies, needed = self.random_blocks()
        self.emit_sheet(b"".join(with_check(body) for body in bodies))
        if self.chance(0.7):
            self.emit("T", self.pick([needed, needed, needed - 1, needed + 1, 0xFFFFFFFF, 0, self.below(needed)]))
        self.choose_start()
        self.emit("X")
        self.emit("D")
        if self.length <= 0x4000 or self.chance(0.15):
            self.emit("H")
        self.look_at_words()

    def choose_start(self):
        # What the controller is in the middle of when the sheet is drawn.
        kind = self.below(12)
        self.emit("C", 0)
        if kind <= 5:
            return
        if kind <= 7:
            self.leftovers()
        elif kind == 8:
            self.queued_entries()
        elif kind == 9:
            self.send_and_run(0x4C, self.below(8), self.below(30), 0)
            self.emit("C", self.pick([0xE0, 0xC0] + RDAT_BYTES))
            self.emit("U", self.below(30))
        elif kind == 10:
            # A figure in progress, and a small one.
            self.send_and_run(0x4C, self.pick(FIGURE_TYPES[:3]) << 3 | self.below(8),
                              self.below(60), 0, self.below(20), 0, self.below(20), 0)
            self.emit("C", 0x6C)
            self.emit("U", self.below(12) + 1)
        else:
            self.set_mask()
            self.send_and_run(0x46, self.byte())
            self.send_and_run(0x4C, self.byte(), self.byte(), self.byte(), self.byte())

    def leftovers(self):
        # A half-sent command and odd registers, but idle.
        for _ in range(self.below(3) + 1):
            byte = self.pick(PLAIN_COMMANDS + WDAT_BYTES + [0x70 + self.below(16), 0x24, 0x48])
            self.send_and_run(byte, *[self.byte() for _ in range(self.below(4))])

    def queued_entries(self):
        # Entries that wait in the buffer, none of which starts a figure.
        for _ in range(self.pick([1, 2, 5, 15, 16, 17])):
            if self.chance(0.4):
                self.emit("C", self.pick(PLAIN_COMMANDS + WDAT_BYTES + [0x74, 0xE0, 0xA0]))
            else:
                self.emit("P", self.byte())

    def damaged_sheet(self):
        if self.words * self.height > self.length or self.chance(0.5):
            self.choose_picture()
        if self.chance(0.5):
            self.choose_glyphs(self.below(4))
        bodies, _ = self.random_blocks()
        errors = [0] * len(bodies)
        for _ in range(self.pick([1, 1, 1, 2, 3])):
            self.damage(bodies, errors)
        sheet = b"".join(with_check(body, error) for body, error in zip(bodies, errors))
        if self.chance(0.08):
            sheet = self.pick([sheet[:-1], sheet + b"\0", sheet[512:], sheet[:-512], b""])
        self.emit_sheet(sheet)
        self.emit("T", 0x41A2)
        if self.chance(0.5):
            self.emit("C", 0)
            self.emit("X")
            self.emit("D")

    def damage(self, bodies, errors):
        number = self.below(len(bodies))
        body = bodies[number]
        count = body[2]
        kind = self.below(16)
        start = 4 + 10 * self.below(count) if 0 < count <= 50 else 4
        if kind == 0:
            errors[number] = self.pick([1, -1, 256, 0x8000, self.below(0xFFFF) + 1])
        elif kind == 1:
            body[self.below(2)] ^= 2 ** self.below(8)
        elif kind == 2:
            body[2] = self.pick([51, 255, min(count + 1, 50), max(count - 1, 0), self.byte()])
        elif kind == 3:
            body[3] = self.pick([0, 1, 2, 255])
        elif kind == 4:
            body[504 + self.below(6)] = self.byte()
        elif kind == 5:
            body[503 - self.pick([0, self.below(10)])] = self.byte()
        elif kind == 6:
            body[start] = self.pick([0, 5, 255, self.byte(), self.below(5)])
        elif kind == 7:
            body[start + 1] = self.pick([4, 255, self.byte()])
        elif kind == 8:
            body[start + 6 + self.below(4)] = self.pick([1, 255, self.byte()])
        elif kind == 9:
            # A dot or a glyph with something where zeros belong.
            rest = [0, 0, 0, 0] if self.glyphs == 0 or self.chance(0.5) else [0, 1, 0, 0]
            rest[2 + self.below(2)] = self.byte()
            self.put(body, start, record(self.pick([1, 4]) if rest[1] else 1, self.below(4), 0, 0, rest))
        else:
            self.damage_place(body, start)

    def damage_place(self, body, start):
        # A figure put at the picture's edge or just past it.
        width, height = 16 * self.words, self.height
        kind = self.pick([1, 2, 3, 4, 4])
        x = self.pick([width, width - 1, 0xFFFF, 0, width - 8, width - 7])
        y = self.pick([height, height - 1, 0xFFFF, 0, height - 8, height - 7])
        rest = [0, 0, 0, 0]
        if kind == 4:
            rest = [self.pick([0, self.glyphs % 256, 255]), self.pick([0, 1, 1, 1, 16, 17, 255]), 0, 0]
        elif kind > 1:
            rest = (number_bytes(self.pick([0, width, width - 1, 0xFFFF]))
                    + number_bytes(self.pick([0, height, height - 1, 0xFFFF])))
        self.put(body, start, record(kind, self.below(4), max(x, 0) % 65536, max(y, 0) % 65536, rest))

    def put(self, body, start, one):
        body[start:start + 10] = one
        if body[2] == 0:
            body[2] = 1

    def odd_sizes(self):
        kind = self.below(4)
        if kind <= 1:
            self.emit_sheet(with_check(block_body(0, 1, 1, [record(1, 3, 0, 0, [0, 0, 0, 0])])))
            for _ in range(2):
                self.emit("Q", *self.pick(SIZES_AT_THE_EDGE))
                self.emit("T", 13)
            self.emit("Q", self.pick([0, 1, 255, 256, self.below(300)]),
                      self.pick([0, 1, 4096, 4097, self.below(5000)]))
            self.emit("T", 13)
            self.emit("C", 0)
            self.emit("X")
            self.emit("Q", self.words, self.height)
        elif kind == 2:
            size = self.pick([0, 4, 12, 7, 8, 9, 2040, 2048, 2049, 2056, 4096, 4097, self.below(100)])
            self.emit(("G " + "5A" * size).strip())
            self.emit_sheet(with_check(block_body(0, 0, 1, [])))
            self.emit("T", 2)
            self.emit("C", 0)
            self.emit("X")
            self.choose_glyphs(1)
        else:
            blocks = self.pick([1, 2, 15, 16, 17, 17])
            bodies = [block_body(number, 0, 1 if number == blocks - 1 else 0, []) for number in range(blocks)]
            sheet = b"".join(with_check(body) for body in bodies)
            self.emit_sheet(self.pick([sheet, sheet, sheet[:-1], sheet[1:], sheet + b"\0"]))
            self.emit("T", 0x41A2)
            self.emit("B 00")
            self.emit("T", 0x41A2)
            self.emit("C", 0)
            self.emit("X")
