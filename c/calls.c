// The three calls by reference for a board, kranichseil_board_send, _board_write and _board_read, against the calls by value: the same
// numbers, registers, memory and units, on sets and lists made from a fixed seed. Ends as c/test.c does. tools/ctest runs it.
#include "check.h"

enum { WORDS = 4096, MOST = 600 };
static const uint32_t WHOLE = 0xFFFFFFFF;
static uint16_t ours[WORDS], theirs[WORDS];
static size_t length = WORDS;

// ---- numbers that look random and are the same on each day
static uint32_t seed = 7220;
static uint32_t random_below(uint32_t n) {
    seed ^= seed << 13; seed ^= seed >> 17; seed ^= seed << 5;
    return seed % n;
}
static uint8_t random_byte(void) { return (uint8_t)random_below(256); }

// ---- what the three calls have to do, by the calls by value
static struct kranichseil_answer written(struct kranichseil_registers r, uint16_t e) {
    return e < 256 ? kranichseil_parameter(r, (uint8_t)e) : kranichseil_command(r, (uint8_t)e);
}
static struct kranichseil_tally sent(struct kranichseil_registers *r, const uint16_t *entries, size_t n, uint16_t *memory) {
    struct kranichseil_tally t = {kranichseil_run(*r, memory, length, 0).number, 0, 0};
    while (!t.number && t.taken < n) {
        struct kranichseil_answer a = written(*r, entries[t.taken]);
        t.number = a.number;
        if (a.number) break;
        struct kranichseil_ran d = kranichseil_run(a.regs, memory, length, WHOLE);
        *r = d.regs;
        t.units += d.count;
        t.taken++;
    }
    return t;
}

// ---- lists
static uint16_t list[MOST + 20];
static size_t count;

static void add(unsigned entry) { list[count++] = (uint16_t)entry; }
static void add_all(const char *entries, size_t n) { // a command, then its parameters
    add(256u + (uint8_t)entries[0]);
    for (size_t i = 1; i < n; i++) add((uint8_t)entries[i]);
}
#define ADD(entries) add_all(entries, sizeof entries - 1)

// A command with up to all of its parameters, and surplus ones. Figures stay small: numbers of FIGS below 32, factors to 4.
static void add_some(void) {
    static const uint8_t code[] = {0x00, 0x6F, 0x4B, 0x6B, 0x46, 0x49, 0x49, 0x74, 0x78, 0x47, 0x4A, 0x4C, 0x4C, 0x4C, 0x4C, 0x6C, 0x6C,
                                   0x6C, 0x68, 0x68, 0xE0, 0xC0, 0x20, 0x21, 0x22, 0x23, 0x31, 0x3A, 0xA0, 0xB0, 0xB8, 0x24, 0x99};
    static const uint8_t kind[] = {0x00, 0x08, 0x08, 0x08, 0x10, 0x10, 0x20, 0x20, 0x20, 0x30, 0x40, 0x40, 0x50, 0x80};
    uint8_t c = code[random_below(sizeof code)];
    unsigned n = random_below(c == 0x4C ? 16 : c == 0x6C || c == 0x68 ? 1 : 6);
    add(256u + c);
    if (c == 0xE0 || c == 0xC0 || (c & 0xE0) == 0xA0) return; // in read mode a parameter is refused
    for (unsigned i = 0; i < n; i++)
        add(c == 0x46 ? random_byte() & 0xF3 : c != 0x4C ? random_byte()
            : i == 0 ? kind[random_below(sizeof kind)] | random_below(8) : i & 1 ? random_below(32) : random_byte() & 0xC0u);
}
static void make_list(size_t about) {
    count = 0;
    while (count < about) add_some();
}

// ---- sets: what a list, bytes to the ports and a run that stops anywhere leave
// One with an arc of radius 15 that has stopped anywhere; up to eleven of its eleven dots are passed over.
static struct kranichseil_registers with_arc(struct kranichseil_registers r) {
    count = 0;
    ADD("\x4C\x20\x0A\x00\x0E\x00\x1C\x00\xFF\x3F\x00\x00");
    list[1] = (uint16_t)(0x20 + random_below(8)); list[10] = (uint16_t)random_below(12);
    sent(&r, list, count, ours);
    return kranichseil_run(written(r, 0x16C).regs, ours, length, random_below(14)).regs;
}
static struct kranichseil_registers some_set(void) {
    struct kranichseil_registers r = kranichseil_fresh();
    r.board.wiring = (uint8_t)random_below(2);
    make_list(random_below(40));
    sent(&r, list, count, ours);
    if (random_below(4) == 0) r = kranichseil_pen(r, random_below(262144)).regs;
    make_list(random_below(20));
    for (size_t i = 0; i < count; i++) r = written(r, list[i]).regs;
    r = kranichseil_run(r, ours, length, random_below(50)).regs;
    if (random_below(6) == 0) r = with_arc(r);
    for (uint32_t i = random_below(4) ? 0 : random_below(17); i > 0; i--) r = kranichseil_parameter(r, random_byte() & 0xC0).regs;
    return r;
}

static void fill(void) {
    for (size_t i = 0; i < WORDS; i++) ours[i] = theirs[i] = (uint16_t)random_below(65536);
}

// ---- the list in one call
static struct kranichseil_registers a, b;
static struct kranichseil_tally got;

// Both from the set given; the same answer, registers and memory. What one part of the list leaves, the next finds.
static void send_parts(struct kranichseil_registers from, size_t part, int line) {
    struct kranichseil_tally sum = {0, 0, 0}, want;
    a = b = from;
    memcpy(theirs, ours, sizeof ours);
    want = sent(&b, list, count, theirs);
    size_t i = 0;
    do {
        got = kranichseil_board_send(&a, list + i, count - i < part ? count - i : part, ours, length);
        sum.number = got.number;
        sum.taken += got.taken;
        sum.units += got.units;
        i += part;
    } while (i < count && !sum.number);
    is(sum.number, want.number, "the list's number", line);
    is(sum.taken, want.taken, "the list's entries taken", line);
    is(sum.units, want.units, "the list's units", line);
    is(same(&a, &b) && memcmp(ours, theirs, sizeof ours) == 0, 1, "the list's registers and memory", line);
}
#define SEND(from) send_parts(from, count, __LINE__)

// Whole, in halves, in sixteens and one by one, from one set and memory.
static void in_parts(struct kranichseil_registers from, int line) {
    static uint16_t before[WORDS];
    const size_t part[4] = {count, (count + 1) / 2, 16, 1};
    memcpy(before, ours, sizeof ours);
    for (int i = 0; i < 4; i++) {
        memcpy(ours, before, sizeof ours);
        send_parts(from, part[i], line);
    }
}

static void lists(void) {
    fill();
    count = 0; // nothing to send
    SEND(kranichseil_fresh()); IS(got.number, 0); IS(got.taken, 0); IS(got.units, 0);
    for (int c = 0; c < 256; c++) add(256u + (unsigned)c); // every command byte, and none is refused
    in_parts(kranichseil_fresh(), __LINE__); IS(got.number, 0);
    SEND(kranichseil_fresh()); IS(got.taken, 256);
    for (int c = 0; c < 256; c++) { // each with three parameters and what draws after it; in read mode they are refused
        count = 0;
        ADD("\x49\x10\x02\x30"); ADD("\x4C\x0A\x13\x00\x05\x00\x07\x00"); ADD("\x78\x5A\xFF");
        add(256u + (unsigned)c); add(3); add(0); add(0x11); ADD("\x4C\x12\x03\x00"); ADD("\x68");
        SEND(kranichseil_fresh());
        IS(got.number, c == 0xE0 || c == 0xC0 || c == 0xA0 || c == 0xB0 || c == 0xB8 ? 4 : 0);
    }
    for (int i = 0; i < 150; i++) { // what was waiting or in progress goes first
        struct kranichseil_registers r = some_set();
        make_list(1 + random_below(120));
        in_parts(r, __LINE__);
    }
}

// ---- open wiring and any length: what is past it stays
static void odd_lengths(void) {
    static uint16_t before[WORDS];
    for (int i = 0; i < 60; i++) {
        struct kranichseil_registers r = some_set();
        r.board.wiring = KRANICHSEIL_OPEN;
        make_list(60);
        fill();
        memcpy(before, ours, sizeof ours);
        length = 16 + random_below(WORDS - 15);
        in_parts(r, __LINE__);
        IS(memcmp(ours + length, before + length, (WORDS - length) * sizeof *ours), 0);
    }
    length = WORDS;
}

// ---- entries past nine bits: 256 or more is a command, whose byte is the low eight bits
static void past_nine_bits(void) {
    static const uint16_t past[] = {0x0200, 0x0249, 0x0349, 0x4C4C, 0x8049, 0xFF6C, 0xFFFF, 0x1000, 0x016C};
    for (size_t i = 0; i < sizeof past / sizeof *past; i++) {
        count = 0;
        ADD("\x4C\x02\x05\x00"); add(past[i]); add(7); add(1);
        SEND(kranichseil_fresh()); IS(got.taken, count);
        list[4] = 256u + (past[i] & 255u);
        struct kranichseil_registers r = a;
        SEND(kranichseil_fresh()); IS(same(&a, &r), 1);
    }
    for (int i = 0; i < 60; i++) {
        struct kranichseil_registers r = some_set();
        make_list(40);
        for (size_t k = 0; k < count; k++) if (list[k] > 255) list[k] = (uint16_t)((list[k] & 255u) + 256u * (1 + random_below(255)));
        in_parts(r, __LINE__);
    }
}

// ---- refusals of a list
static void wrong_set(struct kranichseil_registers r, int line) {
    struct kranichseil_registers kept = r;
    for (size_t n = 0; n < 3; n++) {
        got = kranichseil_board_send(&r, list, n, ours, n == 2 ? 17 : length); // 1 comes before 2
        is(got.number == 1 && got.taken == 0 && got.units == 0 && same(&r, &kept), 1, "the list is refused with 1", line);
    }
    struct kranichseil_reply w = kranichseil_board_write(&r, 0x147), q = kranichseil_board_read(&r, 0), p = kranichseil_board_read(&r, 1);
    is(w.number == 1 && w.value == 0 && q.number == 1 && q.value == 0 && p.number == 1 && p.value == 0, 1, "the ports refuse with 1", line);
    is(same(&r, &kept) && memcmp(ours, theirs, sizeof ours) == 0, 1, "registers and memory as they were", line);
}
#define WRONG(change) do { struct kranichseil_registers r = kranichseil_fresh(); r.change; wrong_set(r, __LINE__); } while (0)

static void wrong_sets(void) {
    fill();
    count = 0;
    ADD("\x20\x01\x02");
    WRONG(cursor.ead = 262144); WRONG(drawing.kind = 32); WRONG(drawing.dir = 8); WRONG(drawing.dc = 16384); WRONG(drawing.d = 16384);
    WRONG(drawing.d2 = 16384); WRONG(drawing.d1 = 16384); WRONG(drawing.dm = 16384); WRONG(pen.address = 262144); WRONG(buffer.count = 17);
    WRONG(progress.next = 17); WRONG(buffer.entries[15] = 512); WRONG(buffer.entries[0] = 512); WRONG(drawing.gd = 2);
    WRONG(video.display = 2); WRONG(video.vsync = 2); WRONG(pen.set = 2); WRONG(op = 4); WRONG(mode = 2); WRONG(progress.command = 18);
    WRONG(progress.transfer = 1); WRONG(work.kind = 5); WRONG(work.transfer = 1); WRONG(work.d = 1); WRONG(work.d1 = 1); WRONG(work.d2 = 1);
    WRONG(work.item = 1); WRONG(work.dot = 1); WRONG(work.row = 1); WRONG(work.column = 1); WRONG(work.start.ead = 1);
    WRONG(work.start.mask = 1); WRONG(work.kind = KRANICHSEIL_READING); WRONG(work.kind = KRANICHSEIL_FIGURE; r.work.dot = 1);
    WRONG(work.kind = KRANICHSEIL_ARC); WRONG(drawing.kind = 4; r.work.kind = KRANICHSEIL_ARC); // an arc of no cycles: DM is past DC
    WRONG(drawing.kind = 4; r.drawing.dm = 0; r.work.kind = KRANICHSEIL_ARC; r.work.dot = 1);
    WRONG(drawing.kind = 4; r.drawing.dm = 0; r.work.kind = KRANICHSEIL_ARC; r.work.d2 = 16384);
    WRONG(mode = KRANICHSEIL_READ; r.buffer.count = 1; r.buffer.entries[0] = 256); WRONG(board.wiring = 2); WRONG(board.wiring = 128);
    WRONG(remaining = 1); WRONG(remaining = (uint64_t)1 << 32);
}

static void wrong_lengths(void) {
    static const size_t wrong[] = {0, 1, 8, 15, 262145, 524288, (size_t)1 << 40, 17, 48, 4095, 262143}; // the last four if folded
    fill();
    for (int i = 0; i < 40; i++) {
        struct kranichseil_registers r = some_set(), kept = r;
        make_list(i == 0 ? 0 : 20);
        memcpy(theirs, ours, sizeof ours);
        for (size_t k = 0; k < (r.board.wiring ? 7 : 11); k++) {
            got = kranichseil_board_send(&r, list, count, ours, wrong[k]);
            IS(got.number, 2); IS(got.taken, 0); IS(got.units, 0); IS(same(&r, &kept), 1);
        }
        IS(memcmp(ours, theirs, sizeof ours), 0);
    }
}

// A list whose entry `at` is refused does what the entries before it do.
static void stops(struct kranichseil_registers from, size_t at, unsigned number, int line) {
    size_t whole = count;
    struct kranichseil_registers r = from;
    memcpy(theirs, ours, sizeof ours);
    got = kranichseil_board_send(&r, list, whole, ours, length);
    struct kranichseil_tally first = kranichseil_board_send(&from, list, at, theirs, length);
    is(got.number, number, "the refused entry's number", line);
    is(got.taken, at, "entries taken before it", line);
    is(first.number == 0 && first.taken == at && first.units == got.units, 1, "the units of those before it", line);
    is(same(&r, &from) && memcmp(ours, theirs, sizeof ours) == 0, 1, "registers and memory as those before it leave them", line);
}

static void refused_entries(void) {
    static const uint8_t turns[] = {0xE0, 0xC0, 0xA0, 0xB0, 0xB8};
    fill();
    for (int i = 0; i < 100; i++) { // a parameter in read mode, after a list that draws
        struct kranichseil_registers r = kranichseil_fresh();
        make_list(random_below(60));
        add(256u + turns[i % 5]);
        size_t at = count;
        add(random_byte());
        for (int k = 0; k < 20; k++) add_some();
        stops(r, at, 4, __LINE__);
    }
    struct kranichseil_registers full = kranichseil_fresh(), read = full;
    for (int i = 0; i < 16; i++) full = written(full, i ? 5 : 0x149).regs;
    count = 0; ADD("\x47\x28"); stops(full, 0, 3, __LINE__);                              // sixteen are waiting
    count = 0; add(7); stops(full, 0, 3, __LINE__);
    count = 0; ADD("\x00\x11\x12"); SEND(full); IS(got.number, 0); IS(got.units, 2);      // RESET is taken and has no unit
    count = 0; ADD("\x4C\x02\x14\x00"); ADD("\xB0"); SEND(kranichseil_fresh()); read = a; // sixteen are held to be read, four wait for room
    IS(read.buffer.count, 16); IS(got.units, 4 + 1 + 16);
    count = 0; add(7); stops(read, 0, 4, __LINE__);                                       // 4 comes before 3
    count = 0; ADD("\x47\x28"); SEND(read); IS(got.number, 0); IS(a.pitch, 0x28);
}

// ---- the ports by the byte
static void ports_of(struct kranichseil_registers r, int line) {
    const uint16_t entry[5] = {random_byte(), 256u + random_byte(), 256, (uint16_t)random_below(65536), 0x16C};
    for (int i = 0; i < 5; i++) {
        struct kranichseil_registers q = r;
        struct kranichseil_answer want = written(r, entry[i]);
        struct kranichseil_reply is_told = kranichseil_board_write(&q, entry[i]);
        is(is_told.number == want.number && is_told.value == want.value && same(&q, &want.regs), 1, "a byte written", line);
    }
    const uint8_t port[3] = {0, 1, random_byte()};
    for (int i = 0; i < 3; i++) {
        struct kranichseil_registers q = r;
        struct kranichseil_answer want = port[i] ? kranichseil_read(r) : kranichseil_status(r);
        struct kranichseil_reply is_told = kranichseil_board_read(&q, port[i]);
        is(is_told.number == want.number && is_told.value == want.value && same(&q, &want.regs), 1, "a byte read", line);
    }
}

static void ports(void) {
    unsigned refused = 0;
    for (int i = 0; i < 600; i++) {
        struct kranichseil_registers r = some_set();
        ports_of(r, __LINE__);
        for (int k = 0; k < 5; k++) { // one byte of it is another, or two are
            struct kranichseil_registers damaged = r;
            for (uint32_t n = 1 + random_below(2); n > 0; n--) ((uint8_t *)&damaged)[random_below(sizeof damaged)] = random_byte();
            refused += kranichseil_status(damaged).number;
            ports_of(damaged, __LINE__);
        }
    }
    IS(refused > 500 && refused < 2500, 1); // of 3,000: enough of either kind
}

// A bus with nothing but bytes: the list by board_write, a run where it answers 3, the bytes read back, against the same by value.
static void bus(void) {
    for (int i = 0; i < 40; i++) {
        fill();
        a = b = kranichseil_fresh();
        make_list(100);
        for (size_t k = 0; k < count; k++) {
            struct kranichseil_reply w;
            while ((w = kranichseil_board_write(&a, list[k])).number == 3) kranichseil_board_run(&a, ours, length, 50);
            struct kranichseil_answer v;
            while ((v = written(b, list[k])).number == 3) b = kranichseil_run(b, theirs, length, 50).regs;
            b = v.regs;
            IS(w.number, v.number);
            if (random_below(8) == 0) {
                IS(kranichseil_board_read(&a, 0).value, kranichseil_status(b).value);
                v = kranichseil_read(b);
                b = v.regs;
                w = kranichseil_board_read(&a, 1);
                IS(w.number, v.number); IS(w.value, v.value);
            }
        }
        IS(same(&a, &b), 1); IS(memcmp(ours, theirs, sizeof ours), 0);
    }
}

int main(void) {
    section("lists", lists);
    section("odd lengths", odd_lengths);
    section("entries past nine bits", past_nine_bits);
    section("wrong sets", wrong_sets);
    section("wrong lengths", wrong_lengths);
    section("refused entries", refused_entries);
    section("ports", ports);
    section("bus", bus);
    return checked();
}
