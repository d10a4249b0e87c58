// Reads the count of cycles left where a board's lamp does (02, M-103): all of a figure's after its command's unit, one fewer after each
// unit, 0 at its end and wherever no figure is in progress; a false count is refused by every call. Ends as c/test.c does. tools/ctest
// runs it.
#include "drive.h"

static struct kranichseil_report one(void) { return run(1); }

// a figure of so many cycles, unit by unit
static void counts(uint8_t c, unsigned cycles, int line) {
    is(r.remaining, 0, "before the command", line);
    is(command(c), 0, "the command", line); is(r.remaining, 0, "while the command waits", line);
    for (unsigned left = cycles + 1; left > 0; left--) {
        struct kranichseil_report p = one();
        is(p.number, 0, "number", line); is(p.count, 1, "units", line); is(r.remaining, left - 1, "cycles left", line);
        is(kranichseil_status(r).value >> 3 & 1, left > 1, "figure in progress", line);
    }
    is(one().count, 0, "units after the last", line); is(r.remaining, 0, "at the end", line);
}
#define COUNTS(c, cycles) counts(c, cycles, __LINE__)

static void figures(void) {
    start(); SEND(0x47, "\x28"); SEND(0x49, "\x00\x10\x00");
    SEND(0x4C, "\x02"); COUNTS(0x6C, 1);                                                    // a dot
    SEND(0x4C, "\x03\x05\x00"); COUNTS(0x6C, 6);                                            // six along DIR
    SEND(0x4C, "\x0A\x07\x00\x05\x00\x02\x00\xFE\x3F"); COUNTS(0x6C, 8);                    // a line
    SEND(0x4C, "\x42\x03\x00\x05\x00\x04\x00"); COUNTS(0x6C, 18);                           // a rectangle, each corner once
    SEND(0x4C, "\x42\x03\x00\x00\x00\x00\x00"); COUNTS(0x6C, 0);                            // .. of no dots
    SEND(0x4C, "\x23\x03\x00\x04\x00\x08\x00\xFF\x3F\x00\x00"); COUNTS(0x6C, 4);            // an arc,
    SEND(0x4C, "\x23\x03\x00\x04\x00\x08\x00\xFF\x3F\x01\x00"); COUNTS(0x6C, 3);            // with a dot passed over,
    SEND(0x4C, "\x23\x03\x00\x04\x00\x08\x00\xFF\x3F\x04\x00"); COUNTS(0x6C, 0);            // and with all
    SEND(0x4C, "\x12\x07\x00\x08\x00"); COUNTS(0x68, 64);                                   // a character,
    SEND(0x46, "\x02"); SEND(0x4C, "\x12\x01\x00\x03\x00"); COUNTS(0x68, 54);               // 2 rows of 3 dots, threefold
    SEND(0x4C, "\x12\x01\x00\x00\x00"); COUNTS(0x68, 0); SEND(0x4C, "\x0A\x07\x00"); COUNTS(0x68, 0); // .. of no dots; no character
    SEND(0x4C, "\x12\x07\x00"); COUNTS(0x6C, 0);                                            // GC under FIGD
}

// what is no figure
static void others(void) {
    start();
    for (int c = 0; c < 256; c++) { SEND((uint8_t)c, ""); IS(r.remaining, 0); }
    start(); SEND(0x4C, "\x02\x05\x00"); IS(command(0xA0), 0);
    for (int i = 0; i < 5; i++) { one(); IS(r.work.kind, KRANICHSEIL_READING); IS(r.remaining, 0); }
    IS(command(0x20), 0); IS(r.remaining, 0); IS(parameter(1), 0); IS(parameter(2), 0); run(9); IS(r.remaining, 0);
}

// the largest character: (DC + 1)·g·D·g, which needs 36 bits
static void largest(void) {
    const uint64_t all = 68715282432;
    start(); SEND(0x46, "\x0F"); SEND(0x4C, "\x12\xFF\x3F\xFF\x3F"); IS(command(0x68), 0);
    one(); IS(r.remaining, all); one(); IS(r.remaining, all - 1); run(1000000); IS(r.remaining, all - 1000001);
    struct kranichseil_registers given = r;
    r.remaining = (uint32_t)r.remaining; IS(kranichseil_status(r).number, 1); r = given; IS(kranichseil_status(r).number, 0);
    IS(command(0x00), 0); IS(r.remaining, 0);
}

// seven of sixteen dots are done
static void middle(void) {
    start(); SEND(0x4C, "\x02\x0F\x00"); IS(command(0x6C), 0); run(8); IS(r.remaining, 9);
}

// nothing but a unit of the figure alters it; RESET, by each of its ways, clears it
static void kept(void) {
    middle();
    for (int i = 0; i < 20; i++) { IS(command(0x47), i < 16 ? 0 : 3); IS(r.remaining, 9); }             // the buffer fills
    IS(parameter(1), 3); IS(r.remaining, 9); IS(read_byte(), 1005); IS(r.remaining, 9);
    IS(kranichseil_pen(r, 262144).regs.remaining, 9); IS(kranichseil_pen(r, 1).regs.remaining, 9);
    IS(kranichseil_status(r).regs.remaining, 9); IS(kranichseil_run(r, memory, 17, 5).regs.remaining, 9);
    IS(kranichseil_run(r, memory, length, 0).regs.remaining, 9); IS(kranichseil_run(r, memory, length, 4).regs.remaining, 5);
    IS(kranichseil_board_write(&r, 0x147).number, 3); IS(kranichseil_board_read(&r, 0).number, 0); IS(r.remaining, 9);
    IS(run(8).count, 8); IS(r.remaining, 1); run(1); IS(r.remaining, 0); IS(run(100).count, 16); IS(r.remaining, 0);
    middle(); IS(command(0x00), 0); IS(r.remaining, 0); IS(kranichseil_status(r).number, 0);
    middle(); IS(kranichseil_board_write(&r, 0x100).number, 0); IS(r.remaining, 0); IS(kranichseil_status(r).number, 0);
    static const uint16_t entries[3] = {0x100, 0x14C, 0x16C};
    middle(); IS(kranichseil_board_send(&r, entries, 3, memory, length).taken, 3); IS(r.remaining, 0);
    middle(); IS(kranichseil_board_send(&r, entries + 2, 1, memory, length).units, 9 + 1 + 16); IS(r.remaining, 0);
}

// a record's figures, entry by entry and unit by unit: the units that found a cycle left are its cycles
static void sheet_of(const char *bytes, unsigned cycles, int set, int line) {
    unsigned found = 0;
    start(); record(bytes);
    is(translate(40, 400, 512, 0, 17000), 0, "translated", line);
    for (uint32_t i = 0; i < t.first; i++) {
        is(out[i] < 256 ? parameter((uint8_t)out[i]) : command((uint8_t)out[i]), 0, "an entry", line);
        for (uint64_t left = r.remaining; one().count; left = r.remaining)
            if (left) { found++; is(r.remaining, left - 1, "cycles left", line); }
        is(r.remaining, 0, "after the entry", line);
    }
    is(found, cycles, "cycles", line); is(dots(), set, "dots", line);
}
#define SHEET(bytes, cycles, set) sheet_of(bytes, cycles, set, __LINE__)

static void sheets(void) {
    SHEET("\x01\x03\x11\x00\x02\x00\x00\x00\x00\x00", 1, 1);                            // a dot
    SHEET("\x02\x03\x00\x00\xFA\x00\x05\x00\x04\x01", 11, 11);                          // a line from (0, 250) to (5, 260)
    SHEET("\x03\x03\x0A\x00\xFA\x00\x14\x00\x04\x01", 40, 40);                          // a rectangle to (20, 260)
    SHEET("\x05\x03\x14\x00\x0A\x00\x05\x00\x00\x00", 28, 28);                          // a circle of radius 5
}

// a false count: 1 from every call, with the set as it was, RESET's and the status's too
static void unsound(uint64_t count, int line) {
    struct kranichseil_registers given = r;
    given.remaining = count;
    const struct kranichseil_registers kept = given;
    struct kranichseil_answer a[6] = {kranichseil_command(given, 0x47), kranichseil_command(given, 0x00), kranichseil_parameter(given, 1),
                                      kranichseil_read(given), kranichseil_status(given), kranichseil_pen(given, 1)};
    for (int i = 0; i < 6; i++) is(a[i].number == 1 && a[i].value == 0 && same(&a[i].regs, &kept), 1, "a port refuses", line);
    struct kranichseil_ran n = kranichseil_run(given, memory, length, 5);
    is(n.number == 1 && n.count == 0 && n.why == 0 && same(&n.regs, &kept), 1, "the run refuses", line);
    static const uint16_t entries[1] = {0x100};
    is(kranichseil_board_run(&given, memory, length, 5).number, 1, "the run by reference", line);
    is(kranichseil_board_send(&given, entries, 1, memory, length).number, 1, "a list", line);
    is(kranichseil_board_write(&given, 0x100).number, 1, "RESET by reference", line);
    is(kranichseil_board_write(&given, 0x047).number, 1, "a byte by reference", line);
    is(kranichseil_board_read(&given, 0).number, 1, "the status by reference", line);
    is(kranichseil_board_read(&given, 1).number, 1, "a read by reference", line);
    is(same(&given, &kept), 1, "the set stays", line);
}
#define UNSOUND(count) unsound(count, __LINE__)

static void false_counts(void) {
    start(); UNSOUND(1); UNSOUND((uint64_t)1 << 32); UNSOUND((uint64_t)-1);
    middle(); UNSOUND(8); UNSOUND(10); UNSOUND(0); UNSOUND(16); UNSOUND(9 + ((uint64_t)1 << 32));
    SEND(0x4C, "\x02\x05\x00"); IS(command(0xA0), 0); run(2); IS(r.work.kind, KRANICHSEIL_READING); UNSOUND(4); UNSOUND(5);
    start(); SEND(0x4C, "\x12\x07\x00"); IS(command(0x68), 0); run(11); IS(r.remaining, 54); UNSOUND(7); UNSOUND(53); UNSOUND(55);
    start(); SEND(0x4C, "\x23\x03\x00\x04\x00\x08\x00\xFF\x3F\x01\x00"); IS(command(0x6C), 0); run(1); IS(r.remaining, 3); UNSOUND(4);
}

int main(void) {
    section("figures", figures);
    section("no figure", others);
    section("the largest character", largest);
    section("kept", kept);
    section("sheets", sheets);
    section("false counts", false_counts);
    return checked();
}
