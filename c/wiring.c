// Drives the archive with open wiring and 24,576 words (02, M-108): the lengths, and each kind of access past the end. Ends as c/test.c
// does. tools/ctest runs it.
#include "drive.h"

enum { ODD = 24576 };

// open wiring, SET, and a pattern of ones
static void open_start(void) {
    start();
    length = ODD; r.board.wiring = KRANICHSEIL_OPEN;
    SEND(0x47, "\x28"); SEND(0x23, ""); SEND(0x78, "\xFF\xFF\xFF\xFF\xFF\xFF\xFF\xFF");
}
// the dots of every word, past the length too
static int all_dots(void) {
    size_t n = length;
    length = 262144;
    int all = dots();
    length = n;
    return all;
}
// a command whose run takes the units given and leaves the dots given
static void takes(uint8_t c, unsigned units, int set, int line) {
    is(command(c), 0, "a command", line);
    struct kranichseil_report p = run(1000);
    is(p.number, 0, "number", line); is(p.count, units, "units", line); is(p.why, 2, "why", line); is(all_dots(), set, "dots", line);
}
#define TAKES(c, units, set) takes(c, units, set, __LINE__)

// ---- refusal 2
static void lengths(void) {
    static const size_t any[6] = {16, 17, 4095, ODD, 262143, 262144}, none[5] = {0, 15, 262145, 524288, (size_t)1 << 40};
    static const unsigned folded[6] = {0, 2, 2, 2, 2, 0};
    for (int i = 0; i < 6; i++) {
        start(); IS(command(0x6C), 0);
        IS(kranichseil_run(r, memory, any[i], 5).number, folded[i]); IS(kranichseil_board_run(&r, memory, any[i], 5).number, folded[i]);
        open_start(); IS(command(0x6C), 0);
        IS(kranichseil_run(r, memory, any[i], 5).number, 0); IS(kranichseil_board_run(&r, memory, any[i], 5).number, 0);
    }
    for (int i = 0; i < 5; i++) {
        open_start(); IS(command(0x6C), 0);
        struct kranichseil_registers given = r;
        struct kranichseil_ran n = kranichseil_run(r, memory, none[i], 5);
        struct kranichseil_report p = kranichseil_board_run(&given, memory, none[i], 5);
        IS(n.number, 2); IS(n.count, 0); IS(same(&n.regs, &r), 1); IS(p.number, 2); IS(p.count, 0); IS(same(&given, &r), 1);
        IS(kranichseil_board_send(&given, out, 0, memory, none[i]).number, 2); IS(same(&given, &r), 1); IS(all_dots(), 0);
    }
}

// ---- figures
static void figures(void) {
    open_start(); SEND(0x49, "\xFF\x5F\xF0"); SEND(0x4C, "\x02\x01\x00"); TAKES(0x6C, 3, 1);             // the last dot, and one past it
    IS(memory[ODD - 1], 0x8000); IS(r.cursor.ead, ODD); IS(r.cursor.mask, 1);
    SEND(0x49, "\xFF\xFF\xF3"); SEND(0x4C, "\x02\x01\x00"); TAKES(0x6C, 3, 2); IS(memory[0], 1);         // at 262,143, and then at 0
    r.board.wiring = KRANICHSEIL_FOLDED; length = 16384;                                                 // folded, 24,576 is 8,192
    SEND(0x49, "\x00\x60\x00"); SEND(0x4C, "\x02"); TAKES(0x6C, 2, 3); IS(memory[8192], 1);
    open_start(); SEND(0x49, "\xA0\x60\x30"); SEND(0x4C, "\x12\x07\x00\x08\x00"); TAKES(0x68, 65, 24);   // rows 5 to 7 of eight, upward
    IS(memory[24536], 0x07F8); IS(memory[24496], 0x07F8); IS(memory[24456], 0x07F8);
    open_start(); SEND(0x49, "\x28\x60\xF0"); SEND(0x4C, "\x23\x03\x00\x04\x00\x08\x00\xFF\x3F\x01\x00"); // an arc, its first dot at 24,576
    TAKES(0x6C, 4, 2); IS(memory[24536], 0x8000); IS(memory[24497], 0x0001);
}

// ---- a list: a record of a plane of 96 words by 300 lines, of which 256 are there; the cycles of all dots count
static void list(const char *bytes, unsigned cycles, int set, int line) {
    open_start(); record(bytes);
    is(translate(96, 300, 512, 0, 17000), 0, "translated", line);
    struct kranichseil_registers folded = r;
    folded.board.wiring = KRANICHSEIL_FOLDED;
    is(kranichseil_board_send(&folded, out, t.first, memory, length).number, 2, "the number if folded", line);
    struct kranichseil_tally g = kranichseil_board_send(&r, out, t.first, memory, length);
    is(g.number, 0, "number", line); is(g.taken, t.first, "entries taken", line); is(g.units, t.first + cycles, "units", line);
    is(all_dots(), set, "dots", line);
}
#define LIST(bytes, cycles, set) list(bytes, cycles, set, __LINE__)

static void lists(void) {
    LIST("\x02\x03\x00\x00\xFA\x00\x05\x00\x04\x01", 11, 6); IS(memory[96 * 250], 1);                    // a line from (0, 250) to (5, 260)
    LIST("\x03\x03\x0A\x00\xFA\x00\x14\x00\x04\x01", 40, 21); IS(memory[96 * 255], 0x0400);              // a rectangle to (20, 260)
    LIST("\x01\x01\xFF\x05\xFF\x00\x00\x00\x00\x00", 1, 1); IS(memory[ODD - 1], 0x8000);                 // the dot (1535, 255)
    LIST("\x01\x00\x00\x00\x00\x01\x00\x00\x00\x00", 1, 0); IS(r.cursor.ead, ODD);                       // .. and (0, 256)
}

// ---- WDAT and RDAT
static void words(void) {
    open_start(); SEND(0x49, "\xFF\x5F\x00"); SEND(0x4A, "\xFF\xFF"); SEND(0x4C, "\x02\x02\x00");
    SEND(0x20, "\x34\x12\x78\x56"); IS(memory[ODD - 1], 0x1234); IS(r.cursor.ead, ODD + 1); IS(all_dots(), 5);
    memory[ODD] = 0x5678; SEND(0x49, "\xFF\x5F\x00"); TAKES(0xA0, 3, 13); IS(r.cursor.ead, ODD + 1);     // the last word, and FFFF
    IS(read_byte(), 0x34); IS(read_byte(), 0x12); IS(read_byte(), 0xFF); IS(read_byte(), 0xFF); IS(read_byte(), 1005);
    SEND(0x49, "\x00\x60\x00");
    SEND(0xB0, ""); IS(read_byte(), 0xFF); IS(read_byte(), 0xFF); IS(read_byte(), 1005);                 // low bytes, high bytes
    SEND(0xB8, ""); IS(read_byte(), 0xFF); IS(read_byte(), 0xFF); IS(read_byte(), 1005);
    r.board.wiring = KRANICHSEIL_FOLDED; length = 16384; memory[8192] = 0x9ABC;
    SEND(0x49, "\x00\x60\x00"); SEND(0xA0, ""); IS(read_byte(), 0xBC); IS(read_byte(), 0x9A);
}

// ---- no port changes the board, and RESET keeps it
static void kept(void) {
    for (uint8_t w = 0; w < 2; w++) {
        open_start(); length = 16384; r.board.wiring = w;
        for (int c = 0; c < 256; c++) { SEND((uint8_t)c, ""); IS(r.board.wiring, w); }
        IS(command(0x00), 0); IS(r.board.wiring, w); IS(parameter(0), 0); IS(r.board.wiring, w);
        IS(kranichseil_board_write(&r, 0x100).number, 0); IS(r.board.wiring, w);
        IS(kranichseil_board_write(&r, 0x155).number, 0); IS(r.board.wiring, w);
        IS(kranichseil_board_write(&r, 0x055).number, 0); IS(r.board.wiring, w);
        IS(kranichseil_board_read(&r, 0).number, 0); IS(kranichseil_board_read(&r, 1).number, 5); IS(r.board.wiring, w);
        IS(kranichseil_pen(r, 5).regs.board.wiring, w); IS(kranichseil_status(r).regs.board.wiring, w);
    }
}

int main(void) {
    section("lengths", lengths);
    section("figures", figures);
    section("lists", lists);
    section("words", words);
    section("the board kept", kept);
    return checked();
}
