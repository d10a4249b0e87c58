// Drives the archive from C: the layout of the header, document 01's worked cases, an arc and circles (02, M-100), every number of refusal.
// Expected values are 01's and 02's, written by hand. Ends with status 0 and `0 failed`, or says which lines failed. tools/ctest builds
// and runs it.
#include "drive.h"

// ---- the header's layout
#define AT(type, field, offset) _Static_assert(offsetof(struct kranichseil_##type, field) == (offset), #type "." #field)
#define SIZE(type, size) _Static_assert(sizeof(struct kranichseil_##type) == (size), #type)
SIZE(cursor, 8); AT(cursor, ead, 0); AT(cursor, mask, 4);
SIZE(drawing, 14); AT(drawing, kind, 0); AT(drawing, dir, 1); AT(drawing, gd, 2); AT(drawing, dc, 4); AT(drawing, d, 6);
AT(drawing, d2, 8); AT(drawing, d1, 10); AT(drawing, dm, 12);
SIZE(video, 14); AT(video, zoom, 0); AT(video, display, 1); AT(video, vsync, 2); AT(video, sync, 3); AT(video, cchar, 11);
SIZE(pen, 8); AT(pen, address, 0); AT(pen, set, 4);
SIZE(buffer, 34); AT(buffer, entries, 0); AT(buffer, count, 32);
SIZE(progress, 4); AT(progress, command, 0); AT(progress, transfer, 1); AT(progress, next, 2); AT(progress, low, 3);
SIZE(work, 32); AT(work, kind, 0); AT(work, transfer, 1); AT(work, d, 2); AT(work, d1, 4); AT(work, d2, 6); AT(work, item, 8);
AT(work, dot, 12); AT(work, row, 16); AT(work, column, 20); AT(work, start, 24);
SIZE(board, 1); AT(board, wiring, 0);
SIZE(registers, 152); AT(registers, cursor, 0); AT(registers, pitch, 8); AT(registers, drawing, 10); AT(registers, op, 24);
AT(registers, ram, 25); AT(registers, video, 41); AT(registers, pen, 56); AT(registers, mode, 64); AT(registers, buffer, 66);
AT(registers, progress, 100); AT(registers, work, 104); AT(registers, remaining, 136);
AT(registers, board, 144);
SIZE(answer, 160); AT(answer, number, 0); AT(answer, value, 1); AT(answer, regs, 8);
SIZE(ran, 168); AT(ran, number, 0); AT(ran, count, 4); AT(ran, why, 8); AT(ran, regs, 16);
SIZE(report, 12); AT(report, number, 0); AT(report, count, 4); AT(report, why, 8);
SIZE(reply, 2); AT(reply, number, 0); AT(reply, value, 1);
SIZE(tally, 24); AT(tally, number, 0); AT(tally, taken, 8); AT(tally, units, 16);
SIZE(translation, 12); AT(translation, number, 0); AT(translation, first, 4); AT(translation, second, 8);
SIZE(costs, 24); AT(costs, number, 0); AT(costs, first, 4); AT(costs, second, 8); AT(costs, figures, 12); AT(costs, units, 16);

static unsigned status(void) { return kranichseil_status(r).value; }

// ---- each field stands in the archive where the header has it: set by the commands, looked at from C
static void layout(void) {
    start();
    IS(r.board.wiring, KRANICHSEIL_FOLDED);
    IS(r.drawing.d, 8); IS(r.drawing.d2, 8); IS(r.drawing.d1, 16383); IS(r.drawing.dm, 16383);
    SEND(0x00, "\x11\x12\x13\x14\x15\x16\x17\x18\x19");
    for (int i = 0; i < 8; i++) IS(r.video.sync[i], 0x11 + i);
    SEND(0x6F, ""); IS(r.video.vsync, 1); IS(r.video.display, 0);
    SEND(0x4B, "\x21\x22\x23");
    for (int i = 0; i < 3; i++) IS(r.video.cchar[i], 0x21 + i);
    SEND(0x6B, ""); IS(r.video.display, 1);
    SEND(0x46, "\x35"); IS(r.video.zoom, 0x35);
    SEND(0x47, "\x28"); IS(r.pitch, 0x28);
    SEND(0x70, "\x31\x32\x33\x34\x35\x36\x37\x38\x39\x3A\x3B\x3C\x3D\x3E\x3F\x40\x41");
    for (int i = 0; i < 16; i++) IS(r.ram[i], 0x31 + i);
    SEND(0x49, "\x51\x44\x12"); IS(r.cursor.ead, 0x24451); IS(r.cursor.mask, 2);
    SEND(0x4A, "\xCD\xAB"); IS(r.cursor.mask, 0xABCD);
    SEND(0x4C, "\x4D\x34\x52\x11\x01\x22\x02\x33\x03\x44\x04");
    IS(r.drawing.kind, 9); IS(r.drawing.dir, 5); IS(r.drawing.gd, 1); IS(r.drawing.dc, 0x1234); IS(r.drawing.d, 0x111);
    IS(r.drawing.d2, 0x222); IS(r.drawing.d1, 0x333); IS(r.drawing.dm, 0x444);
    SEND(0x22, "\x77"); IS(r.op, KRANICHSEIL_CLEAR); IS(r.progress.command, KRANICHSEIL_WDAT);
    IS(r.progress.transfer, KRANICHSEIL_WORD); IS(r.progress.next, 1); IS(r.progress.low, 0x77);
    SEND(0x39, ""); IS(r.op, KRANICHSEIL_COMPLEMENT); IS(r.progress.transfer, KRANICHSEIL_HIGH); IS(r.progress.low, 0);
    static const uint8_t code[17] = {0x00, 0x6E, 0x4B, 0x6B, 0x46, 0x49, 0x70, 0x47, 0x4A, 0x4C, 0x6C, 0x68, 0xE0, 0xC0, 0x20, 0xA0, 0x01};
    for (int i = 0; i < 17; i++) { SEND(code[i], ""); IS(r.progress.command, KRANICHSEIL_RESET + i); }
    SEND(0x00, "");
    struct kranichseil_answer a = kranichseil_pen(r, 0x2ABCD); r = a.regs;
    IS(a.number, 0); IS(r.pen.address, 0x2ABCD); IS(r.pen.set, 1); IS(status(), 0x84);
    IS(command(0x4C), 0); IS(parameter(0x10), 0);
    IS(r.buffer.count, 2); IS(r.buffer.entries[0], 0x14C); IS(r.buffer.entries[1], 0x010); IS(r.mode, KRANICHSEIL_WRITE);
    // a line in progress: K8's first dot made
    start();
    SEND(0x4C, "\x09\x05\x00\xFF\x3F\xFA\x3F\x04\x00"); IS(command(0x6C), 0); run(2);
    IS(r.work.kind, KRANICHSEIL_FIGURE); IS(r.work.dot, 1); IS(r.work.d, 3); IS(status(), 0x0C);
    // a character in progress: a row of eight dots and two more; the next row starts a line above
    start();
    SEND(0x47, "\x28"); SEND(0x49, "\x64\x00\x30"); SEND(0x4C, "\x12\x07\x00\x08\x00"); IS(command(0x68), 0); run(11);
    IS(r.work.kind, KRANICHSEIL_CHARACTER); IS(r.work.row, 1); IS(r.work.column, 2); IS(r.work.start.ead, 60); IS(r.work.start.mask, 8);
    // a read in progress: twenty low bytes, of which sixteen have room
    start();
    for (int i = 0; i < 20; i++) memory[i] = (uint16_t)(0x5A00 + i);
    SEND(0x4C, "\x02\x14\x00"); IS(command(0xB0), 0);
    struct kranichseil_report p = run(100);
    IS(p.number, 0); IS(p.count, 17); IS(p.why, 3); IS(r.mode, KRANICHSEIL_READ); IS(r.work.kind, KRANICHSEIL_READING);
    IS(r.work.item, 16); IS(r.work.transfer, KRANICHSEIL_LOW); IS(r.buffer.count, 16); IS(status(), 0x03);
    for (int i = 0; i < 16; i++) IS(read_byte(), i);
    p = run(100); IS(p.count, 4); IS(p.why, 2); IS(r.cursor.ead, 20); IS(read_byte(), 16);
}

// ---- the bench sheet
// AB by WDAT 30 over the word 1234, behind RESET with its sync byte 1 and FIGS with GD or without it
#define WRITTEN(sync, figs, word) \
    do { \
        start(); memory[5] = 0x1234; SEND(0x00, sync); SEND(0x4C, figs); SEND(0x49, "\x05\x00\x00"); SEND(0x4A, "\xFF\xFF"); \
        SEND(0x30, "\xAB"); IS(memory[5], word); \
    } while (0)
static void worked(void) {
    static const unsigned result[4] = {0x03F3, 0x03FC, 0x00FC, 0x03FF};
    for (int op = 0; op < 4; op++) {                                       // K1 to K4
        start(); memory[7] = 0x00FF;
        SEND(0x49, "\x07\x00\x00"); SEND(0x4A, "\x0F\x0F"); SEND((uint8_t)(0x20 + op), "\x33\x33");
        IS(memory[7], result[op]);
    }
    start();                                                               // K5: two dots to the right
    SEND(0x49, "\x05\x00\xF0"); IS(r.cursor.mask, 0x8000); SEND(0x4C, "\x02\x01\x00"); SEND(0x6C, "");
    IS(r.cursor.ead, 6); IS(r.cursor.mask, 0x0001);
    start();                                                               // K6: two to the left
    SEND(0x49, "\x00\x00\x00"); SEND(0x4C, "\x06\x01\x00"); SEND(0x6C, "");
    IS(r.cursor.ead, 262143); IS(r.cursor.mask, 0x8000);
    start();                                                               // K7: two up-right
    SEND(0x47, "\x28"); SEND(0x49, "\x64\x00\xF0"); SEND(0x4C, "\x03\x01\x00"); SEND(0x6C, "");
    IS(r.cursor.ead, 61); IS(r.cursor.mask, 0x0001);
    start();                                                               // K11: no dots
    SEND(0x23, ""); SEND(0x78, "\xFF\xFF"); SEND(0x49, "\x05\x00\x00"); SEND(0x4C, "\x40\x03\x00\x00\x00\x00\x00");
    IS(command(0x6C), 0);
    struct kranichseil_report p = run(100);
    IS(p.number, 0); IS(p.count, 1); IS(p.why, 2); IS(r.cursor.ead, 5); IS(r.cursor.mask, 1);
    for (size_t i = 0; i < length; i++) if (memory[i]) IS(memory[i], 0);
    start();                                                               // K12
    SEND(0x49, "\x51\x00\x10"); SEND(0xE0, "");
    IS(read_byte(), 0x51); IS(read_byte(), 0x00); IS(read_byte(), 0x00); IS(read_byte(), 0x02); IS(read_byte(), 0x00);
    IS(read_byte(), 1005);
    start();                                                               // the seventeenth waiting byte
    for (int i = 0; i < 16; i++) IS(parameter(9), 0);
    IS(parameter(9), 3); IS(command(0x49), 3); IS(r.buffer.count, 16); IS(command(0x00), 0); IS(r.buffer.count, 0);
    WRITTEN("\x20", "\x02", 0x00AB); WRITTEN("\x00", "\x02", 0x00AB);     // WDAT 30 with AB, in coded character work
    WRITTEN("\x20", "\x02\x00\x40", 0x00AB); WRITTEN("\x22", "\x02\x00\x40", 0x00AB);
    WRITTEN("\x02", "\x02", 0x00FF); WRITTEN("\x00", "\x02\x00\x40", 0x00FF); // .. and in bit-mapped work
}

// ---- sheets
// what a sheet of that length costs, with so many bytes of glyphs
static void costs(uint32_t p, uint32_t h, size_t l, size_t g, unsigned number, uint32_t first, uint32_t second, uint64_t units, int line) {
    struct kranichseil_costs c = kranichseil_cost(sheet, l, p, h, glyphs, g);
    is(c.number, number, "the cost's number", line); is(c.first, first, "its first", line); is(c.second, second, "its second", line);
    is(c.units, units, "its units", line);
    is(c.figures, number ? 0 : l == 512 ? sheet[2] : sheet[2] + sheet[514], "its figures", line);
}

// the translation, with so many bytes of glyphs, sent to a fresh controller, which runs to its end; its units were told
static void draw(size_t g) {
    uint64_t units = 0;
    start();
    IS(translate(40, 400, 512, g, 17000), 0);
    for (uint32_t i = 0; i < t.first; i++) {
        if (r.buffer.count == 16) units += run(1000000).count;
        IS(out[i] & 256 ? command((uint8_t)out[i]) : parameter((uint8_t)out[i]), 0);
    }
    struct kranichseil_report end = run(1000000);
    IS(end.why, 2);
    costs(40, 400, 512, g, 0, t.first, 0, units + end.count, __LINE__);
}
static int dot(int x, int y) { return memory[40 * y + x / 16] >> x % 16 & 1; }

// the dots of a circle: for each i those that lie out[i] out, in all eight octants
static void circle(const char *bytes, int x, int y, const char *lies, int n, int count) {
    record(bytes); draw(0); IS(dots(), count);
    for (int i = 0; i < n; i++) for (int s = 0; s < 8; s++) {
        int a = s & 1 ? i : -i, b = s & 2 ? lies[i] : -lies[i];
        IS(s & 4 ? dot(x + a, y + b) : dot(x + b, y + a), 1);
    }
}
// the arc of DIR 3 of the circle of radius 5 about (20, 10), as it is sent: from the left end, DC 3, D 4, D2 8, D1 -1, DM 1
static const uint16_t up[20] = {0x149, 0x90, 0x01, 0xF0, 0x178, 0xFF, 0xFF, 0x14C, 0x23, 3, 0, 4, 0, 8, 0, 0xFF, 0x3F, 1, 0, 0x16C};

static void sheets(void) {
    static const uint16_t listing[13] = {0x147, 0x28, 0x123, 0x149, 0x51, 0x00, 0x10, 0x178, 0xFF, 0xFF, 0x14C, 0x02, 0x16C};
    record("\x01\x03\x11\x00\x02\x00\x00\x00\x00\x00");                   // the worked sheet
    IS(sheet[510], 0x49); IS(sheet[511], 0x20);
    memset(out, 0xEE, sizeof out);
    IS(translate(40, 400, 512, 0, 17000), 0); IS(t.first, 13); IS(t.second, 0); IS(memcmp(out, listing, sizeof listing), 0);
    IS(out[13], 0xEEEE);
    draw(0); IS(dots(), 1); IS(dot(17, 2), 1);
    static const int row8[6] = {0, 0, 1, 1, 2, 2};                         // K8
    record("\x02\x03\x00\x00\x00\x00\x05\x00\x02\x00"); draw(0); IS(dots(), 6);
    for (int x = 0; x < 6; x++) IS(dot(x, row8[x]), 1);
    record("\x02\x03\x00\x00\x00\x00\x02\x00\x01\x00"); draw(0); IS(dots(), 3); IS(dot(1, 1), 1);   // K9
    record("\x02\x03\x02\x00\x01\x00\x00\x00\x00\x00"); draw(0); IS(dots(), 3); IS(dot(1, 0), 1);   // K10
    record("\x03\x01\x00\x00\x00\x00\x03\x00\x00\x00"); draw(0); IS(dots(), 4);                     // a flat rectangle, COMPLEMENT
    for (int x = 0; x < 4; x++) IS(dot(x, 0), 1);
    circle("\x05\x03\x14\x00\x0A\x00\x05\x00\x00\x00", 20, 10, "\5\5\5\4", 4, 28);               // M-100: radius 5, SET
    IS(translate(40, 400, 512, 0, 17000), 0); IS(t.first, 163); IS(memcmp(out + 63, up, sizeof up), 0);
    circle("\x05\x01\x11\x00\x05\x00\x03\x00\x00\x00", 17, 5, "\3\3\2", 3, 16);                  // octants that meet on the diagonal
    circle("\x05\x01\x01\x00\x01\x00\x01\x00\x00\x00", 1, 1, "\1", 1, 4);                        // odd arcs that draw nothing
}

// ---- what a sheet costs (02, M-106), said and drawn
#define COSTS(bytes, entries, dots) (record(bytes), costs(40, 400, 512, 2048, 0, entries, 0, (entries) + (dots), __LINE__), draw(2048))
static void told(void) {
    COSTS("\x01\x03\x11\x00\x02\x00\x00\x00\x00\x00", 13, 1);
    COSTS("\x02\x03\x11\x00\x02\x00\x11\x00\x02\x00", 21, 1);          // a line of one dot
    COSTS("\x02\x03\x11\x00\x09\x00\x00\x00\x02\x00", 21, 18);
    COSTS("\x03\x03\x11\x00\x09\x00\x00\x00\x02\x00", 23, 48);         // 18 by 8
    COSTS("\x03\x03\x11\x00\x09\x00\x10\x00\x08\x00", 23, 4);          // two by two
    COSTS("\x03\x03\x11\x00\x09\x00\x00\x00\x09\x00", 21, 18);         // one dot high, one wide, and one dot
    COSTS("\x03\x03\x11\x00\x09\x00\x11\x00\x02\x00", 21, 8);
    COSTS("\x03\x03\x11\x00\x09\x00\x11\x00\x09\x00", 21, 1);
    COSTS("\x04\x03\x11\x00\x09\x00\xFF\x01\x00\x00", 23, 64);         // a glyph, three times and sixteen times as large
    COSTS("\x04\x03\x11\x00\x09\x00\x00\x03\x00\x00", 23, 576);
    COSTS("\x04\x03\x11\x00\x09\x00\x00\x10\x00\x00", 23, 16384);
    COSTS("\x05\x03\x14\x00\x0A\x00\x01\x00\x00\x00", 163, 4);         // circles
    COSTS("\x05\x03\x14\x00\x0A\x00\x03\x00\x00\x00", 163, 16);
    COSTS("\x05\x03\x14\x00\x0A\x00\x05\x00\x00\x00", 163, 28);
    record("\x01\x03\x11\x00\x02\x00\x00\x00\x00\x00");
    memset(sheet + 4, 0, 10); sheet[2] = 0; check_word(0);                // PITCH alone
    costs(40, 400, 512, 2048, 0, 2, 0, 2, __LINE__); draw(2048);
}

// ---- refusals 1 to 6
static struct kranichseil_registers given;
// every entry that takes a register set refuses it and gives it back
static void unsound(int line) {
    struct kranichseil_registers kept = given;
    struct kranichseil_answer a[5] = {kranichseil_command(given, 0x47), kranichseil_parameter(given, 1), kranichseil_read(given),
                                      kranichseil_status(given), kranichseil_pen(given, 1)};
    struct kranichseil_ran n = kranichseil_run(given, memory, length, 5);
    struct kranichseil_report p = kranichseil_board_run(&given, memory, length, 5);
    for (int i = 0; i < 5; i++) is(a[i].number == 1 && a[i].value == 0 && same(&a[i].regs, &kept), 1, "a port refuses", line);
    is(n.number == 1 && n.count == 0 && n.why == 0 && same(&n.regs, &kept), 1, "the run refuses", line);
    is(p.number == 1 && p.count == 0 && p.why == 0 && same(&given, &kept), 1, "the board call refuses", line);
    given = r;
}
#define UNSOUND(change) do { given = r; given.change; unsound(__LINE__); } while (0)

static void refusals(void) {
    start();
    UNSOUND(cursor.ead = 262144); UNSOUND(drawing.kind = 32); UNSOUND(drawing.dir = 8); UNSOUND(drawing.dc = 16384);
    UNSOUND(pen.address = 262144); UNSOUND(buffer.count = 17); UNSOUND(progress.next = 17); UNSOUND(buffer.entries[0] = 512);
    // no register set: a bit that is 2, an enum's number out of range, an unused field that is not 0
    UNSOUND(drawing.gd = 2); UNSOUND(video.display = 2); UNSOUND(video.vsync = 255); UNSOUND(pen.set = 2);
    UNSOUND(op = 4); UNSOUND(mode = 2); UNSOUND(board.wiring = 2); UNSOUND(board.wiring = 255);
    UNSOUND(remaining = 1);
    UNSOUND(progress.command = 18); UNSOUND(progress.transfer = 1); UNSOUND(work.kind = 5); UNSOUND(work.transfer = 1);
    UNSOUND(work.d = 1); UNSOUND(work.item = 1); UNSOUND(work.dot = 1); UNSOUND(work.row = 1); UNSOUND(work.column = 1);
    UNSOUND(work.start.ead = 1); UNSOUND(work.start.mask = 1);
    UNSOUND(progress.command = KRANICHSEIL_WDAT; given.progress.transfer = 3);
    UNSOUND(work.kind = KRANICHSEIL_FIGURE; given.work.dot = 1);           // a place past its figure's end
    UNSOUND(work.kind = KRANICHSEIL_READING);                              // a read in write mode
    static const size_t wrong[7] = {0, 8, 17, 48, 24576, 262143, 524288};
    IS(command(0x6C), 0);
    for (int i = 0; i < 7; i++) {
        given = r;
        struct kranichseil_ran n = kranichseil_run(r, memory, wrong[i], 5);
        struct kranichseil_report p = kranichseil_board_run(&given, memory, wrong[i], 5);
        IS(n.number, 2); IS(n.count, 0); IS(n.why, 0); IS(same(&n.regs, &r), 1); IS(p.number, 2); IS(p.count, 0); IS(same(&given, &r), 1);
    }
    for (size_t l = 16; l <= 262144; l *= 2) IS(kranichseil_run(r, memory, l, 0).number, 0);
    start();
    IS(read_byte(), 1005); IS(kranichseil_pen(r, 262144).number, 6); IS(kranichseil_pen(r, 262143).number, 0);
    SEND(0xE0, ""); given = r; IS(parameter(1), 4); IS(same(&given, &r), 1);  // read mode
    IS(command(0x47), 0); IS(r.mode, KRANICHSEIL_WRITE); IS(r.buffer.count, 1);
}

// ---- an arc: up from the left end of the circle of radius 5 about (20, 10), dot 0 passed over: DIR 3, DC 3, D 4, D2 8, D1 -1, DM 1
static void arc(const char *figs) {
    start();
    SEND(0x47, "\x28"); SEND(0x23, ""); SEND(0x49, "\x90\x01\xF0"); SEND(0x78, "\xFF\xFF"); send(0x4C, figs, 11);
    IS(r.drawing.kind, 4); IS(command(0x6C), 0);
}
static const char five[] = "\x23\x03\x00\x04\x00\x08\x00\xFF\x3F\x01\x00";
// what is in progress, all of it
static void reached(unsigned dot, unsigned d, int d1, unsigned d2, unsigned ead, unsigned mask, int line) {
    const struct kranichseil_work *w = &r.work;
    is(w->kind, KRANICHSEIL_ARC, "kind", line); is(w->dot, dot, "dot", line); is(w->d, d, "d", line);
    is(w->d1, (unsigned)d1 & 16383, "d1", line); is(w->d2, d2, "d2", line);
    is(w->transfer | w->item | w->row | w->column | w->start.ead | w->start.mask, 0, "fields without use", line);
    is(r.cursor.ead, ead, "ead", line); is(r.cursor.mask, mask, "mask", line); is(status(), 0x0C, "status", line);
}
#define REACHED(dot, d, d1, d2, ead, mask) reached(dot, d, d1, d2, ead, mask, __LINE__)
static void ended(unsigned ead, unsigned mask, int line) {
    struct kranichseil_registers idle = r;
    memset(&idle.work, 0, sizeof idle.work); idle.remaining = 0;
    is(same(&r, &idle), 1, "nothing in progress", line);
    is(r.cursor.ead, ead, "ead", line); is(r.cursor.mask, mask, "mask", line); is(status(), 0x04, "status", line);
}
#define ENDED(ead, mask) ended(ead, mask, __LINE__)
#define NO_ARC() do { UNSOUND(work.d1 = 1); UNSOUND(work.d2 = 1); } while (0)

static void arcs(void) {
    struct kranichseil_report p;
    arc(five);
    p = run(1); IS(p.count, 1); IS(p.why, 1); REACHED(0, 4, -1, 8, 400, 0x8000); IS(dots(), 0);       // FIGD's unit moves nothing
    p = run(1); IS(p.count, 1); IS(p.why, 1); REACHED(1, 0, -5, 8, 320, 0x8000); IS(memory[360], 0x8000); IS(dots(), 1);
    struct kranichseil_registers middle = r;
    p = run(1); IS(p.count, 1); IS(p.why, 1); REACHED(2, 3, -7, 6, 281, 0x0001); IS(memory[320], 0x8000); IS(dots(), 2);
    p = run(9); IS(p.count, 1); IS(p.why, 2); ENDED(281, 0x0001); IS(memory[281], 0x0001); IS(dots(), 3);
    IS(r.drawing.dc, 3); IS(r.drawing.d, 4); IS(r.drawing.d2, 8); IS(r.drawing.d1, 16383); IS(r.drawing.dm, 1);
    memset(memory, 0, sizeof memory);                                      // the set of the middle, handed in again, by value
    struct kranichseil_ran n = kranichseil_run(middle, memory, length, 9);
    IS(n.number, 0); IS(n.count, 2); IS(n.why, 2); IS(same(&n.regs, &r), 1);
    IS(memory[320], 0x8000); IS(memory[281], 0x0001); IS(dots(), 2);
    arc(five); run(1); IS(command(0x00), 0); ENDED(400, 0x8000); IS(run(9).count, 0); IS(dots(), 0);  // RESET before the first dot
    r = middle; IS(command(0x00), 0); ENDED(320, 0x8000); IS(run(9).count, 0); IS(dots(), 0);         // .. and after it
    r = middle; IS(kranichseil_board_write(&r, 0x100).number, 0); ENDED(320, 0x8000);
    r = middle; IS(kranichseil_board_read(&r, 0).value, 0x0C); IS(same(&r, &middle), 1);
    arc(five); r.ram[8] = 2; r.ram[9] = 0; p = run(9); IS(p.count, 4);     // the pattern has bit 1 alone: dot 1, the first that is drawn
    IS(dots(), 1); IS(memory[360], 0x8000);
    arc("\x23\x03\x00\x04\x00\x08\x00\xFF\x3F\x04\x00");                  // DM 4: no dot is left, and FIGD's unit makes the DC moves
    p = run(9); IS(p.count, 1); IS(p.why, 2); ENDED(281, 0x0001); IS(dots(), 0);
    arc("\x20\x03\x00\x04\x00\x08\x00\xFF\x3F\x00\x00");                  // down from the same end, DIR 0 and DM 0
    p = run(9); IS(p.count, 5); IS(p.why, 2); ENDED(521, 0x0001); IS(dots(), 4);
    IS(memory[400], 0x8000); IS(memory[440], 0x8000); IS(memory[480], 0x8000); IS(memory[521], 0x0001);
    arc(five); run(2); UNSOUND(work.dot = 3); UNSOUND(work.dot = 0x10000); UNSOUND(work.d = 16384); UNSOUND(work.d1 = 16384);
    UNSOUND(work.d2 = 16384); UNSOUND(mode = KRANICHSEIL_READ); UNSOUND(drawing.kind = 5); UNSOUND(drawing.dm = 3); UNSOUND(work.kind = 5);
    UNSOUND(work.kind = KRANICHSEIL_FIGURE); UNSOUND(work.transfer = 1); UNSOUND(work.item = 1); UNSOUND(work.row = 1);
    UNSOUND(work.column = 1); UNSOUND(work.start.ead = 1); UNSOUND(work.start.mask = 1);
    r.work.dot = 2; r.remaining = 1; r.work.d = r.work.d1 = r.work.d2 = 16383; IS(kranichseil_status(r).number, 0);    // sound, though none of the circle's
    start(); NO_ARC(); SEND(0x4C, "\x09\x05\x00"); IS(command(0x6C), 0); run(2); NO_ARC();            // other work has no D1 and no D2
    start(); SEND(0x4C, "\x12\x07\x00"); IS(command(0x68), 0); run(2); IS(r.work.kind, KRANICHSEIL_CHARACTER); NO_ARC();
    start(); SEND(0x4C, "\x02\x14\x00"); IS(command(0xB0), 0); run(2); IS(r.work.kind, KRANICHSEIL_READING); NO_ARC();
}

// ---- refusals 11 to 20: the number, two values, and an output that is as it was
static void refused(unsigned number, uint32_t first, uint32_t second, int line) {
    is(t.number, number, "number", line); is(t.first, first, "first", line); is(t.second, second, "second", line);
    for (int i = 0; i < 17000; i++) if (out[i] != 0xEEEE) { is(out[i], 0xEEEE, "output", line); return; }
}
// .. and the cost's are the same, but that it lends no output and does not know 20: a dot's sheet costs 14, the circle's 163 and 28 dots
#define REFUSED(p, h, l, g, o, number, first, second) (translate(p, h, l, g, o), refused(number, first, second, __LINE__), \
    costs(p, h, l, g, number == 20 ? 0 : number, first, second, number != 20 ? 0 : first == 13 ? 14 : 163 + 28, __LINE__))

static void sheet_refusals(void) {
    memset(out, 0xEE, sizeof out);
    record("\x01\x03\x11\x00\x02\x00\x00\x00\x00\x00");
    REFUSED(0, 400, 512, 0, 17000, 11, 0, 0); REFUSED(256, 400, 512, 0, 17000, 11, 0, 0); REFUSED(40, 0, 512, 0, 17000, 11, 0, 0);
    REFUSED(40, 4097, 512, 0, 17000, 11, 0, 0); REFUSED(65, 4096, 512, 0, 17000, 11, 0, 0); REFUSED(1u << 31, 2, 511, 7, 0, 11, 0, 0);
    REFUSED(40, 400, 512, 7, 17000, 12, 0, 0); REFUSED(40, 400, 512, 2056, 17000, 12, 0, 0);
    REFUSED(40, 400, 511, 0, 17000, 13, 0, 0); REFUSED(40, 400, 0, 0, 17000, 13, 0, 0); REFUSED(40, 400, 17 * 512, 0, 17000, 13, 0, 0);
    sheet[511] ^= 1; REFUSED(40, 400, 512, 0, 17000, 14, 0, 0);
    record("\x01\x03\x11\x00\x02\x00\x00\x00\x00\x00"); sheet[0] = 1; check_word(0); REFUSED(40, 400, 512, 0, 17000, 15, 0, 0);
    record("\x01\x03\x11\x00\x02\x00\x00\x00\x00\x00"); sheet[14] = 1; check_word(0); REFUSED(40, 400, 512, 0, 17000, 15, 0, 0);
    record("\x06\x03\x11\x00\x02\x00\x00\x00\x00\x00"); REFUSED(40, 400, 512, 0, 17000, 16, 0, 0);
    record("\x01\x04\x11\x00\x02\x00\x00\x00\x00\x00"); REFUSED(40, 400, 512, 0, 17000, 16, 0, 0);
    record("\x04\x03\x11\x00\x08\x00\x02\x01\x00\x00"); REFUSED(40, 400, 512, 16, 17000, 17, 0, 0);
    record("\x04\x03\x11\x00\x08\x00\x01\x11\x00\x00"); REFUSED(40, 400, 512, 16, 17000, 18, 0, 0);
    record("\x01\x03\x80\x02\x02\x00\x00\x00\x00\x00"); REFUSED(40, 400, 512, 0, 17000, 19, 0, 0);   // x 640
    // a circle: its spare bytes, its radius (0 and 2,001), each of its four ends outside, and its 163 entries
    record("\x05\x03\x14\x00\x0A\x00\x05\x00\x01\x00"); REFUSED(40, 400, 512, 0, 17000, 16, 0, 0);
    record("\x05\x03\x14\x00\x0A\x00\x00\x00\x00\x00"); REFUSED(40, 400, 512, 0, 17000, 18, 0, 0);
    record("\x05\x03\x14\x00\x0A\x00\xD1\x07\x00\x00"); REFUSED(40, 400, 512, 0, 17000, 18, 0, 0);
    record("\x05\x03\x14\x00\x0A\x00\xD0\x07\x00\x00"); REFUSED(40, 400, 512, 0, 17000, 19, 0, 0);
    record("\x05\x03\x04\x00\x0A\x00\x05\x00\x00\x00"); REFUSED(40, 400, 512, 0, 17000, 19, 0, 0);   // x 4
    record("\x05\x03\x14\x00\x04\x00\x05\x00\x00\x00"); REFUSED(40, 400, 512, 0, 17000, 19, 0, 0);   // y 4
    record("\x05\x03\x7B\x02\x0A\x00\x05\x00\x00\x00"); REFUSED(40, 400, 512, 0, 17000, 19, 0, 0);   // x 635
    record("\x05\x03\x14\x00\x8B\x01\x05\x00\x00\x00"); REFUSED(40, 400, 512, 0, 17000, 19, 0, 0);   // y 395
    record("\x05\x03\x7A\x02\x8A\x01\x05\x00\x00\x00"); REFUSED(40, 400, 512, 0, 162, 20, 163, 0);   // (634, 394) fits
    record("\x01\x03\x11\x00\x02\x00\x00\x00\x00\x00"); REFUSED(40, 400, 512, 0, 12, 20, 13, 0);
    // two blocks; the second's second record
    record("\x01\x03\x11\x00\x02\x00\x00\x00\x00\x00"); sheet[3] = 0; check_word(0);
    memcpy(sheet + 516, "\x01\x03\x11\x00\x02\x00\x00\x00\x00\x00\x01\x03\x11\x00\x90\x01\x00\x00\x00\x00", 20);
    sheet[512] = 1; sheet[514] = 2; sheet[515] = 1; check_word(1);
    REFUSED(40, 400, 1024, 0, 17000, 19, 1, 1);                                                      // y 400
    sheet[1023] ^= 1; REFUSED(40, 400, 1024, 0, 17000, 14, 1, 0);
}

int main(void) {
    section("layout", layout);
    section("worked cases", worked);
    section("sheets", sheets);
    section("what a sheet costs", told);
    section("refusals 1 to 6", refusals);
    section("an arc", arcs);
    section("refusals 11 to 20", sheet_refusals);
    return checked();
}
