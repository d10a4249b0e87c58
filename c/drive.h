// What c/test.c, c/wiring.c and c/lamp.c share: a controller that is driven by its ports, and a sheet of one record.
#include "check.h"

static struct kranichseil_registers r;
static uint16_t memory[262144];
static size_t length = 16384;

static void start(void) { r = kranichseil_fresh(); memset(memory, 0, sizeof memory); }
static unsigned command(uint8_t b) { struct kranichseil_answer a = kranichseil_command(r, b); r = a.regs; return a.number; }
static unsigned parameter(uint8_t b) { struct kranichseil_answer a = kranichseil_parameter(r, b); r = a.regs; return a.number; }
static struct kranichseil_report run(uint32_t budget) { return kranichseil_board_run(&r, memory, length, budget); }
static unsigned read_byte(void) {
    struct kranichseil_answer a = kranichseil_read(r);
    r = a.regs;
    return a.number ? 1000u + a.number : a.value;
}

// a command and its parameters, and a run until nothing is left
static void send(uint8_t c, const char *bytes, size_t n) {
    IS(command(c), 0);
    for (size_t i = 0; i < n; i++) {
        if (r.buffer.count == 16) run(1000000);
        IS(parameter((uint8_t)bytes[i]), 0);
    }
    run(1000000);
}
#define SEND(c, bytes) send(c, bytes, sizeof bytes - 1)

// ---- sheets
static uint8_t sheet[17 * 512], glyphs[2056];
static uint16_t out[17000];
static struct kranichseil_translation t;

static void check_word(int block) {
    uint8_t *b = sheet + 512 * block;
    unsigned sum = 7220;
    for (int i = 0; i < 510; i += 2) sum += b[i] + 256u * b[i + 1];
    b[510] = (uint8_t)sum; b[511] = (uint8_t)(sum >> 8);
}
// one block of one record
static void record(const char *bytes) {
    memset(sheet, 0, sizeof sheet);
    sheet[2] = 1; sheet[3] = 1;
    memcpy(sheet + 4, bytes, 10);
    check_word(0);
}
static unsigned translate(uint32_t p, uint32_t h, size_t l, size_t g, size_t o) {
    t = kranichseil_translate(sheet, l, p, h, glyphs, g, out, o);
    return t.number;
}
static int dots(void) {
    int n = 0;
    for (size_t i = 0; i < length; i++) for (int b = 0; b < 16; b++) n += memory[i] >> b & 1;
    return n;
}
