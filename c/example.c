// A board's main: bytes come in from a file, the picture memory goes out to another.
//   example IN OUT     IN: pairs of bytes, the port (0 parameter, 1 command) and the byte; OUT: the memory's words, low byte first
#include "kranichseil.h"
#include <stdio.h>

#define WORDS 16384

static struct kranichseil_registers regs;
static uint16_t memory[WORDS];

// A byte to a port; where the buffer is full the controller runs first.
static int put(int port, uint8_t byte) {
    for (;;) {
        struct kranichseil_answer a = port ? kranichseil_command(regs, byte) : kranichseil_parameter(regs, byte);
        regs = a.regs;
        if (a.number != 3) return a.number;
        struct kranichseil_report p = kranichseil_board_run(&regs, memory, WORDS, 1000);
        if (p.number) return p.number;
    }
}

// Units until nothing is left to do.
static int finish(void) {
    struct kranichseil_report p;
    do p = kranichseil_board_run(&regs, memory, WORDS, 1000000);
    while (p.number == 0 && p.why == 1);
    return p.number;
}

int main(int argc, char **argv) {
    if (argc != 3) {
        fprintf(stderr, "example IN OUT\n");
        return 2;
    }
    FILE *in = fopen(argv[1], "rb");
    FILE *out = fopen(argv[2], "wb");
    if (!in || !out) {
        fprintf(stderr, "a file cannot be opened\n");
        return 2;
    }
    regs = kranichseil_fresh();
    int port, byte, number = 0;
    while (!number && (port = fgetc(in)) >= 0 && (byte = fgetc(in)) >= 0) number = put(port, (uint8_t)byte);
    if (!number) number = finish();
    if (number) {
        fprintf(stderr, "refused: %d\n", number);
        return 1;
    }
    if (fwrite(memory, sizeof memory[0], WORDS, out) != WORDS || fclose(out)) return 2;
    return 0;
}
