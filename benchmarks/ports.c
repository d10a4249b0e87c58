/* One byte at a port by reference, in one case, for whoever counts its instructions (benchmarks/ports).
   ports STATE ACTION TIMES   each time from a copy of the same set; it prints the number of refusal, which is the same each time */
#include <stdio.h>
#include <string.h>
#include "kranichseil.h"

int atoi(const char *text);
int strcmp(const char *a, const char *b);

typedef struct kranichseil_reply action(struct kranichseil_registers *r);

static struct kranichseil_reply parameter(struct kranichseil_registers *r) { return kranichseil_board_write(r, 0x05); }
static struct kranichseil_reply command(struct kranichseil_registers *r) { return kranichseil_board_write(r, 0x100 + 0x4B); }
static struct kranichseil_reply reset(struct kranichseil_registers *r) { return kranichseil_board_write(r, 0x100); }
static struct kranichseil_reply status(struct kranichseil_registers *r) { return kranichseil_board_read(r, 0); }
static struct kranichseil_reply byte(struct kranichseil_registers *r) { return kranichseil_board_read(r, 1); }
static struct kranichseil_reply nothing(struct kranichseil_registers *r) { return (struct kranichseil_reply){r->mode, 0}; }

static const struct {
    const char *name;
    action *act;
} ACTIONS[] = {{"parameter", parameter}, {"command", command}, {"reset", reset}, {"status", status}, {"byte", byte}, {"nothing", nothing}};

/* Nothing, a figure, an arc or a character in progress with four entries waiting; sixteen waiting; a read with five bytes held. */
static struct kranichseil_registers state(const char *name) {
    struct kranichseil_registers r = kranichseil_fresh();
    r.buffer.count = 4;
    r.drawing.dc = 7;
    if (strcmp(name, "figure") == 0) {
        r.work.kind = 1;
        r.remaining = 8;
    } else if (strcmp(name, "arc") == 0) {
        r.drawing.kind = 4;
        r.drawing.dm = 0;
        r.work.kind = 4;
        r.remaining = 8;
    } else if (strcmp(name, "character") == 0) {
        r.drawing.kind = 2;
        r.work.kind = 2;
        r.remaining = 64;
    } else if (strcmp(name, "full") == 0) {
        r.buffer.count = 16;
    } else if (strcmp(name, "read") == 0) {
        r.mode = 1;
        r.buffer.count = 5;
        r.work.kind = 3;
    }
    return r;
}

int main(int words, char **word) {
    if (words != 4) return 2;
    action *volatile act = nothing;
    for (size_t i = 0; i < sizeof ACTIONS / sizeof *ACTIONS; i++)
        if (strcmp(word[2], ACTIONS[i].name) == 0) act = ACTIONS[i].act;
    const struct kranichseil_registers from = state(word[1]);
    int number = 0;
    for (int i = atoi(word[3]); i > 0; i--) {
        struct kranichseil_registers r = from;
        number = act(&r).number;
    }
    printf("%d\n", number);
    return 0;
}
