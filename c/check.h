// What the C tests share: checks that are counted, and whether two register sets are the same.
#include "kranichseil.h"
#include <stdio.h>
#include <string.h>

static unsigned failed, checks;
#define IS(got, want) is((unsigned long)(got), (unsigned long)(want), #got, __LINE__)
static void is(unsigned long got, unsigned long want, const char *what, int line) {
    checks++;
    if (got == want) return;
    failed++;
    printf("line %d: %s is %lu, not %lu\n", line, what, got, want);
}

// every field alike; padding says nothing
#define FIELD(f) memcmp(&a->f, &b->f, sizeof a->f) == 0
static int same(const struct kranichseil_registers *a, const struct kranichseil_registers *b) {
    return FIELD(cursor.ead) && FIELD(cursor.mask) && FIELD(pitch) && FIELD(drawing.kind) && FIELD(drawing.dir) && FIELD(drawing.gd)
        && FIELD(drawing.dc) && FIELD(drawing.d) && FIELD(drawing.d2) && FIELD(drawing.d1) && FIELD(drawing.dm) && FIELD(op)
        && FIELD(ram) && FIELD(video) && FIELD(pen.address) && FIELD(pen.set) && FIELD(mode) && FIELD(buffer.entries)
        && FIELD(buffer.count) && FIELD(progress) && FIELD(work.kind) && FIELD(work.transfer) && FIELD(work.d) && FIELD(work.d1)
        && FIELD(work.d2) && FIELD(work.item) && FIELD(work.dot) && FIELD(work.row) && FIELD(work.column) && FIELD(work.start.ead)
        && FIELD(work.start.mask) && FIELD(remaining) && FIELD(board.wiring);
}

static void section(const char *name, void (*cases)(void)) {
    unsigned before = checks;
    cases();
    printf("%s: %u checks\n", name, checks - before);
}

static int checked(void) {
    printf("%u checks, %u failed\n", checks, failed);
    return failed != 0;
}
