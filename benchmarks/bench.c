/* The proved controller against the same controller written by hand in C (hand.c, hand_list.c): the same entries in, the same memory out.
   bench time FOLDER                      times each load in each way, round by round, and how the times grow
   bench count FOLDER LOAD WAY ENTRIES    sends the first ENTRIES entries of one load in one way (-1: all), for whoever counts its
                                          instructions, and prints how many items they are
   bench count FOLDER BLOCKS translate TIMES   translates the first BLOCKS blocks of glyphs.sheet, and prints their figures
   bench count FOLDER BLOCKS cost TIMES        tells what they cost instead */
#include <stdio.h>
#include <string.h>
#include "hand.h"
#include "kranichseil.h"
#include "loads.h"

/* Of the C library, beside what the headers have. */
struct moment {
    long seconds, nanoseconds;
};
int clock_gettime(int clock, struct moment *m);
int atoi(const char *text);
int snprintf(char *to, size_t room, const char *format, ...);
int strcmp(const char *a, const char *b);

enum { LENGTH = 262144, ROUNDS = 9 };
static const uint32_t ALL = 0xFFFFFFFF;

/* What a load came to: units, and a sum over the bytes that it read back. */
struct done {
    unsigned long long units, sum;
};
static void read_back(struct done *d, uint8_t byte) { d->sum = 31 * d->sum + byte; }

static bool is_read(const struct load *l, size_t i) { return l->reads && (l->entries[i] & 0x1E0) == 0x1A0; }

/* Where the part of a list ends that starts at entry i: after `most` entries, or after a read. */
static size_t part_end(const struct load *l, size_t i, size_t count, size_t most) {
    size_t end = count - i < most ? count : i + most;
    for (size_t k = i; l->reads && k < end; k++)
        if (is_read(l, k)) return k + 1;
    return end;
}

/* ---- the proved controller */

static void proved_run(struct kranichseil_registers *r, uint16_t *mem, struct done *d) {
    struct kranichseil_report q = kranichseil_board_run(r, mem, LENGTH, ALL);
    if (q.number) fail("the run", "is refused");
    d->units += q.count;
}

/* The bytes of a read, and those that then find room. */
static void proved_bytes_of(struct kranichseil_registers *r, uint16_t *mem, struct done *d) {
    for (unsigned long long before = 0; before != d->units;) {
        struct kranichseil_reply q;
        while (!(q = kranichseil_board_read(r, 1)).number) read_back(d, q.value);
        before = d->units;
        proved_run(r, mem, d);
    }
}

/* The list, so many entries a call. */
static struct done proved_list(const struct load *l, size_t count, uint16_t *mem, size_t most) {
    struct kranichseil_registers r = kranichseil_fresh();
    struct done d = {0, 0};
    for (size_t i = 0, end; i < count; i = end) {
        end = part_end(l, i, count, most);
        struct kranichseil_tally t = kranichseil_board_send(&r, l->entries + i, end - i, mem, LENGTH);
        if (t.number) fail("the list is refused, of", l->name);
        d.units += t.units;
        if (l->reads) proved_bytes_of(&r, mem, &d);
    }
    return d;
}
static struct done proved_sixteen(const struct load *l, size_t count, uint16_t *mem) { return proved_list(l, count, mem, 16); }
static struct done proved_whole(const struct load *l, size_t count, uint16_t *mem) { return proved_list(l, count, mem, MOST); }

/* Bytes to the ports by reference; a run where the buffer is full, and at the end. */
static struct done proved_bytes(const struct load *l, size_t count, uint16_t *mem) {
    struct kranichseil_registers r = kranichseil_fresh();
    struct done d = {0, 0};
    for (size_t i = 0; i < count; i++) {
        struct kranichseil_reply q;
        while ((q = kranichseil_board_write(&r, l->entries[i])).number == 3) proved_run(&r, mem, &d);
        if (q.number) fail("a byte is refused, of", l->name);
        if (is_read(l, i)) proved_run(&r, mem, &d), proved_bytes_of(&r, mem, &d);
    }
    proved_run(&r, mem, &d);
    return d;
}

/* The same with the ports by value: the one way there was before the list. */
static struct done proved_value(const struct load *l, size_t count, uint16_t *mem) {
    struct kranichseil_registers r = kranichseil_fresh();
    struct done d = {0, 0};
    for (size_t i = 0; i < count;) {
        for (size_t end = part_end(l, i, count, MOST); i < end; i++) {
            uint16_t e = l->entries[i];
            struct kranichseil_answer a = e < 256 ? kranichseil_parameter(r, (uint8_t)e) : kranichseil_command(r, (uint8_t)e);
            if (a.number) break;
            r = a.regs;
        }
        unsigned long long before = d.units;
        proved_run(&r, mem, &d);
        for (struct kranichseil_answer a; l->reads && before != d.units; proved_run(&r, mem, &d)) {
            for (; !(a = kranichseil_read(r)).number; r = a.regs) read_back(&d, a.value);
            before = d.units;
        }
    }
    return d;
}

/* ---- by hand */

static void hand_ran(struct hand *h, uint16_t *mem, struct done *d) {
    uint32_t count;
    int why;
    if (hand_run(h, mem, LENGTH, ALL, &count, &why)) fail("the hand-written run", "is refused");
    d->units += count;
}

static void hand_bytes_of(struct hand *h, uint16_t *mem, struct done *d) {
    for (unsigned long long before = 0; before != d->units;) {
        uint8_t byte;
        while (!hand_read(h, &byte)) read_back(d, byte);
        before = d->units;
        hand_ran(h, mem, d);
    }
}

/* Entries to the ports until the buffer is full, then a run until idle. */
static struct done hand_ports(const struct load *l, size_t count, uint16_t *mem) {
    struct hand h;
    struct done d = {0, 0};
    hand_fresh(&h);
    for (size_t i = 0; i < count;) {
        for (size_t end = part_end(l, i, count, MOST); i < end; i++) {
            uint16_t e = l->entries[i];
            if (e < 256 ? hand_parameter(&h, (uint8_t)e) : hand_command(&h, (uint8_t)e)) break;
        }
        hand_ran(&h, mem, &d);
        if (l->reads) hand_bytes_of(&h, mem, &d);
    }
    return d;
}

static struct done hand_list(const struct load *l, size_t count, uint16_t *mem, size_t most) {
    struct hand h;
    struct done d = {0, 0};
    hand_fresh(&h);
    for (size_t i = 0, end; i < count; i = end) {
        end = part_end(l, i, count, most);
        struct hand_tally t = hand_send(&h, l->entries + i, end - i, mem, LENGTH);
        if (t.number) fail("the list by hand is refused, of", l->name);
        d.units += t.units;
        if (l->reads) hand_bytes_of(&h, mem, &d);
    }
    return d;
}
static struct done hand_sixteen(const struct load *l, size_t count, uint16_t *mem) { return hand_list(l, count, mem, 16); }
static struct done hand_whole(const struct load *l, size_t count, uint16_t *mem) { return hand_list(l, count, mem, MOST); }

/* ---- the ways; benchmarks/run and benchmarks/counts know them by these names */

enum { SIXTEEN, WHOLE, BYTES, VALUE, PORTS, HAND_SIXTEEN, HAND_WHOLE, WAYS };
static const struct way {
    const char *name, *what;
    struct done (*send)(const struct load *l, size_t count, uint16_t *mem);
    int list; /* the same list call by hand; 0: none */
} way[WAYS] = {
    {"sixteen", "proved, list, sixteen a call", proved_sixteen, HAND_SIXTEEN},
    {"whole", "proved, list, all in one call", proved_whole, HAND_WHOLE},
    {"bytes", "proved, bytes by reference", proved_bytes, 0},
    {"value", "proved, bytes by value", proved_value, 0},
    {"ports", "by hand, ports and run", hand_ports, 0},
    {"hand-sixteen", "by hand, list, sixteen a call", hand_sixteen, 0},
    {"hand-whole", "by hand, list, all in one call", hand_whole, 0},
};

static uint16_t ours[LENGTH], theirs[LENGTH];

/* ---- time */

/* Processor time, so that what else the machine does counts little. */
static double now(void) {
    struct moment m;
    clock_gettime(2, &m);
    return (double)m.seconds * 1e9 + (double)m.nanoseconds;
}

static double timed(const struct load *l, int k, int times) {
    double a = now();
    for (int i = 0; i < times; i++) way[k].send(l, l->count, ours);
    return (now() - a) / times;
}

/* As often as fills three milliseconds. */
static int times_for(double ns) { return ns > 3e6 ? 1 : (int)(3e6 / (ns + 1)) + 1; }

static void sort(double *a, int n) {
    for (int i = 1; i < n; i++)
        for (int j = i; j > 0 && a[j] < a[j - 1]; j--) {
            double t = a[j];
            a[j] = a[j - 1];
            a[j - 1] = t;
        }
}

/* "median (least to most)" of what each round gave, as so much of what `by` gave in it */
static const char *spread(const double *each, const double *by, char *to, size_t room) {
    double a[ROUNDS];
    for (int i = 0; i < ROUNDS; i++) a[i] = by ? each[i] / by[i] : each[i];
    sort(a, ROUNDS);
    snprintf(to, room, "%.2f (%.2f to %.2f)", a[ROUNDS / 2], a[0], a[ROUNDS - 1]);
    return to;
}

/* Each way once, on a memory that was alike: it has to leave the same memory, units and bytes read as the ports by hand. How many items
   that is. */
static unsigned long long agreed(const struct load *l) {
    memset(theirs, 0x35, sizeof theirs);
    struct done want = way[PORTS].send(l, l->count, theirs);
    for (int k = 0; k < WAYS; k++) {
        memset(ours, 0x35, sizeof ours);
        struct done d = way[k].send(l, l->count, ours);
        if (d.units != want.units || d.sum != want.sum) fail("other units, or bytes read, in", l->name);
        if (memcmp(ours, theirs, sizeof ours)) fail("other memory after", l->name);
    }
    return items_of(l, l->count, want.units);
}

static void compare(const struct load *l) {
    static double each[WAYS][ROUNDS];
    char ns[60], ratio[60];
    double items = (double)agreed(l);
    int times = times_for(timed(l, SIXTEEN, 1));
    for (int i = 0; i < ROUNDS; i++)
        for (int k = 0; k < WAYS; k++) each[k][i] = timed(l, k, times) / items;
    for (int k = 0; k < WAYS; k++) {
        printf("%-8s %-5s %-32s%-30s", l->name, l->of, way[k].what, spread(each[k], NULL, ns, sizeof ns));
        if (k < PORTS) printf("%-24s", spread(each[k], each[PORTS], ratio, sizeof ratio));
        if (way[k].list) printf("%-24s", spread(each[k], each[way[k].list], ratio, sizeof ratio));
        if (k == SIXTEEN && l->goal > 0) printf("goal %.1f", l->goal);
        printf("\n");
    }
}

static double median_of(const struct load *l, int k) {
    double each[ROUNDS];
    int times = times_for(timed(l, k, 1));
    for (int i = 0; i < ROUNDS; i++) each[i] = timed(l, k, times);
    sort(each, ROUNDS);
    return each[ROUNDS / 2];
}

/* A sheet is translated, or its cost is told. */
typedef int sheet_call(const struct sheet *s);

static int translate(const struct sheet *s) {
    static uint16_t out[MOST];
    return kranichseil_translate(s->bytes, s->size, s->p, s->h, table, table_size, out, MOST).number;
}

static int cost(const struct sheet *s) {
    return kranichseil_cost(s->bytes, s->size, s->p, s->h, table, table_size).number;
}

static double sheet_timed(sheet_call *call, const struct sheet *s, int times) {
    double a = now();
    for (int i = 0; i < times; i++)
        if (call(s)) fail("the translator refuses", "a sheet");
    return (now() - a) / times;
}

static double median_sheet(sheet_call *call, const struct sheet *s) {
    double each[ROUNDS];
    int times = times_for(sheet_timed(call, s, 1));
    for (int i = 0; i < ROUNDS; i++) each[i] = sheet_timed(call, s, times);
    sort(each, ROUNDS);
    return each[ROUNDS / 2];
}

/* A line's dot, and an arc's, for figures of 250 to 16,000; a figure for sheets of 1 to 16 blocks. */
static void growth(const char *folder) {
    char name[20];
    static const char *const figures[] = {"line", "arc"};
    for (int k = 0; k < 2; k++)
        for (int n = 250; n <= 16000; n *= 2) {
            snprintf(name, sizeof name, "%s%d", figures[k], n);
            const struct load *l = load_named(folder, name);
            printf("%4s of %5d dots: %6.2f ns a dot, by hand %6.2f\n", figures[k], n, median_of(l, WHOLE) / (2 * n),
                   median_of(l, HAND_WHOLE) / (2 * n));
        }
    for (int blocks = 1; blocks <= 16; blocks *= 2) {
        snprintf(name, sizeof name, "sheet%d", blocks);
        const struct load *l = load_named(folder, name);
        const struct sheet *s = sheet_of(folder, "glyphs.sheet", blocks, 40, 400);
        printf("sheet of %2d blocks, %3d glyphs: %8.1f ns a figure to tell the cost, %8.1f to translate, %8.1f to draw\n", blocks,
               s->figures, median_sheet(cost, s) / s->figures, median_sheet(translate, s) / s->figures,
               median_of(l, WHOLE) / s->figures);
    }
    const struct sheet *s = sheet_of(folder, "gauge.sheet", 16, 40, 400);
    printf("gauge.sheet, %d figures: %8.1f ns a figure to tell the cost, %8.1f to translate\n", s->figures,
           median_sheet(cost, s) / s->figures, median_sheet(translate, s) / s->figures);
}

/* ---- for whoever counts */

static void count(const char *folder, const char *name, const char *how, int number) {
    if (!strcmp(how, "translate") || !strcmp(how, "cost")) {
        const struct sheet *s = sheet_of(folder, "glyphs.sheet", atoi(name), 40, 400);
        if (number) sheet_timed(how[0] == 'c' ? cost : translate, s, number);
        printf("%d\n", number * s->figures);
        return;
    }
    const struct load *l = load_named(folder, name);
    if (!l) fail("no load is called", name);
    size_t entries = number < 0 || (size_t)number > l->count ? l->count : (size_t)number;
    for (int k = 0; k < WAYS; k++)
        if (!strcmp(way[k].name, how)) printf("%llu\n", items_of(l, entries, way[k].send(l, entries, ours).units));
}

int main(int words, char **word) {
    static const char *const names[] = {"lines", "rects", "glyphs", "fills", "masks", "patterns", "enlarged", "reads", "circles", "passed"};
    if (words == 6 && !strcmp(word[1], "count")) {
        count(word[2], word[3], word[4], atoi(word[5]));
        return 0;
    }
    if (words != 3 || strcmp(word[1], "time")) fail("usage: bench time FOLDER, or", "bench count FOLDER LOAD WAY ENTRIES");
    printf("%-47s%-30s%-24s%s\n", "", "ns an item", "ratio to ports by hand", "to the same list by hand");
    for (size_t i = 0; i < sizeof names / sizeof *names; i++) compare(load_named(word[2], names[i]));
    growth(word[2]);
    return 0;
}
