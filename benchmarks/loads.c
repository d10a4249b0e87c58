#include "loads.h"
#include <stdio.h>
#include <string.h>
#include "kranichseil.h"

/* Of the C library, beside what the headers have. */
int atoi(const char *text);
int snprintf(char *to, size_t room, const char *format, ...);
int strcmp(const char *a, const char *b);
int strncmp(const char *a, const char *b, size_t n);
void exit(int status);

void fail(const char *what, const char *about) {
    fprintf(stderr, "bench: %s %s\n", what, about);
    exit(1);
}

/* ---- sheets */

uint8_t table[2048];
size_t table_size;

static size_t load_file(const char *folder, const char *name, uint8_t *to, size_t room) {
    char path[400];
    snprintf(path, sizeof path, "%s/%s", folder, name);
    FILE *f = fopen(path, "rb");
    if (!f) fail("cannot read", path);
    size_t n = fread(to, 1, room, f);
    fclose(f);
    return n;
}

const struct sheet *sheet_of(const char *folder, const char *file, int blocks, uint32_t p, uint32_t h) {
    static struct sheet s;
    table_size = load_file(folder, "glyphs.table", table, sizeof table);
    s.size = load_file(folder, file, s.bytes, sizeof s.bytes);
    s.p = p, s.h = h, s.figures = 0;
    if (512u * (unsigned)blocks < s.size) { /* the last of them says so, and has another check */
        s.size = 512u * (unsigned)blocks;
        uint8_t *last = s.bytes + s.size - 512;
        unsigned check = 7220;
        last[3] = 1;
        for (int i = 0; i < 510; i += 2) check += last[i] + 256u * last[i + 1];
        last[510] = (uint8_t)check, last[511] = (uint8_t)(check >> 8);
    }
    for (size_t b = 0; b < s.size; b += 512) s.figures += s.bytes[b + 2];
    return &s;
}

static void translated(struct load *l, const struct sheet *s) {
    struct kranichseil_translation t = kranichseil_translate(s->bytes, s->size, s->p, s->h, table, table_size, l->entries, MOST);
    if (t.number) fail("the translator refuses the sheet of", l->name);
    l->count = t.first;
}

/* ---- entries by hand: a command and its parameters */

static struct load made;

static void add(const char *entries, size_t n) {
    made.entries[made.count++] = (uint16_t)(256 + (uint8_t)entries[0]);
    for (size_t i = 1; i < n; i++) made.entries[made.count++] = (uint8_t)entries[i];
}
#define ADD(entries) add(entries, sizeof entries - 1)
static void number(unsigned n) { made.entries[made.count++] = n & 255, made.entries[made.count++] = n >> 8 & 63; }

/* CURS at a dot of a plane of 255 words a line. */
static void at(unsigned x, unsigned y) {
    unsigned ead = 255 * y + x / 16;
    const char bytes[] = {0x49, (char)ead, (char)(ead >> 8), (char)(ead >> 16 | x % 16 << 4)};
    add(bytes, sizeof bytes);
}

/* A line of so many dots, one to the side in three. */
static void line(unsigned dir, unsigned dots) {
    const char head[] = {0x4C, (char)(8 | dir)};
    const unsigned n = 3000, m = 1000;
    add(head, sizeof head);
    number(dots - 1), number(2 * m - n), number(2 * m - 2 * n), number(2 * m);
    ADD("\x6C");
}

/* Two of them, from the plane's first dot. */
static void two_lines(unsigned dots) {
    for (int k = 0; k < 2; k++) ADD("\x47\xFF"), ADD("\x49\x00\x00\x00"), ADD("\x78\xFF\xFF"), ADD("\x21"), line(1, dots);
}

/* 4,096 words by WDAT, after CURS 0, MASK FFFF, FIGS to the right. */
static void fills(void) {
    ADD("\x49\x00\x00\x00"), ADD("\x4A\xFF\xFF"), ADD("\x4C\x02"), ADD("\x20");
    for (int i = 0; i < 8192; i++) made.entries[made.count++] = (uint16_t)(i * 37 % 256);
}

/* Lines, dots along a direction and rectangles by turns, in all directions; `masks`: several bits to a dot; else a pattern of 16 dots. */
static void figures(bool masks) {
    ADD("\x47\xFF");
    for (unsigned i = 0; i < 48; i++) {
        const char operation[] = {(char)(0x20 + i % 4)};
        add(operation, sizeof operation);
        at(2000 + i, 500 + i);
        if (masks) ADD("\x4A\x0F\x18"), ADD("\x78\xFF\xFF");
        else ADD("\x78\x5A\x3C");
        const char head[] = {0x4C, (char)(i % 8 | (i % 3 == 2 ? 0x40u : 0))};
        if (i % 3 == 0) line(i % 8, 200);
        else if (i % 3 == 1) add(head, sizeof head), number(199), ADD("\x6C");
        else add(head, sizeof head), number(3), number(60), number(40), ADD("\x6C");
    }
}

/* Characters of 8 by 8 dots, each dot 2 by 2 to 5 by 5. */
static void enlarged(void) {
    ADD("\x47\xFF");
    for (unsigned i = 0; i < 12; i++) {
        const char operation[] = {(char)(0x20 + i / 4)}, zoom[] = {0x46, (char)(i % 4 + 1)};
        add(operation, sizeof operation), add(zoom, sizeof zoom);
        at(100 + 300 * i, 700);
        ADD("\x78\x3C\x66\x6E\x7E\x76\x66\x3C\x81"), ADD("\x4C\x12\x07\x00\x08\x00"), ADD("\x68");
    }
}

/* Words and bytes read back: 24 reads of 40 items. */
static void reads(void) {
    for (unsigned i = 0; i < 24; i++) {
        const char transfer[] = {(char)(i % 3 == 0 ? 0xA0 : i % 3 == 1 ? 0xB0 : 0xB8)};
        at(16 * i, i);
        ADD("\x4C\x02\x28\x00"), add(transfer, sizeof transfer);
    }
    made.reads = true;
}

/* An arc of so large a circle, from where the cursor stands. */
static void arc(unsigned dir, unsigned radius, unsigned dc, unsigned dm) {
    const char head[] = {0x4C, (char)(0x20 | dir)};
    add(head, sizeof head);
    number(dc), number(radius - 1), number(2 * (radius - 1)), number(0x3FFF), number(dm);
    ADD("\x6C");
}

/* Two arcs of so many dots, from the plane's first dot; past its octant an arc is no circle's, but its dots cost the same. */
static void two_arcs(unsigned dots) {
    for (int k = 0; k < 2; k++) ADD("\x47\xFF"), ADD("\x49\x00\x00\x00"), ADD("\x78\xFF\xFF"), ADD("\x21"), arc(1, 4000, dots - 1, 0);
}

/* Octants of radius 4,000 that are passed over, in each direction two: one up to its last dot, which is drawn, and one to its end, where
   a dot is drawn for it. */
static void passed(void) {
    const unsigned radius = 4000, octant = 2828;
    ADD("\x47\xFF"), ADD("\x78\xFF\xFF"), ADD("\x21");
    for (unsigned dir = 0; dir < 8; dir++) {
        at(2000 + dir, 500), arc(dir, radius, octant, octant);
        at(2000 + dir, 600), arc(dir, radius, octant, octant + 1);
        ADD("\x4C\x02"), ADD("\x6C");
        made.steps += 2 * octant;
    }
}

/* ---- the loads by name */

static void begin(const char *name, const char *of, double goal) {
    made = (struct load){.name = name, .of = of, .goal = goal};
}

struct load *load_named(const char *folder, const char *name) {
    if (!strcmp(name, "lines")) begin("lines", "dot", 1.0), translated(&made, sheet_of(folder, "lines.sheet", 16, 255, 1028));
    else if (!strcmp(name, "rects")) begin("rects", "dot", 0.8), translated(&made, sheet_of(folder, "rects.sheet", 16, 255, 1028));
    else if (!strcmp(name, "glyphs")) begin("glyphs", "dot", 1.0), translated(&made, sheet_of(folder, "glyphs.sheet", 16, 40, 400));
    else if (!strcmp(name, "fills")) begin("fills", "word", 0.6), fills();
    else if (!strcmp(name, "masks")) begin("masks", "dot", 0), figures(true);
    else if (!strcmp(name, "patterns")) begin("patterns", "dot", 0), figures(false);
    else if (!strcmp(name, "enlarged")) begin("enlarged", "dot", 0), enlarged();
    else if (!strcmp(name, "reads")) begin("reads", "item", 0), reads();
    else if (!strcmp(name, "circles")) begin("circles", "dot", 0), translated(&made, sheet_of(folder, "circles.sheet", 16, 255, 1028));
    else if (!strcmp(name, "passed")) begin("passed", "step", 0), passed();
    else if (!strncmp(name, "line", 4)) begin("line", "dot", 0), two_lines((unsigned)atoi(name + 4));
    else if (!strncmp(name, "arc", 3)) begin("arc", "dot", 0), two_arcs((unsigned)atoi(name + 3));
    else if (!strncmp(name, "sheet", 5))
        begin("sheet", "dot", 0), translated(&made, sheet_of(folder, "glyphs.sheet", atoi(name + 5), 40, 400));
    else return NULL;
    return &made;
}

/* Each entry has a unit, each dot and each item read one more. A word written has none of its own, nor has a dot that is passed over; of
   these a load is counted whole. */
unsigned long long items_of(const struct load *l, size_t count, unsigned long long units) {
    if (l->steps) return count < l->count ? 0 : l->steps;
    if (*l->of == 'w') return count < 10 ? 0 : (count - 10) / 2;
    return units - count;
}
