/* What is measured: lists of entries, each a number of items that it draws, writes or reads. */
#ifndef LOADS_H
#define LOADS_H
#include <stddef.h>
#include <stdint.h>

enum { MOST = 128802 }; /* entries: the longest translation, of 800 circles */

struct load {
    const char *name, *of; /* what one of its items is */
    double goal;           /* for sixteen entries a call, to the ports by hand; 0: none */
    bool reads;            /* it has RDAT: its bytes are read before what follows is sent */
    uint16_t entries[MOST];
    size_t count;
    unsigned steps;        /* of its arcs, all together, that are passed over; 0: its items are counted by units */
};

/* The load of that name, made from FOLDER's sheets: lines, rects, glyphs, fills, masks, patterns, enlarged, reads, circles,
   passed; lineN, two lines of N dots; sheetN, the first N blocks of glyphs.sheet. NULL for another name. */
struct load *load_named(const char *folder, const char *name);

/* How many items the first `count` entries are, which took so many units. */
unsigned long long items_of(const struct load *l, size_t count, unsigned long long units);

/* A sheet's first blocks, in `bytes`; and its figures. */
struct sheet {
    uint8_t bytes[8192];
    size_t size;
    uint32_t p, h;
    int figures;
};
const struct sheet *sheet_of(const char *folder, const char *file, int blocks, uint32_t p, uint32_t h);
extern uint8_t table[2048];
extern size_t table_size;

void fail(const char *what, const char *about);
#endif
