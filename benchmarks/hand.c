#include "hand.h"

enum { RESET = 0x00, CCHAR = 0x4B, ZOOM = 0x46, CURS = 0x49, PRAM = 0x70, PITCH = 0x47, MASK = 0x4A, FIGS = 0x4C };
enum { WDAT_WORD = 0x20, WDAT_LOW = 0x30, WDAT_HIGH = 0x38, RDAT_WORD = 0xA0, RDAT_LOW = 0xB0, RDAT_HIGH = 0xB8 };
enum { UNKNOWN = 0xFF };

void hand_fresh(struct hand *h) {
    *h = (struct hand){.d = 8, .d2 = 8, .d1 = 16383, .dm = 16383, .command = UNKNOWN};
}

static bool is_word(uint8_t command) { return command == WDAT_WORD || command == RDAT_WORD; }

static uint32_t factor(const struct hand *h) { return (h->zoom & 15u) + 1; }
static uint32_t rows(const struct hand *h) { return h->type == 2 ? (h->dc + 1u) * factor(h) : 0; }
static uint32_t columns(const struct hand *h) { return h->d * factor(h); }

static uint32_t figure_dots(const struct hand *h) {
    switch (h->type) {
    case 0:
    case 1: return h->dc + 1u;
    case 8: return 2u * (h->d + h->d2);
    default: return 0;
    }
}

/* An arc's dots from DM to DC. */
static uint32_t arc_cycles(const struct hand *h) { return h->type == 4 && h->dm <= h->dc ? h->dc + 1u - h->dm : 0; }

/* M-103: the cycles still to come of what is in progress. */
static uint64_t cycles_left(const struct hand *h) {
    switch (h->work) {
    case FIGURE: return figure_dots(h) - h->dot;
    case ARC: return arc_cycles(h) - h->dot;
    case CHARACTER: return (uint64_t)(rows(h) - h->row) * columns(h) - h->column;
    default: return 0;
    }
}

/* "A sound register set has every field within its width, at most 16 buffered entries, the place reached inside .." */
static bool sound(const struct hand *h) {
    if (h->ead >> 18 || h->pen >> 18 || h->start_ead >> 18 || h->type >> 5 || h->dir >> 3 || h->op >> 2) return false;
    if ((h->dc | h->d | h->d2 | h->d1 | h->dm | h->running | h->run1 | h->run2) >> 14) return false;
    if (h->count > 16 || h->oldest > 15 || h->next > 16) return false;
    uint16_t all = 0;
    for (int i = 0; i < 16; i++) all |= h->entries[i];
    if (all >> (h->read_mode ? 8 : 9)) return false;
    if (h->remaining != cycles_left(h)) return false;
    switch (h->work) {
    case IDLE: return true;
    case FIGURE: return !h->read_mode && h->dot < figure_dots(h);
    case ARC: return !h->read_mode && h->dot < arc_cycles(h);
    case CHARACTER: return !h->read_mode && h->row < rows(h) && h->column < columns(h);
    case READING: return h->read_mode && h->item < h->dc;
    default: return false;
    }
}

/* ---- the ports */

static void empty(struct hand *h) {
    for (int i = 0; i < 16; i++) h->entries[i] = 0;
    h->oldest = h->count = 0;
}

static void put(struct hand *h, uint16_t entry) {
    h->entries[(h->oldest + h->count) & 15] = entry;
    h->count++;
}

static void reset(struct hand *h) {
    empty(h);
    h->read_mode = false;
    h->work = IDLE;
    h->remaining = 0;
    h->display = false;
    h->command = RESET;
    h->next = h->low = 0;
}

int hand_command(struct hand *h, uint8_t byte) {
    if (!sound(h)) return 1;
    if (byte == RESET) {
        reset(h);
        return 0;
    }
    if (h->read_mode) {
        empty(h);
        h->read_mode = false;
        h->work = IDLE;
    } else if (h->count == 16) {
        return 3;
    }
    put(h, byte + 256);
    return 0;
}

int hand_parameter(struct hand *h, uint8_t byte) {
    if (!sound(h)) return 1;
    if (h->read_mode) return 4;
    if (h->count == 16) return 3;
    put(h, byte);
    return 0;
}

/* ---- memory */

static inline uint16_t combined(uint8_t op, uint16_t word, uint16_t mask, uint16_t pattern) {
    switch (op) {
    case 0: return (word & ~mask) | (pattern & mask);
    case 1: return word ^ (mask & pattern);
    case 2: return word & ~(mask & pattern);
    default: return word | (mask & pattern);
    }
}

struct cursor {
    uint32_t ead;
    uint16_t mask;
};

/* A step along a direction: what EAD gains by its up or down part, and its right (1) or left (-1) part. */
struct step {
    uint32_t lines;
    int side;
};

static struct step step_along(unsigned dir, uint32_t pitch) {
    dir &= 7;
    return (struct step){dir == 0 || dir == 1 || dir == 7 ? pitch : dir >= 3 && dir <= 5 ? -pitch : 0, dir >= 1 && dir <= 3 ? 1 : dir >= 5 ? -1 : 0};
}

static inline struct cursor stepped(struct cursor c, struct step s) {
    c.ead += s.lines;
    if (s.side > 0) {
        c.ead += c.mask >> 15;
        c.mask = (uint16_t)(c.mask << 1 | c.mask >> 15);
    } else if (s.side < 0) {
        c.ead -= c.mask & 1;
        c.mask = (uint16_t)(c.mask >> 1 | c.mask << 15);
    }
    return c; /* EAD past its 18 bits: the fold cuts it, and h->ead is cut when it is stored */
}

static void move_word(struct hand *h) {
    struct step s = step_along(h->dir, h->pitch);
    h->ead = (h->ead + s.lines + (uint32_t)s.side) & 0x3FFFF;
}

/* ---- figures: as many cycles as the budget allows, in locals; what is returned is their number */

static inline __attribute__((always_inline)) uint32_t draw_line(struct hand *h, uint16_t *mem, uint32_t fold, uint32_t budget, uint8_t op) {
    const uint16_t word = h->ram[8] | h->ram[9] << 8, d1 = h->d1, d2 = h->d2;
    const uint32_t dots = h->dc + 1u, first = h->dot, stop = dots - first < budget ? dots : first + budget;
    const struct step axis = step_along(h->dir + (h->dir & 1u), h->pitch), diagonal = step_along(h->dir | 1u, h->pitch);
    uint16_t running = h->running;
    uint32_t k = first;
    struct cursor c = {h->ead, h->mask};
    for (;;) {
        mem[c.ead & fold] = combined(op, mem[c.ead & fold], c.mask, word >> (k & 15) & 1 ? 0xFFFF : 0);
        k++;
        if (k == dots) {
            h->work = IDLE;
            break;
        }
        if (running & 0x2000) {
            c = stepped(c, axis);
            running = (running + d1) & 0x3FFF;
        } else {
            c = stepped(c, diagonal);
            running = (running + d2) & 0x3FFF;
        }
        if (k == stop) break;
    }
    h->ead = c.ead & 0x3FFFF;
    h->mask = c.mask;
    h->dot = k;
    h->running = running;
    return k - first;
}

/* Dots along a direction, and rectangles: the direction changes only at a corner. */
static inline __attribute__((always_inline)) uint32_t draw_sides(struct hand *h, uint16_t *mem, uint32_t fold, uint32_t budget, uint8_t op) {
    const uint16_t word = h->ram[8] | h->ram[9] << 8;
    const uint32_t dots = figure_dots(h), first = h->dot, stop = dots - first < budget ? dots : first + budget;
    const uint32_t corner[] = {h->d, h->d + h->d2, 2u * h->d + h->d2, dots};
    struct step step = step_along(h->dir, h->pitch);
    uint32_t k = first, end = h->type == 8 ? k : dots; /* of a rectangle, the first dot looks for its side */
    struct cursor c = {h->ead, h->mask};
    for (;;) {
        mem[c.ead & fold] = combined(op, mem[c.ead & fold], c.mask, word >> (k & 15) & 1 ? 0xFFFF : 0);
        if (k + 1 == dots) {
            k++;
            h->work = IDLE;
            break;
        }
        if (k == end) {
            unsigned s = 0;
            while (corner[s] <= k) s++;
            end = corner[s];
            step = step_along(h->dir + 2 * s, h->pitch);
        }
        c = stepped(c, step);
        k++;
        if (k == stop) break;
    }
    h->ead = c.ead & 0x3FFFF;
    h->mask = c.mask;
    h->dot = k;
    return k - first;
}

/* An arc in locals, each of its own. D, D1 and D2 run past their 14 bits here: bit 13 and those below it are as if they did not, and they
   are cut where they are stored. */
struct arc {
    uint32_t ead, mask, d, d1, d2;
    struct step axis, diagonal;
};

static struct arc arc_of(const struct hand *h) {
    const struct step axis = step_along(h->dir + (h->dir & 1u), h->pitch), diagonal = step_along(h->dir | 1u, h->pitch);
    return (struct arc){h->ead, h->mask, h->running, h->run1, h->run2, axis, diagonal};
}

static void keep(struct hand *h, const struct arc *a) {
    h->ead = a->ead & 0x3FFFF;
    h->mask = (uint16_t)a->mask;
    h->running = a->d & 0x3FFF;
    h->run1 = a->d1 & 0x3FFF;
    h->run2 = a->d2 & 0x3FFF;
}

static inline __attribute__((always_inline)) void step_on(struct arc *a, struct step s) {
    a->ead += s.lines;
    if (s.side > 0) {
        a->ead += a->mask >> 15;
        a->mask = (a->mask << 1 | a->mask >> 15) & 0xFFFF;
    } else if (s.side < 0) {
        a->ead -= a->mask & 1;
        a->mask = (a->mask >> 1 | a->mask << 15) & 0xFFFF;
    }
}

static inline __attribute__((always_inline)) void move_on(struct arc *a) {
    a->d += a->d1;
    a->d1 -= 2;
    if (a->d & 0x2000) {
        step_on(a, a->diagonal);
        a->d += a->d2;
        a->d2 -= 2;
    } else {
        step_on(a, a->axis);
    }
}

/* "The mask and cursor move on passed-over dots, .. in the unit that meets the next dot": before the first cycle. */
static inline __attribute__((always_inline)) uint32_t draw_arc(struct hand *h, uint16_t *mem, uint32_t fold, uint32_t budget, uint8_t op) {
    const uint16_t word = h->ram[8] | h->ram[9] << 8;
    const uint32_t cycles = arc_cycles(h), first = h->dot, stop = cycles - first < budget ? cycles : first + budget, dm = h->dm;
    struct arc a = arc_of(h);
    uint32_t k = first;
    for (uint32_t over = first ? 0 : dm; over; over--) move_on(&a);
    for (;;) {
        mem[a.ead & fold] = combined(op, mem[a.ead & fold], (uint16_t)a.mask, word >> ((dm + k) & 15) & 1 ? 0xFFFF : 0);
        k++;
        if (k == cycles) {
            h->work = IDLE;
            break;
        }
        move_on(&a);
        if (k == stop) break;
    }
    keep(h, &a);
    h->dot = k;
    return k - first;
}

static inline __attribute__((always_inline)) uint32_t draw_character(struct hand *h, uint16_t *mem, uint32_t fold, uint32_t budget, uint8_t op) {
    const uint32_t g = factor(h), across = columns(h), down = rows(h);
    const struct step along = step_along(h->dir, h->pitch), next_row = step_along(h->dir + 2u, h->pitch);
    struct cursor c = {h->ead, h->mask}, start = {h->start_ead, h->start_mask};
    uint32_t row = h->row, column = h->column, done = 0;
    uint8_t byte = h->ram[15 - row / g % 8];
    uint32_t bit = column / g % 8, within = column % g; /* so that no dot divides */
    while (done < budget) {
        mem[c.ead & fold] = combined(op, mem[c.ead & fold], c.mask, byte >> bit & 1 ? 0xFFFF : 0);
        done++;
        if (++column < across) {
            c = stepped(c, along);
            if (++within == g) {
                within = 0;
                bit = (bit + 1) & 7;
            }
        } else if (++row < down) {
            c = start = stepped(start, next_row);
            column = bit = within = 0;
            byte = h->ram[15 - row / g % 8];
        } else {
            h->work = IDLE;
            break;
        }
    }
    h->ead = c.ead & 0x3FFFF;
    h->mask = c.mask;
    h->start_ead = start.ead & 0x3FFFF;
    h->start_mask = start.mask;
    h->row = row;
    h->column = column;
    return done;
}

/* The loops above once for each operation, so that no dot asks which it is. */
static uint32_t draw_with(struct hand *h, uint16_t *mem, uint32_t fold, uint32_t budget, uint8_t op) __attribute__((always_inline));
static inline uint32_t draw_with(struct hand *h, uint16_t *mem, uint32_t fold, uint32_t budget, uint8_t op) {
    if (h->work == CHARACTER) return draw_character(h, mem, fold, budget, op);
    return h->type == 1 ? draw_line(h, mem, fold, budget, op) : draw_sides(h, mem, fold, budget, op);
}

/* Arcs apart from the others, so that each has the machine's registers to itself. */
static __attribute__((noinline)) uint32_t draw_arcs(struct hand *h, uint16_t *mem, uint32_t fold, uint32_t budget) {
    switch (h->op) {
    case 0: return draw_arc(h, mem, fold, budget, 0);
    case 1: return draw_arc(h, mem, fold, budget, 1);
    case 2: return draw_arc(h, mem, fold, budget, 2);
    default: return draw_arc(h, mem, fold, budget, 3);
    }
}

static uint32_t draw_some(struct hand *h, uint16_t *mem, uint32_t fold, uint32_t budget) {
    if (h->work == ARC) return draw_arcs(h, mem, fold, budget);
    switch (h->op) {
    case 0: return draw_with(h, mem, fold, budget, 0);
    case 1: return draw_with(h, mem, fold, budget, 1);
    case 2: return draw_with(h, mem, fold, budget, 2);
    default: return draw_with(h, mem, fold, budget, 3);
    }
}

static uint32_t draw(struct hand *h, uint16_t *mem, uint32_t fold, uint32_t budget) {
    const uint32_t n = draw_some(h, mem, fold, budget);
    h->remaining -= n;
    return n;
}

static bool room(const struct hand *h) { return h->count + (is_word(h->command) ? 2 : 1) <= 16; }

static void read_item(struct hand *h, const uint16_t *mem, uint32_t fold) {
    uint16_t word = mem[h->ead & fold];
    if (h->command != RDAT_HIGH) put(h, word & 255);
    if (h->command != RDAT_LOW) put(h, word >> 8);
    move_word(h);
    if (++h->item == h->dc) h->work = IDLE;
}

/* ---- the command processor */

static void turn(struct hand *h) {
    empty(h);
    h->read_mode = true;
}

static uint8_t known(uint8_t b) {
    if ((b & 0xF0) == PRAM) return PRAM;
    if ((b & 0xFC) == WDAT_WORD || (b & 0xFC) == WDAT_LOW || (b & 0xFC) == WDAT_HIGH) return b & 0xFC;
    switch (b) {
    case RESET: case CCHAR: case ZOOM: case CURS: case PITCH: case MASK: case FIGS:
    case RDAT_WORD: case RDAT_LOW: case RDAT_HIGH: return b;
    default: return UNKNOWN; /* it takes no parameter, whatever it is */
    }
}

static void begin_figure(struct hand *h) {
    h->dot = 0;
    h->running = h->d, h->run1 = h->d1, h->run2 = h->d2;
    if (figure_dots(h)) {
        h->work = FIGURE;
    } else if (arc_cycles(h)) {
        h->work = ARC;
    } else if (h->type == 4) { /* "or that takes FIGD if no dot is left to draw; .. and the DC moves are made" */
        struct arc a = arc_of(h);
        for (uint32_t over = h->dc; over; over--) move_on(&a);
        keep(h, &a);
    }
}

static void take_command(struct hand *h, uint8_t b) {
    h->command = known(b);
    h->next = h->command == PRAM ? b & 15 : 0;
    h->low = 0;
    switch (h->command) {
    case RESET: reset(h); return;
    case FIGS:
        h->dc = 0;
        h->d = h->d2 = 8;
        h->d1 = h->dm = 16383;
        return;
    case WDAT_WORD: case WDAT_LOW: case WDAT_HIGH: h->op = b & 3; return;
    case RDAT_WORD: case RDAT_LOW: case RDAT_HIGH:
        turn(h);
        h->item = 0;
        if (h->dc) h->work = READING;
        return;
    }
    switch (b) {
    case 0x6E: case 0x6F: h->vsync = b & 1; return;
    case 0x6B: h->display = true; return;
    case 0x6C:
        begin_figure(h);
        h->remaining = cycles_left(h);
        return;
    case 0x68:
        if (rows(h) && columns(h)) {
            h->work = CHARACTER;
            h->row = h->column = 0;
            h->start_ead = h->ead;
            h->start_mask = h->mask;
            h->remaining = cycles_left(h);
        }
        return;
    case 0xE0:
        turn(h);
        put(h, h->ead & 255), put(h, h->ead >> 8 & 255), put(h, h->ead >> 16);
        put(h, h->mask & 255), put(h, h->mask >> 8);
        return;
    case 0xC0:
        turn(h);
        put(h, h->pen & 255), put(h, h->pen >> 8 & 255), put(h, h->pen >> 16);
        h->pen_set = false;
        return;
    }
}

/* M-101: there bit 0 of a set's first byte fills all the bits that the set has. */
static bool bit_mapped(const struct hand *h) { return !(h->sync[0] & 0x20) && (h->sync[0] & 2 || h->gd); }

static void write_set(struct hand *h, uint16_t *mem, uint32_t fold, uint16_t bits, uint8_t first, uint16_t all) {
    uint16_t pattern = !bit_mapped(h) ? bits : first & 1 ? all : 0;
    mem[h->ead & fold] = combined(h->op, mem[h->ead & fold], h->mask, pattern);
    move_word(h);
}

static void take_figs(struct hand *h, unsigned i, uint8_t v) {
    uint16_t *const number[] = {&h->dc, &h->d, &h->d2, &h->d1, &h->dm};
    if (i == 0) {
        h->type = v >> 3;
        h->dir = v & 7;
    } else if (i <= 10) {
        uint16_t *n = number[(i - 1) / 2];
        *n = i & 1 ? (*n & 0x3F00) | v : (*n & 255) | (v & 63) << 8;
        if (i == 2) h->gd = v >> 6 & 1;
    }
}

static void take_parameter(struct hand *h, uint8_t v, uint16_t *mem, uint32_t fold) {
    unsigned i = h->next;
    if (i < 16) h->next++;
    switch (h->command) {
    case RESET: if (i < 8) h->sync[i] = v; return;
    case CCHAR: if (i < 3) h->cchar[i] = v; return;
    case ZOOM: if (i == 0) h->zoom = v; return;
    case PITCH: if (i == 0) h->pitch = v; return;
    case PRAM: if (i < 16) h->ram[i] = v; return;
    case MASK:
        if (i == 0) h->mask = (h->mask & 0xFF00) | v;
        if (i == 1) h->mask = (h->mask & 255) | v << 8;
        return;
    case CURS:
        if (i == 0) h->ead = (h->ead & 0x3FF00) | v;
        if (i == 1) h->ead = (h->ead & 0x300FF) | (uint32_t)v << 8;
        if (i == 2) {
            h->ead = (h->ead & 0xFFFF) | (v & 3u) << 16;
            h->mask = 1u << (v >> 4);
        }
        return;
    case FIGS: take_figs(h, i, v); return;
    case WDAT_WORD:
        if (i == 0) {
            h->low = v;
        } else {
            write_set(h, mem, fold, h->low | v << 8, h->low, 0xFFFF);
            h->next = h->low = 0;
        }
        return;
    case WDAT_LOW: write_set(h, mem, fold, v, v, 0xFF); h->next = 0; return;
    case WDAT_HIGH: write_set(h, mem, fold, v << 8, v, 0xFF00); h->next = 0; return;
    }
}

static void take_entry(struct hand *h, uint16_t *mem, uint32_t fold) {
    uint16_t entry = h->entries[h->oldest];
    h->entries[h->oldest] = 0;
    h->oldest = (h->oldest + 1) & 15;
    h->count--;
    if (entry < 256) take_parameter(h, entry, mem, fold);
    else take_command(h, entry & 255);
}

/* ---- the run */

int hand_run(struct hand *h, uint16_t *mem, size_t length, uint32_t budget, uint32_t *count, int *why) {
    *count = 0;
    *why = 0;
    if (!sound(h)) return 1;
    if (length < 16 || length > 262144 || (length & (length - 1))) return 2;
    const uint32_t fold = (uint32_t)length - 1;
    uint32_t n = 0;
    *why = 1;
    while (n < budget) {
        if (h->work == FIGURE || h->work == ARC || h->work == CHARACTER) {
            n += draw(h, mem, fold, budget - n);
        } else if (h->work == READING) {
            if (!room(h)) {
                *why = 3;
                break;
            }
            read_item(h, mem, fold);
            n++;
        } else {
            if (h->read_mode || h->count == 0) {
                *why = 2;
                break;
            }
            take_entry(h, mem, fold);
            n++;
        }
    }
    *count = n;
    return 0;
}
