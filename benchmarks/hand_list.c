/* The list in one call, by hand: soundness and length once, and where nothing waits an entry is taken with no way through the buffer.
   hand.c is compiled here once more, under other names, so that the list has its functions and hand.c itself stays as it was. */
#define hand_fresh list_fresh
#define hand_command list_command
#define hand_parameter list_parameter
#define hand_run list_run
#include "hand.c"

/* Whole words of a WDAT, from the list to the memory; what is returned is how many entries they were. */
static inline __attribute__((always_inline)) size_t words_with(struct hand *h, const uint16_t *entries, size_t count, uint16_t *mem,
                                                               uint32_t fold, uint8_t op, bool mapped) {
    const struct step s = step_along(h->dir, h->pitch);
    const uint32_t move = s.lines + (uint32_t)s.side;
    const uint16_t mask = h->mask;
    uint32_t ead = h->ead;
    size_t i = 0;
    for (; count - i >= 2 && (entries[i] | entries[i + 1]) < 256; i += 2) {
        uint16_t pattern = mapped ? (entries[i] & 1) * 0xFFFF : (uint16_t)(entries[i] | entries[i + 1] << 8);
        mem[ead & fold] = combined(op, mem[ead & fold], mask, pattern);
        ead += move;
    }
    h->ead = ead & 0x3FFFF;
    return i;
}

static size_t take_words(struct hand *h, const uint16_t *entries, size_t count, uint16_t *mem, uint32_t fold) {
    switch (h->op | bit_mapped(h) << 2) {
    case 0: return words_with(h, entries, count, mem, fold, 0, false);
    case 1: return words_with(h, entries, count, mem, fold, 1, false);
    case 2: return words_with(h, entries, count, mem, fold, 2, false);
    case 3: return words_with(h, entries, count, mem, fold, 3, false);
    case 4: return words_with(h, entries, count, mem, fold, 0, true);
    case 5: return words_with(h, entries, count, mem, fold, 1, true);
    case 6: return words_with(h, entries, count, mem, fold, 2, true);
    default: return words_with(h, entries, count, mem, fold, 3, true);
    }
}

/* The parameters at the list's start; how many they were. */
static size_t take_parameters(struct hand *h, const uint16_t *entries, size_t count, uint16_t *mem, uint32_t fold) {
    size_t i = h->command == WDAT_WORD && h->next == 0 ? take_words(h, entries, count, mem, fold) : 0;
    for (; i < count && entries[i] < 256; i++) take_parameter(h, (uint8_t)entries[i], mem, fold);
    return i;
}

/* A figure or a read that a command began, until it ends or has no room. */
static uint32_t finish(struct hand *h, uint16_t *mem, size_t length, uint32_t budget) {
    uint32_t count;
    int why;
    if (h->work == IDLE) return 0;
    if (h->work != READING) return draw(h, mem, (uint32_t)length - 1, budget);
    list_run(h, mem, length, budget, &count, &why);
    return count;
}

struct hand_tally hand_send(struct hand *h, const uint16_t *entries, size_t count, uint16_t *mem, size_t length) {
    struct hand_tally t = {0, 0, 0};
    if (!sound(h)) return (struct hand_tally){1, 0, 0};
    if (length < 16 || length > 262144 || (length & (length - 1))) return (struct hand_tally){2, 0, 0};
    while (t.taken < count) {
        uint16_t e = entries[t.taken];
        if (h->read_mode || h->work != IDLE || h->count || (e > 255 && (e & 255) == RESET)) { /* the long way */
            uint32_t units;
            int why;
            t.number = e < 256 ? list_parameter(h, (uint8_t)e) : list_command(h, (uint8_t)e);
            if (t.number) return t;
            list_run(h, mem, length, 0xFFFFFFFF, &units, &why);
            t.units += units;
            t.taken++;
        } else if (e < 256) {
            size_t n = take_parameters(h, entries + t.taken, count - t.taken, mem, (uint32_t)length - 1);
            t.units += n;
            t.taken += n;
        } else {
            take_command(h, (uint8_t)e);
            t.units += 1ull + finish(h, mem, length, 0xFFFFFFFE);
            t.taken++;
        }
    }
    return t;
}

int hand_read(struct hand *h, uint8_t *value) {
    if (!sound(h)) return 1;
    if (!h->read_mode || h->count == 0) return 5;
    *value = (uint8_t)h->entries[h->oldest];
    h->entries[h->oldest] = 0;
    h->oldest = (h->oldest + 1) & 15;
    h->count--;
    return 0;
}
