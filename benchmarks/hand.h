/* The controller as one would write it by hand in C, from document 01, M-100, M-101 and M-103: the measure that the proved run is held against. */
#ifndef HAND_H
#define HAND_H
#include <stddef.h>
#include <stdint.h>

enum hand_work { IDLE, FIGURE, ARC, CHARACTER, READING };

struct hand {
    uint32_t ead;
    uint16_t mask;
    uint8_t pitch;
    uint8_t type, dir; /* FIGS: the five bits SL R A GC L, and DIR */
    bool gd;
    uint16_t dc, d, d2, d1, dm;
    uint8_t op;
    uint8_t ram[16];
    uint8_t zoom, sync[8], cchar[3];
    bool display, vsync;
    uint32_t pen;
    bool pen_set;
    bool read_mode;
    uint16_t entries[16]; /* a ring */
    uint8_t oldest, count;
    uint8_t command; /* its byte; UNKNOWN where it is none of the list */
    uint8_t next;    /* where its next parameter goes, to 16 */
    uint8_t low;     /* of a half-sent WDAT word */
    enum hand_work work;
    uint32_t dot;         /* FIGURE: the dot reached; ARC: the cycles done; */
    uint16_t running;     /* the copy of D, */
    uint16_t run1, run2;  /* ARC: and those of D1 and D2 */
    uint32_t row, column; /* CHARACTER: the place reached, and where its row started */
    uint32_t start_ead;
    uint16_t start_mask;
    uint16_t item; /* READING */
    uint64_t remaining; /* M-103: the cycles that the figure in progress still needs */
};

void hand_fresh(struct hand *h);
int hand_command(struct hand *h, uint8_t byte);   /* a number of refusal, 0 for none */
int hand_parameter(struct hand *h, uint8_t byte);
int hand_run(struct hand *h, uint16_t *mem, size_t length, uint32_t budget, uint32_t *count, int *why);

/* Of hand_list.c: a byte read, and the list in one call, with the answer of kranichseil_board_send. */
int hand_read(struct hand *h, uint8_t *value);
struct hand_tally {
    int number;
    uint64_t taken, units;
};
struct hand_tally hand_send(struct hand *h, const uint16_t *entries, size_t count, uint16_t *mem, size_t length);
#endif
