/* Kranichseil for C (and Rust) on x86-64: the controller's register set in plain numbers, a function for every entry, and the
   translator of drawing sheets. Link target/staticlib/libmirror.a, which `tools/archive` writes; docs/BOARD.md says how.

   The numbers in the comments of the structs are offsets in bytes; c/test.c holds this header to them and to the archive.
   A bit is 0 or 1. An enum's numbers are named below. A field that has no use is 0. Anything else is no register set: refusal 1.
   Pointers are never NULL, also where the length is 0, and what they lead to does not overlap.

   Numbers of refusal, in `number`; 0 is success. On 1 to 6 the set comes back as given, with 0 for value, count and why; memory,
   sheet and output are unaltered by any refusal. A list of entries stops at one that is refused with 3 or 4: those before it
   stay taken.
      1 register set unsound, or none                 2 memory length wrong by the wiring: folded, not a power of two from 16 to
                                                        262,144; open, not from 16 to 262,144
      3 write mode and the buffer holds 16            4 parameter byte in read mode
      5 read with no byte to give                     6 pen address 262,144 or more
     11 P, H or P times H out of range                12 glyph bytes not a multiple of 8, or over 2,048
     13 sheet length wrong                            14 a block's check (first: block)
     15 a block's heading, spare bytes or unused records (first: block)
     16 record's form   17 glyph number   18 factor or radius   19 a dot outside   (first: block, second: record, both from 0)
     20 output shorter than the translation (first: entries needed)
   Why a run stopped, in `why`: 1 its budget is spent, 2 nothing is in progress or queued, 3 a read awaits room. */
#ifndef KRANICHSEIL_H
#define KRANICHSEIL_H
#include <stddef.h>
#include <stdint.h>

enum { KRANICHSEIL_REPLACE, KRANICHSEIL_COMPLEMENT, KRANICHSEIL_CLEAR, KRANICHSEIL_SET };   /* op; 2 is 01's RESET */
enum { KRANICHSEIL_WRITE, KRANICHSEIL_READ };                                               /* mode */
enum { KRANICHSEIL_FOLDED, KRANICHSEIL_OPEN };                                              /* board.wiring */
enum { KRANICHSEIL_WORD, KRANICHSEIL_LOW, KRANICHSEIL_HIGH };                               /* transfer */
enum { KRANICHSEIL_IDLE, KRANICHSEIL_FIGURE, KRANICHSEIL_CHARACTER, KRANICHSEIL_READING, KRANICHSEIL_ARC }; /* work.kind */
enum {                                                                                      /* progress.command */
    KRANICHSEIL_NOTHING, KRANICHSEIL_RESET, KRANICHSEIL_VSYNC, KRANICHSEIL_CCHAR, KRANICHSEIL_START, KRANICHSEIL_ZOOM,
    KRANICHSEIL_CURS, KRANICHSEIL_PRAM, KRANICHSEIL_PITCH, KRANICHSEIL_MASK, KRANICHSEIL_FIGS, KRANICHSEIL_FIGD,
    KRANICHSEIL_GCHRD, KRANICHSEIL_CURD, KRANICHSEIL_LPRD, KRANICHSEIL_WDAT, KRANICHSEIL_RDAT, KRANICHSEIL_UNKNOWN
};

struct kranichseil_cursor {             /* 8 bytes */
    uint32_t ead;                       /* 0: 18 bits */
    uint16_t mask;                      /* 4 */
};

struct kranichseil_drawing {            /* 14 bytes; what FIGS sets */
    uint8_t kind;                       /* 0: the bits SL, R, A, GC, L */
    uint8_t dir;                        /* 1: 0 to 7 */
    uint8_t gd;                         /* 2: bit */
    uint16_t dc, d, d2, d1, dm;         /* 4, 6, 8, 10, 12: 14 bits each */
};

struct kranichseil_video {              /* 14 bytes; not acted on but for ZOOM's low nibble and, by WDAT, sync[0]'s bits 5 and 1 */
    uint8_t zoom;                       /* 0 */
    uint8_t display, vsync;             /* 1, 2: bits */
    uint8_t sync[8];                    /* 3 */
    uint8_t cchar[3];                   /* 11 */
};

struct kranichseil_pen {                /* 8 bytes */
    uint32_t address;                   /* 0: 18 bits */
    uint8_t set;                        /* 4: bit */
};

struct kranichseil_buffer {             /* 34 bytes */
    uint16_t entries[16];               /* 0: the oldest first; a byte, with 256 more for a command mark */
    uint8_t count;                      /* 32: how many are held, 0 to 16 */
};

struct kranichseil_progress {           /* 4 bytes; the command in progress */
    uint8_t command;                    /* 0 */
    uint8_t transfer;                   /* 1: beside WDAT and RDAT; else 0 */
    uint8_t next;                       /* 2: where its next parameter goes */
    uint8_t low;                        /* 3: the first byte of a half-sent word */
};

struct kranichseil_work {               /* 32 bytes; what is in progress */
    uint8_t kind;                       /* 0 */
    uint8_t transfer;                   /* 1: of a read */
    uint16_t d;                         /* 2: of a figure or an arc: the running copy of D */
    uint16_t d1, d2;                    /* 4, 6: of an arc: the running copies of D1 and D2, 14 bits each as D's */
    uint16_t item;                      /* 8: of a read: the item reached */
    uint32_t dot;                       /* 12: of a figure: the dot reached; of an arc: the cycles done */
    uint32_t row, column;               /* 16, 20: of a character: the row and the dot of it that are reached */
    struct kranichseil_cursor start;    /* 24: of a character: where the row started */
};

struct kranichseil_board {              /* 1 byte; what the board is: C sets it, no port and no RESET changes it */
    uint8_t wiring;                     /* 0: folded, an address meets the word of its remainder by the length; open, one at or past
                                           the length meets none: it reads FFFF, a write there goes nowhere, its cycle counts */
};

struct kranichseil_registers {          /* 152 bytes */
    struct kranichseil_cursor cursor;   /* 0 */
    uint8_t pitch;                      /* 8 */
    struct kranichseil_drawing drawing; /* 10 */
    uint8_t op;                         /* 24 */
    uint8_t ram[16];                    /* 25 */
    struct kranichseil_video video;     /* 41 */
    struct kranichseil_pen pen;         /* 56 */
    uint8_t mode;                       /* 64 */
    struct kranichseil_buffer buffer;   /* 66 */
    struct kranichseil_progress progress; /* 100 */
    struct kranichseil_work work;       /* 104 */
    uint64_t remaining;                 /* 136: how many cycles the figure in progress still needs, else 0: a lamp reads it here.
                                           Each call keeps it true, and refuses a set where it is false, with 1 */
    struct kranichseil_board board;     /* 144 */
};

struct kranichseil_answer {             /* 160 bytes; of a port */
    uint8_t number;                     /* 0 */
    uint8_t value;                      /* 1: the byte read */
    struct kranichseil_registers regs;  /* 8 */
};

struct kranichseil_ran {                /* 168 bytes; of a run */
    uint8_t number;                     /* 0 */
    uint32_t count;                     /* 4: units done */
    uint8_t why;                        /* 8 */
    struct kranichseil_registers regs;  /* 16 */
};

struct kranichseil_report {             /* 12 bytes; of a run by reference */
    uint8_t number;                     /* 0 */
    uint32_t count;                     /* 4: units done */
    uint8_t why;                        /* 8 */
};

struct kranichseil_reply {              /* 2 bytes; of a port by reference */
    uint8_t number;                     /* 0 */
    uint8_t value;                      /* 1: the byte read */
};

struct kranichseil_tally {              /* 24 bytes; of a list of entries */
    uint8_t number;                     /* 0 */
    uint64_t taken, units;              /* 8, 16: entries taken, and the units of their runs */
};

struct kranichseil_translation {        /* 12 bytes */
    uint8_t number;                     /* 0 */
    uint32_t first, second;             /* 4, 8: entries written or needed, block, record */
};

struct kranichseil_costs {              /* 24 bytes; of a sheet that is not sent yet */
    uint8_t number;                     /* 0 */
    uint32_t first, second;             /* 4, 8: entries needed, block, record */
    uint32_t figures;                   /* 12: 0 where the sheet is refused */
    uint64_t units;                     /* 16: of its drawing, one for each entry and one for each dot; 0 where it is refused */
};

#ifdef __cplusplus
extern "C" {
#endif

/* The fresh register set; its wiring is folded. */
struct kranichseil_registers kranichseil_fresh(void);
/* A byte to the command port: 1, 3. */
struct kranichseil_answer kranichseil_command(struct kranichseil_registers r, uint8_t byte);
/* A byte to the other port: 1, 4, 3. */
struct kranichseil_answer kranichseil_parameter(struct kranichseil_registers r, uint8_t byte);
/* The oldest read byte, in value: 1, 5. */
struct kranichseil_answer kranichseil_read(struct kranichseil_registers r);
/* The status, in value: bit 7 light pen, 3 figure in progress, 2 buffer holds nothing, 1 holds 16, 0 a byte to read: 1. */
struct kranichseil_answer kranichseil_status(struct kranichseil_registers r);
/* A light-pen address: 1, 6. */
struct kranichseil_answer kranichseil_pen(struct kranichseil_registers r, uint32_t address);
/* Units until the budget is spent or there is none to do, on `length` words of display memory: 1, 2. */
struct kranichseil_ran kranichseil_run(struct kranichseil_registers r, uint16_t *memory, size_t length, uint32_t budget);
/* The same on the set where it stands: the board call. */
struct kranichseil_report kranichseil_board_run(struct kranichseil_registers *r, uint16_t *memory, size_t length, uint32_t budget);
/* An entry, a byte and 256 more for the command port, to its port, on the set where it stands: 1, 4, 3. Of an entry of 256 or more
   the low eight bits are the command byte. */
struct kranichseil_reply kranichseil_board_write(struct kranichseil_registers *r, uint16_t entry);
/* A byte from a port, in value, on the set where it stands: of port 0 the status: 1; of any other the oldest read byte: 1, 5. */
struct kranichseil_reply kranichseil_board_read(struct kranichseil_registers *r, uint8_t port);
/* Entries in order, on the set where it stands, each to its port and with a run until idle (of 4,294,967,295 units at most), up to
   the first that its port refuses: 1, 2, and of that entry's port 4, 3. */
struct kranichseil_tally kranichseil_board_send(struct kranichseil_registers *r, const uint16_t *entries, size_t entries_length,
                                                uint16_t *memory, size_t length);
/* A sheet into entries (a command is its byte + 256), for a plane of p words by h lines and eight bytes per glyph: 11 to 20. */
struct kranichseil_translation kranichseil_translate(const uint8_t *sheet, size_t sheet_length, uint32_t p, uint32_t h,
                                                     const uint8_t *glyphs, size_t glyphs_length, uint16_t *out, size_t out_length);
/* What a sheet costs, before anything is sent; it needs no register set and no memory: 11 to 19. */
struct kranichseil_costs kranichseil_cost(const uint8_t *sheet, size_t sheet_length, uint32_t p, uint32_t h,
                                          const uint8_t *glyphs, size_t glyphs_length);

#ifdef __cplusplus
}
#endif
#endif
