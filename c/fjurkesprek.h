/* The scheduler's calls for C, x86-64 Linux convention. `rt lib --cpu x86-64`, in crates/lent, writes the library, out/liblent.a; it asks the
 * rest of the program for memcpy and memset only, and uses the SSE2 registers, which an interrupt handler has to save. No call allocates,
 * waits, keeps a pointer after it has returned, or has a state of its own: calls on different states may run at the same time.
 *
 * Rows count from 1 wherever an answer names one. An answer's number is 0 (FJURKE_TAKEN) for a call that was taken; for a refused one it is the
 * number below, its other figures are 0, and no byte of what was lent has changed. */
#ifndef FJURKESPREK_H
#define FJURKESPREK_H

#include <stddef.h>
#include <stdint.h>

#ifdef __cplusplus
#define FJURKE_HOLDS(what) static_assert(what, #what)
extern "C" {
#else
#define FJURKE_HOLDS(what) _Static_assert(what, #what)
#endif

#define FJURKE_ROWS 16
#define FJURKE_PLACES 32
#define FJURKE_LONGEST_PERIOD 4096
#define FJURKE_LONGEST_RECORD 100
#define FJURKE_LAST_SLOT (UINT64_C(1) << 48)

/* Numbers given back. Those that name a row: 5, 6 and 7. */
enum {
    FJURKE_TAKEN = 0,
    FJURKE_RECORD_SHORT = 1,      /* a record under 4 bytes */
    FJURKE_RECORD_VERSION = 2,    /* its first byte is not 1 */
    FJURKE_RECORD_LENGTH = 3,     /* its length field is not the bytes after it, or not 1 + 6n */
    FJURKE_TABLE_COUNT = 4,       /* n is 0 or above 16 */
    FJURKE_TABLE_ROW = 5,         /* the row breaks 1 <= C <= D <= T <= 4096, or stands past n and is not zero */
    FJURKE_TABLE_ORDER = 6,       /* the row's period is below the one before */
    FJURKE_TABLE_OVERLOADED = 7,  /* the row can be late with no slot given away or lost */
    FJURKE_REQUEST_EMPTY = 8,     /* a request of no slots */
    FJURKE_QUEUE_FULL = 9,        /* 32 requests wait */
    FJURKE_NO_SLOT_LEFT = 10,     /* all 2^48 slots have been run */
    FJURKE_STATE_ILLEGAL = 11,    /* what was lent is no legal state */
    FJURKE_BUFFER_SHORT = 12      /* the buffer has no room for the record */
};

/* What a slot was used for. */
enum {
    FJURKE_EMPTY = 0,
    FJURKE_HARD = 1,
    FJURKE_GIVEN = 2,
    FJURKE_LOST = 3
};

/* Hard periodic tasks in priority order, figures in slots; rows past n are zero. */
struct fjurke_table {
    size_t n;
    uint16_t c[FJURKE_ROWS]; /* slots needed in each period */
    uint16_t t[FJURKE_ROWS]; /* period */
    uint16_t d[FJURKE_ROWS]; /* deadline, from the start of the period */
};

/* All that a run keeps. Read it freely; write it only by the calls. Rows past n and places past count are zero. */
struct fjurke_state {
    size_t n;
    uint64_t next; /* number of the next slot, from 1 */
    uint16_t c[FJURKE_ROWS];
    uint16_t t[FJURKE_ROWS];
    uint16_t d[FJURKE_ROWS];
    uint16_t k[FJURKE_ROWS];       /* allowance */
    uint16_t left[FJURKE_ROWS];    /* work left of the present block */
    uint16_t counter[FJURKE_ROWS]; /* what is left of the allowance */
    uint64_t late[FJURKE_ROWS];    /* blocks that missed their deadline and were dropped */
    size_t count;                  /* requests that wait, the head first */
    uint16_t names[FJURKE_PLACES];
    uint16_t sizes[FJURKE_PLACES]; /* slots that each still needs */
    uint64_t hard;                 /* the four tallies: slots by their use */
    uint64_t given;
    uint64_t empty;
    uint64_t lost;
};

struct fjurke_ask {
    uint16_t name; /* any; two that wait may have the same */
    uint16_t size; /* slots wanted, 1 to 65535 */
};

struct fjurke_slot_answer {
    uint8_t number;
    uint8_t used;       /* FJURKE_EMPTY, FJURKE_HARD, FJURKE_GIVEN or FJURKE_LOST */
    uint16_t word;      /* the rows that are late with this slot, bit 0 for row 1 */
    uint32_t late_rows; /* how many they are */
    size_t who;         /* the row that ran if hard, the request's name if given, else 0 */
};

struct fjurke_request_answer {
    uint8_t number;
    size_t row; /* always 0 */
};

struct fjurke_read_answer {
    uint8_t number;
    size_t row;
    struct fjurke_table table;
};

struct fjurke_write_answer {
    uint8_t number;
    size_t row;
    size_t length; /* bytes written */
};

struct fjurke_test_answer {
    uint8_t number;
    uint16_t k; /* the smallest allowance */
    size_t row;
    uint16_t each[FJURKE_ROWS]; /* the allowance of each row */
};

struct fjurke_start_answer {
    uint8_t number;
    size_t row;
    struct fjurke_state state;
};

struct fjurke_sum_answer {
    uint8_t number;
    uint64_t total;
};

/* The table of a record that fills the bytes exactly. Refused with 1 to 6. The pointer is not used if the length is 0. */
struct fjurke_read_answer fjurke_read(const uint8_t *bytes, size_t length);

/* The table's record, 4 + 6n bytes, at the front of the buffer; the rest of the buffer stays. Refused with 4, 5, 6, 12. */
struct fjurke_write_answer fjurke_write(struct fjurke_table table, uint8_t *buffer, size_t length);

/* Whether no row of the table can be late unless slots are lost, and the allowances. Refused with 4, 5, 6, 7. */
struct fjurke_test_answer fjurke_test(struct fjurke_table table);

/* The state of a run before slot 1. Refused with 4, 5, 6, 7. */
struct fjurke_start_answer fjurke_start(struct fjurke_table table);

/* Runs one slot on a state that nobody else uses meanwhile. `lost` other than 0 says that an outside cause took the slot. Refused with 11, 10. */
struct fjurke_slot_answer fjurke_slot(struct fjurke_state *state, uint8_t lost);

/* Puts a request at the end of the queue of a state that nobody else uses meanwhile. Refused with 11, 8, 9. */
struct fjurke_request_answer fjurke_request(struct fjurke_state *state, struct fjurke_ask ask);

/* The late counts of all rows together. Refused with 11. */
struct fjurke_sum_answer fjurke_late_total(struct fjurke_state state);

/* The layout of the library. */
FJURKE_HOLDS(sizeof(size_t) == 8);
FJURKE_HOLDS(sizeof(struct fjurke_table) == 104);
FJURKE_HOLDS(offsetof(struct fjurke_table, c) == 8);
FJURKE_HOLDS(offsetof(struct fjurke_table, t) == 40);
FJURKE_HOLDS(offsetof(struct fjurke_table, d) == 72);
FJURKE_HOLDS(sizeof(struct fjurke_state) == 504);
FJURKE_HOLDS(offsetof(struct fjurke_state, next) == 8);
FJURKE_HOLDS(offsetof(struct fjurke_state, c) == 16);
FJURKE_HOLDS(offsetof(struct fjurke_state, t) == 48);
FJURKE_HOLDS(offsetof(struct fjurke_state, d) == 80);
FJURKE_HOLDS(offsetof(struct fjurke_state, k) == 112);
FJURKE_HOLDS(offsetof(struct fjurke_state, left) == 144);
FJURKE_HOLDS(offsetof(struct fjurke_state, counter) == 176);
FJURKE_HOLDS(offsetof(struct fjurke_state, late) == 208);
FJURKE_HOLDS(offsetof(struct fjurke_state, count) == 336);
FJURKE_HOLDS(offsetof(struct fjurke_state, names) == 344);
FJURKE_HOLDS(offsetof(struct fjurke_state, sizes) == 408);
FJURKE_HOLDS(offsetof(struct fjurke_state, hard) == 472);
FJURKE_HOLDS(offsetof(struct fjurke_state, given) == 480);
FJURKE_HOLDS(offsetof(struct fjurke_state, empty) == 488);
FJURKE_HOLDS(offsetof(struct fjurke_state, lost) == 496);
FJURKE_HOLDS(sizeof(struct fjurke_ask) == 4);
FJURKE_HOLDS(offsetof(struct fjurke_ask, size) == 2);
FJURKE_HOLDS(sizeof(struct fjurke_slot_answer) == 16);
FJURKE_HOLDS(offsetof(struct fjurke_slot_answer, used) == 1);
FJURKE_HOLDS(offsetof(struct fjurke_slot_answer, word) == 2);
FJURKE_HOLDS(offsetof(struct fjurke_slot_answer, late_rows) == 4);
FJURKE_HOLDS(offsetof(struct fjurke_slot_answer, who) == 8);
FJURKE_HOLDS(sizeof(struct fjurke_request_answer) == 16);
FJURKE_HOLDS(offsetof(struct fjurke_request_answer, row) == 8);
FJURKE_HOLDS(sizeof(struct fjurke_read_answer) == 120);
FJURKE_HOLDS(offsetof(struct fjurke_read_answer, row) == 8);
FJURKE_HOLDS(offsetof(struct fjurke_read_answer, table) == 16);
FJURKE_HOLDS(sizeof(struct fjurke_write_answer) == 24);
FJURKE_HOLDS(offsetof(struct fjurke_write_answer, row) == 8);
FJURKE_HOLDS(offsetof(struct fjurke_write_answer, length) == 16);
FJURKE_HOLDS(sizeof(struct fjurke_test_answer) == 48);
FJURKE_HOLDS(offsetof(struct fjurke_test_answer, k) == 2);
FJURKE_HOLDS(offsetof(struct fjurke_test_answer, row) == 8);
FJURKE_HOLDS(offsetof(struct fjurke_test_answer, each) == 16);
FJURKE_HOLDS(sizeof(struct fjurke_start_answer) == 520);
FJURKE_HOLDS(offsetof(struct fjurke_start_answer, row) == 8);
FJURKE_HOLDS(offsetof(struct fjurke_start_answer, state) == 16);
FJURKE_HOLDS(sizeof(struct fjurke_sum_answer) == 16);
FJURKE_HOLDS(offsetof(struct fjurke_sum_answer, total) == 8);

#undef FJURKE_HOLDS

#ifdef __cplusplus
}
#endif

#endif
