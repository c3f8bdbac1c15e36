/*
 * Aqtovmesh: System/36 object code, executed over a main storage that the host lends.
 *
 * The host keeps one machine record and lends it with the storage; each call alters that record itself and comes back with a number of the table below.
 * Every call ends with a defined answer, for all storage contents, registers, sizes, budgets and decks: nothing has to be checked before. What each number
 * leaves untouched stands at its call.
 *
 * What C demands of the caller, and no call can check:
 *   - every pointer is non-null, also where the length beside it is 0, and valid for that length;
 *   - a record is aligned to 2 bytes, holds values (zeros will do) and is writable, also for aqtovmesh_write and aqtovmesh_deck_length, which leave it
 *     as it is;
 *   - the record and the buffers of one call do not overlap, and nothing else reads or writes them meanwhile.
 * There is no other state: calls on different records and buffers may run at once.
 *
 * Link with libaqtovmesh.a (x86-64; memcpy and memset are all that it takes from the C library).
 */
#ifndef AQTOVMESH_H
#define AQTOVMESH_H

#include <stddef.h>
#include <stdint.h>

#ifdef __cplusplus
extern "C" {
#endif

/* ---- the machine */

/* Bytes of a page; the storage's size is a multiple of it, from one page to AQTOVMESH_STORAGE_LIMIT. */
#define AQTOVMESH_PAGE 256u
#define AQTOVMESH_STORAGE_LIMIT 65536u
/* The largest budget of a run. */
#define AQTOVMESH_BUDGET_LIMIT 16777216u
/* The length of the longest deck: 20 bytes, and 258 for each page that isn't all zero. */
#define AQTOVMESH_DECK_LIMIT 66068u

/* Bits of the status; 0x40 and 0x80 are always off. */
#define AQTOVMESH_EQUAL 0x01u
#define AQTOVMESH_LOW 0x02u
#define AQTOVMESH_HIGH 0x04u
#define AQTOVMESH_DECIMAL_OVERFLOW 0x08u
#define AQTOVMESH_TEST_FALSE 0x10u
#define AQTOVMESH_BINARY_OVERFLOW 0x20u

typedef struct {
    uint16_t iar;
    uint16_t arr;
    uint16_t xr1;
    uint16_t xr2;
    uint16_t wr[4]; /* WR4 to WR7 */
    uint8_t status;
} aqtovmesh_machine;

/* ---- numbers that come back */

enum {
    AQTOVMESH_DONE = 0,                 /* step executed; budget spent; deck read or written */
    AQTOVMESH_SIZE_REFUSED = 1,         /* storage size not allowed, or not the deck's */
    AQTOVMESH_BUDGET_REFUSED = 2,       /* budget over the limit */
    AQTOVMESH_STATUS_REFUSED = 3,       /* status bit 0 or 1 on (0x80, 0x40) */
    AQTOVMESH_CUT_SHORT = 4,            /* instruction not wholly in storage */
    AQTOVMESH_OPCODE_UNKNOWN = 5,       /* unknown opcode */
    AQTOVMESH_Q_REFUSED = 6,            /* Q byte not allowed */
    AQTOVMESH_OPERAND_OUTSIDE = 7,      /* an operand byte outside storage */
    AQTOVMESH_DIGIT_REFUSED = 8,        /* digit above 9 in a zoned operand */
    AQTOVMESH_SUPERVISOR_CALL = 9,      /* supervisor call: the host takes it, and moves IAR past it (3 bytes) */
    AQTOVMESH_DECK_ENDS_EARLY = 11,     /* deck ends early */
    AQTOVMESH_KIND_UNKNOWN = 12,        /* unknown kind of record */
    AQTOVMESH_OUT_OF_ORDER = 13,        /* record out of its order */
    AQTOVMESH_PAGE_BEYOND = 14,         /* page number not below the page count */
    AQTOVMESH_PAGE_OF_ZEROS = 15,       /* page of zeros */
    AQTOVMESH_BYTES_AFTER_END = 16,     /* bytes after the end record */
    AQTOVMESH_OUTPUT_SHORT = 17         /* output buffer too short */
};

/* q and r are the call's bytes with 9, and 0 with every other number. */
typedef struct {
    uint8_t number;
    uint8_t q;
    uint8_t r;
} aqtovmesh_stepped;

/* steps counts the executed instructions; a stopped one isn't counted. */
typedef struct {
    uint8_t number;
    uint8_t q;
    uint8_t r;
    uint32_t steps;
} aqtovmesh_ended;

/* length is 0 where number isn't. */
typedef struct {
    uint8_t number;
    size_t length;
} aqtovmesh_written;

/* ---- the calls */

/* One step: 0, 1 or 3 to 9. With any number but 0 record and storage stay as they were, IAR at the stopped instruction. */
aqtovmesh_stepped aqtovmesh_step(aqtovmesh_machine *m, uint8_t *storage, size_t size);

/*
 * At most budget steps: 0 to 9, 0 where the budget is spent. 1, 2 and 3 leave record and storage as they were; 4 to 9 leave them as the executed
 * steps did, IAR at the stopped instruction. A budget of 0 returns 0 and 0 steps. After 9 the host does what the call asks, sets m->iar past it and runs on.
 */
aqtovmesh_ended aqtovmesh_run(aqtovmesh_machine *m, uint8_t *storage, size_t size, uint32_t budget);

/*
 * Reads a deck: 0, 1, 3 or 11 to 16. With 0 the record is the deck's machine and the storage the deck's, pages not in the deck zeroed; what both held
 * before counts for nothing. With any other number the record is zeroed and the storage stays as it was. The size that a deck is for stands in its
 * second byte: (deck[1] + 1) * AQTOVMESH_PAGE. The deck itself stays.
 */
uint8_t aqtovmesh_read(aqtovmesh_machine *m, const uint8_t *deck, size_t deck_length, uint8_t *storage, size_t size);

/*
 * Writes the deck of the record and the storage to the front of out: 0, 1, 3 or 17. With 0 bytes of out after the length stay; with any other number
 * all of out stays. Record and storage stay.
 */
aqtovmesh_written aqtovmesh_write(aqtovmesh_machine *m, const uint8_t *storage, size_t size, uint8_t *out, size_t room);

/* The room that aqtovmesh_write needs; 0 where the size isn't allowed. Record and storage stay. */
size_t aqtovmesh_deck_length(aqtovmesh_machine *m, const uint8_t *storage, size_t size);

#ifdef __cplusplus
}
#endif

/* ---- the layout that the library was compiled with */

#ifdef __cplusplus
#define AQTOVMESH_LAYOUT(fact) static_assert(fact, "aqtovmesh: " #fact)
#else
#define AQTOVMESH_LAYOUT(fact) _Static_assert(fact, "aqtovmesh: " #fact)
#endif
AQTOVMESH_LAYOUT(sizeof(aqtovmesh_machine) == 18);
AQTOVMESH_LAYOUT(offsetof(aqtovmesh_machine, iar) == 0);
AQTOVMESH_LAYOUT(offsetof(aqtovmesh_machine, arr) == 2);
AQTOVMESH_LAYOUT(offsetof(aqtovmesh_machine, xr1) == 4);
AQTOVMESH_LAYOUT(offsetof(aqtovmesh_machine, xr2) == 6);
AQTOVMESH_LAYOUT(offsetof(aqtovmesh_machine, wr) == 8);
AQTOVMESH_LAYOUT(offsetof(aqtovmesh_machine, status) == 16);
AQTOVMESH_LAYOUT(sizeof(aqtovmesh_stepped) == 3);
AQTOVMESH_LAYOUT(offsetof(aqtovmesh_stepped, q) == 1);
AQTOVMESH_LAYOUT(offsetof(aqtovmesh_stepped, r) == 2);
AQTOVMESH_LAYOUT(sizeof(aqtovmesh_ended) == 8);
AQTOVMESH_LAYOUT(offsetof(aqtovmesh_ended, q) == 1);
AQTOVMESH_LAYOUT(offsetof(aqtovmesh_ended, r) == 2);
AQTOVMESH_LAYOUT(offsetof(aqtovmesh_ended, steps) == 4);
AQTOVMESH_LAYOUT(sizeof(aqtovmesh_written) == 16);
AQTOVMESH_LAYOUT(offsetof(aqtovmesh_written, length) == 8);
#undef AQTOVMESH_LAYOUT

#endif
