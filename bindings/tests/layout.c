/* Each field of the record and of what comes back is where the header says, by the compiled library: a record whose fields all differ, a program that
   loads every register and stops at a call, and the machine that is left, written as a deck whose bytes are known. */
#include "aqtovmesh.h"
#include <stdio.h>
#include <string.h>

static int failed = 0;

static void expect(const char *what, unsigned long got, unsigned long wanted) {
    if (got == wanted) return;
    printf("%s: %lu, not %lu\n", what, got, wanted);
    failed = 1;
}

static void expect_machine(const aqtovmesh_machine *m, const uint16_t words[8], uint8_t status) {
    expect("iar", m->iar, words[0]);
    expect("arr", m->arr, words[1]);
    expect("xr1", m->xr1, words[2]);
    expect("xr2", m->xr2, words[3]);
    expect("wr4", m->wr[0], words[4]);
    expect("wr5", m->wr[1], words[5]);
    expect("wr6", m->wr[2], words[6]);
    expect("wr7", m->wr[3], words[7]);
    expect("status", m->status, status);
}

static const uint8_t loads[] = {
    0xC2, 0x01, 0x11, 0x12, /* LA XR1 */
    0xC2, 0x02, 0x21, 0x22, /* LA XR2 */
    0xC2, 0x44, 0x31, 0x32, /* LA WR4 to WR7 */
    0xC2, 0x45, 0x41, 0x42, 0xC2, 0x46, 0x51, 0x52, 0xC2, 0x47, 0x61, 0x62,
    0x35, 0x08, 0x00, 0x81, /* L ARR from 0080 */
    0x3D, 0x00, 0x00, 0x80, /* CLI 71 against 00: high */
    0xF4, 0xA1, 0xA2,       /* SVC */
};

int main(void) {
    static uint8_t storage[512];
    static uint8_t out[1024];
    aqtovmesh_machine m = {0x0000, 1, 2, 3, {4, 5, 6, 7}, AQTOVMESH_EQUAL};
    memcpy(storage, loads, sizeof loads);
    storage[0x80] = 0x71;
    storage[0x81] = 0x72;

    /* a step and a run hand back the record, the number, Q and R, and the count */
    aqtovmesh_stepped s = aqtovmesh_step(&m, storage, sizeof storage);
    expect("step's number", s.number, AQTOVMESH_DONE);
    expect_machine(&m, (const uint16_t[]){0x0004, 1, 0x1112, 3, 4, 5, 6, 7}, AQTOVMESH_EQUAL);
    aqtovmesh_ended e = aqtovmesh_run(&m, storage, sizeof storage, 100);
    const uint16_t loaded[] = {0x0020, 0x7172, 0x1112, 0x2122, 0x3132, 0x4142, 0x5152, 0x6162};
    expect("run's number", e.number, AQTOVMESH_SUPERVISOR_CALL);
    expect("run's q", e.q, 0xA1);
    expect("run's r", e.r, 0xA2);
    expect("run's steps", e.steps, 7);
    expect_machine(&m, loaded, AQTOVMESH_HIGH);
    s = aqtovmesh_step(&m, storage, sizeof storage);
    expect("step's number at the call", s.number, AQTOVMESH_SUPERVISOR_CALL);
    expect("step's q", s.q, 0xA1);
    expect("step's r", s.r, 0xA2);
    e = aqtovmesh_run(&m, storage, sizeof storage, AQTOVMESH_BUDGET_LIMIT + 1);
    expect("number over the limit", e.number, AQTOVMESH_BUDGET_REFUSED);
    expect("q over the limit", e.q, 0);
    expect("steps over the limit", e.steps, 0);
    expect_machine(&m, loaded, AQTOVMESH_HIGH);

    /* the deck has the registers in their order; the second page is all zero */
    static const uint8_t record[] = {1, 1, 0x00, 0x20, 0x71, 0x72, 0x11, 0x12, 0x21, 0x22, 0x31, 0x32, 0x41, 0x42, 0x51, 0x52, 0x61, 0x62, AQTOVMESH_HIGH};
    memset(out, 0xEE, sizeof out);
    size_t length = aqtovmesh_deck_length(&m, storage, sizeof storage);
    expect("length of the deck", length, 20 + 258);
    aqtovmesh_written w = aqtovmesh_write(&m, storage, sizeof storage, out, length - 1);
    expect("number without room", w.number, AQTOVMESH_OUTPUT_SHORT);
    expect("length without room", w.length, 0);
    expect("output without room", out[0], 0xEE);
    w = aqtovmesh_write(&m, storage, sizeof storage, out, sizeof out);
    expect("write's number", w.number, AQTOVMESH_DONE);
    expect("write's length", w.length, length);
    expect("machine in the deck", (unsigned long)memcmp(out, record, sizeof record), 0);
    expect("byte after the deck", out[length], 0xEE);
    expect_machine(&m, loaded, AQTOVMESH_HIGH);

    /* reading it again gives that machine; a refusal gives a zeroed one and leaves the storage */
    aqtovmesh_machine again;
    memset(&again, 0xEE, sizeof again);
    static uint8_t other[512];
    memset(other, 0xEE, sizeof other);
    expect("read's number", aqtovmesh_read(&again, out, length, other, sizeof other), AQTOVMESH_DONE);
    expect_machine(&again, loaded, AQTOVMESH_HIGH);
    expect("storage read again", (unsigned long)memcmp(storage, other, sizeof other), 0);
    expect("number of a short deck", aqtovmesh_read(&again, out, length - 1, other, sizeof other), AQTOVMESH_DECK_ENDS_EARLY);
    expect_machine(&again, (const uint16_t[]){0, 0, 0, 0, 0, 0, 0, 0}, 0);
    expect("storage of a short deck", (unsigned long)memcmp(storage, other, sizeof other), 0);
    if (!failed) printf("layout: every field is where the header says\n");
    return failed;
}
