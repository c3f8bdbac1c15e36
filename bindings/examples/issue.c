/* An example host: reads a deck, runs it, prints what its supervisor calls ask for, and writes the deck of the machine that is left.
   issue DECK OUTPUT. The calls are those of examples/issue.deck: R 01 prints the WR4 bytes of storage from XR1 on, R 02 ends. */
#include "aqtovmesh.h"
#include <stdio.h>

enum { CALL_PRINT = 0x01, CALL_END = 0x02, CALL_LENGTH = 3, BUDGET = 1000000 };

static uint8_t deck[AQTOVMESH_DECK_LIMIT + 1]; /* one byte more, so that a longer file is refused and not cut */
static uint8_t storage[AQTOVMESH_STORAGE_LIMIT];
static uint8_t out[AQTOVMESH_DECK_LIMIT];

/* Code page 037: blank, digits, capitals and a few signs; '?' for the rest. */
static char letter(uint8_t b) {
    if (b >= 0xF0 && b <= 0xF9) return (char)('0' + (b - 0xF0));
    if (b >= 0xC1 && b <= 0xC9) return (char)('A' + (b - 0xC1));
    if (b >= 0xD1 && b <= 0xD9) return (char)('J' + (b - 0xD1));
    if (b >= 0xE2 && b <= 0xE9) return (char)('S' + (b - 0xE2));
    switch (b) {
    case 0x40: return ' ';
    case 0x4B: return '.';
    case 0x6B: return ',';
    case 0x60: return '-';
    case 0x61: return '/';
    case 0x5C: return '*';
    default: return '?';
    }
}

/* A line that doesn't lie in storage is the program's fault: nothing is printed. */
static int print_line(const aqtovmesh_machine *m, size_t size) {
    size_t at = m->xr1, length = m->wr[0];
    if (at + length > size) return 0;
    for (size_t i = 0; i < length; i++) putchar(letter(storage[at + i]));
    putchar('\n');
    return 1;
}

static int save(const char *path, size_t length) {
    FILE *f = fopen(path, "wb");
    if (!f) return 0;
    int whole = fwrite(out, 1, length, f) == length;
    return fclose(f) == 0 && whole;
}

static int fail(const char *what, unsigned number) {
    printf("%s: %u\n", what, number);
    return 1;
}

int main(int argc, char **argv) {
    if (argc != 3) return fail("usage: issue DECK OUTPUT, not words", (unsigned)argc - 1);
    FILE *f = fopen(argv[1], "rb");
    if (!f) return fail("no deck to read", 0);
    size_t deck_length = fread(deck, 1, sizeof deck, f);
    fclose(f);

    /* the size that a deck is for stands in its second byte; the reader refuses every other */
    size_t size = deck_length < 2 ? AQTOVMESH_PAGE : (deck[1] + 1u) * AQTOVMESH_PAGE;
    aqtovmesh_machine m = {0};
    uint8_t refused = aqtovmesh_read(&m, deck, deck_length, storage, size);
    if (refused) return fail("deck refused", refused);

    uint64_t steps = 0;
    for (;;) {
        aqtovmesh_ended e = aqtovmesh_run(&m, storage, size, BUDGET);
        steps += e.steps;
        if (e.number != AQTOVMESH_SUPERVISOR_CALL) return fail("stopped", e.number);
        if (e.r == CALL_END) break;
        if (e.r != CALL_PRINT) return fail("unknown call", e.r);
        if (!print_line(&m, size)) return fail("line outside storage", e.r);
        m.iar = (uint16_t)(m.iar + CALL_LENGTH);
    }

    aqtovmesh_written w = aqtovmesh_write(&m, storage, size, out, sizeof out);
    if (w.number) return fail("deck not written", w.number);
    if (!save(argv[2], w.length)) return fail("no file to write", 0);
    printf("%llu steps, a deck of %zu bytes\n", (unsigned long long)steps, w.length);
    return 0;
}
