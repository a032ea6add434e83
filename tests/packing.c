/* Packing, unpacking and serials on the edges of document 01 ('The matrix', 'The log'), through the C interface: what they answer and
   leave, one call to a line. The file packing.stdout has what they must print. */
#include <stdio.h>
#include <string.h>

#include "housechervil.h"

static void list(const uint8_t *bytes, size_t n) {
    printf(" :");
    for (size_t i = 0; i < n; i++) printf(" %u", bytes[i]);
}

/* ---- packing: cells, the answer and what it carries, the bytes afterwards */

static const uint8_t nine[9] = {3, 1, 0, 2, 2, 3, 1, 0, 2};

static void pack(const uint8_t *cells, size_t n, size_t m) {
    uint8_t bytes[4];
    memset(bytes, 170, sizeof bytes);
    hc_placed r = hc_pack(cells, n, bytes, m);
    printf("pack");
    list(cells, n);
    printf(" gives %u", r.number);
    if (r.number == 60) printf(" %zu", r.value);
    list(bytes, m);
    printf("\n");
}

/* The nine cells, two of them above 3. */
static void pack_above(size_t one, size_t other) {
    uint8_t cells[9];
    memcpy(cells, nine, sizeof cells);
    cells[one] = 255;
    cells[other] = 4;
    pack(cells, sizeof cells, 3);
}

static void packs(void) {
    /* every length to 9 */
    for (size_t n = 0; n <= 9; n++) pack(nine, n, (n + 3) / 4);
    /* 60 at each place, and at the smaller of two */
    for (size_t i = 0; i < 9; i++) pack_above(i, 8);
    pack_above(6, 2);
    /* 61, both ways */
    pack(nine, 0, 1);
    pack(nine, 1, 0);
    pack(nine, 4, 2);
    pack(nine, 5, 1);
    pack(nine, 8, 3);
    pack(nine, 9, 2);
}

/* ---- unpacking: bytes, the answer, the cells afterwards */

static const struct {
    uint8_t bytes[3];
    size_t m, n;
} unpack_cases[] = {
    /* every length to 9 */
    {{0}, 0, 0},
    {{2}, 1, 1},
    {{14}, 1, 2},
    {{57}, 1, 3},
    {{228}, 1, 4},
    {{27, 3}, 2, 5},
    {{27, 9}, 2, 6},
    {{27, 54}, 2, 7},
    {{27, 255}, 2, 8},
    {{27, 228, 3}, 3, 9},
    /* 61, both ways */
    {{0}, 1, 0},
    {{0}, 0, 1},
    {{255, 0}, 2, 4},
    {{255}, 1, 5},
    /* 62 at each number of unused bits, and only in the last byte */
    {{4}, 1, 1},
    {{128}, 1, 1},
    {{16}, 1, 2},
    {{64}, 1, 3},
    {{255, 255, 7}, 3, 9},
    {{255, 7, 3}, 3, 9},
};

static void unpacks(void) {
    for (size_t i = 0; i < sizeof unpack_cases / sizeof unpack_cases[0]; i++) {
        const uint8_t *bytes = unpack_cases[i].bytes;
        size_t m = unpack_cases[i].m, n = unpack_cases[i].n;
        uint8_t cells[9];
        memset(cells, 9, sizeof cells);
        hc_placed r = hc_unpack(bytes, m, cells, n);
        printf("unpack");
        list(bytes, m);
        printf(" gives %u", r.number);
        list(cells, n);
        printf("\n");
    }
}

/* Every byte there is, unpacked and packed again, and those cells once more. */
static void round_trip(void) {
    uint8_t bytes[256], cells[1024], packed[256], again[1024];
    for (size_t i = 0; i < sizeof bytes; i++) bytes[i] = (uint8_t)i;
    memset(cells, 9, sizeof cells);
    memset(packed, 170, sizeof packed);
    memset(again, 9, sizeof again);
    hc_unpack(bytes, sizeof bytes, cells, sizeof cells);
    hc_pack(cells, sizeof cells, packed, sizeof packed);
    hc_unpack(packed, sizeof packed, again, sizeof again);
    printf("round trip %d %d\n", memcmp(bytes, packed, sizeof bytes) == 0, memcmp(cells, again, sizeof cells) == 0);
}

/* ---- serials */

static void next(uint16_t serial) {
    printf("next %u gives %u\n", serial, hc_serial_next(serial));
}

static void compare(uint16_t first, uint16_t second) {
    printf("compare %u %u gives %u\n", first, second, hc_serial_compare(first, second));
}

static void serials(void) {
    /* the ends of the round */
    next(0);
    next(65534);
    next(65535);
    /* every kind of way, from 0 and across the end of the round */
    static const uint16_t ways[] = {0, 1, 32767, 32768, 32769, 65535};
    for (size_t i = 0; i < sizeof ways / sizeof ways[0]; i++) compare(0, ways[i]);
    for (size_t i = 0; i < sizeof ways / sizeof ways[0]; i++) compare(40000, (uint16_t)(40000 + ways[i]));
    compare(65535, 0);
}

int main(void) {
    packs();
    unpacks();
    round_trip();
    serials();
    return 0;
}
