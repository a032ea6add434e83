/* The name to show for a folder, on the edges of what was asked for, through the C interface: both texts, the folder, then all four fields
   and the name, one call to a line. But for the last ones, on texts that overlap, each call is made on copies between guards, once of line ends
   and once of letters: an answer that leans on them, or a byte that changes, is said on the line. The file board.stdout has what they must print. */
#include <stdio.h>
#include <string.h>

#include "housechervil.h"

typedef struct {
    const char *bytes;
    size_t len;
} text;

#define TEXT(literal) (text){literal, sizeof(literal) - 1}

/* ---- a call between guards */

enum { GUARD = 65, LONGEST = 65600 };

/* A text's copy, as it is lent and as it must be left. */
typedef struct {
    uint8_t lent[GUARD + LONGEST + GUARD], left[GUARD + LONGEST + GUARD];
} copy;

static void lay(copy *c, text t, int guard) {
    memset(c->lent, guard, sizeof c->lent);
    memcpy(c->lent + GUARD, t.bytes, t.len);
    memcpy(c->left, c->lent, sizeof c->left);
}

static hc_stretch between(int guard, text client, text house, uint16_t folder) {
    static copy own, kept;
    lay(&own, client, guard);
    lay(&kept, house, guard);
    hc_stretch s = hc_folder_name(own.lent + GUARD, client.len, kept.lent + GUARD, house.len, folder);
    if (memcmp(own.lent, own.left, sizeof own.lent) || memcmp(kept.lent, kept.left, sizeof kept.lent)) printf(" (a byte changed)");
    return s;
}

static int same(hc_stretch a, hc_stretch b) {
    return a.number == b.number && a.text == b.text && a.place == b.place && a.length == b.length;
}

/* ---- what is printed */

static void quoted(const char *bytes, size_t len) {
    printf(" \"");
    for (size_t i = 0; i < len; i++) {
        switch (bytes[i]) {
        case '\n': printf("\\n"); break;
        case '\r': printf("\\r"); break;
        case '\t': printf("\\t"); break;
        case '\0': printf("\\0"); break;
        default: printf(bytes[i] >= ' ' && bytes[i] <= '~' ? "%c" : "\\%03o", (uint8_t)bytes[i]);
        }
    }
    printf("\"");
}

static void fields(hc_stretch s) {
    printf(" %u %u %zu %zu", s.number, s.text, s.place, s.length);
}

/* Asks, and prints the answer. */
static void answer(text client, text house, uint16_t folder) {
    printf(", folder %u gives", folder);
    hc_stretch s = between('\n', client, house, folder), again = between('g', client, house, folder);
    fields(s);
    if (!same(s, again)) {
        printf(" (with other guards");
        fields(again);
        printf(")");
    }
    if (s.number == HC_ACCEPTED) quoted((s.text == HC_TEXT_CLIENT ? client : house).bytes + s.place, s.length);
    printf("\n");
}

static void name(text client, text house, uint16_t folder) {
    printf("name");
    quoted(client.bytes, client.len);
    quoted(house.bytes, house.len);
    answer(client, house, folder);
}

/* ---- the edges */

static void client_or_house(text house) {
    /* the client's own line */
    name(TEXT("ours\n"), house, 0);
    name(TEXT("ours\nours too\n"), house, 1);
    /* an empty line of the client */
    name(TEXT("\n\nours\n"), house, 0);
    name(TEXT("\n\nours\n"), house, 1);
    name(TEXT("\n\nours\n"), house, 2);
    /* a client's text that is too short, and none */
    name(TEXT("ours\n"), house, 1);
    name(TEXT("ours"), house, 1);
    name(TEXT(""), house, 0);
    name(TEXT(""), house, 2);
    /* the last line, without byte 10 and with it */
    name(TEXT("ours"), house, 0);
    name(TEXT("\nours"), house, 1);
    name(TEXT(""), TEXT("shelf\nloans"), 1);
    name(TEXT(""), TEXT("shelf\nloans\n"), 1);
    name(TEXT(""), TEXT("shelf\nloans\n"), 2);
}

static void nobody(text house) {
    /* past both texts */
    name(TEXT("ours\n"), house, 3);
    name(TEXT("ours\n"), house, 511);
    name(TEXT("ours\n"), house, 512);
    name(TEXT("ours\n"), house, 65535);
    /* an empty line in both */
    name(TEXT("a\n\nc\n"), TEXT("d\n\nf\n"), 1);
    name(TEXT("a"), TEXT("d\n\nf\n"), 1);
    /* both texts empty, and of byte 10 alone */
    name(TEXT(""), TEXT(""), 0);
    name(TEXT(""), TEXT(""), 65535);
    name(TEXT("\n"), TEXT(""), 0);
    name(TEXT(""), TEXT("\n"), 0);
    name(TEXT("\n"), TEXT("\n"), 1);
    name(TEXT("\n"), house, 0);
    name(TEXT("\n"), house, 1);
}

/* Only byte 10 ends a line, and nothing is trimmed. */
static void ordinary_bytes(text house) {
    for (uint16_t folder = 0; folder < 4; folder++) name(TEXT(" \n\t\n\r\n\0\n"), house, folder);
    name(TEXT(" ours \r\n"), house, 0);
    name(TEXT("one\rline\0still"), house, 0);
    name(TEXT("one\rline\0still"), house, 1);
    /* bytes that differ from 10 in little */
    name(TEXT("\n\v\t\016\032\212\n"), house, 1);
}

/* ---- long texts, which are told by their form */

static char room[LONGEST];

/* A first line of so many letters, then "name". */
static void after_a_line_of(size_t letters, uint16_t folder) {
    memset(room, 'x', letters);
    memcpy(room + letters, "\nname\n", 6);
    printf("after a line of %zu letters", letters);
    answer((text){room, letters + 6}, TEXT(""), folder);
}

/* So many empty lines, then "name". */
static void after_empty_lines(size_t lines, uint16_t folder) {
    memset(room, '\n', lines);
    memcpy(room + lines, "name", 4);
    printf("after %zu empty lines", lines);
    answer(TEXT("ours"), (text){room, lines + 4}, folder);
}

static void long_texts(void) {
    /* around blocks of 64 bytes */
    static const size_t letters[] = {57, 58, 59, 62, 63, 64, 65, 127, 128, 129, 1000};
    for (size_t i = 0; i < sizeof letters / sizeof letters[0]; i++) after_a_line_of(letters[i], 1);
    after_a_line_of(129, 0);
    /* around numbers that fill a byte, and the last folder */
    static const size_t lines[] = {63, 64, 65, 255, 256, 257, 511, 512, 65534, 65535};
    for (size_t i = 0; i < sizeof lines / sizeof lines[0]; i++) after_empty_lines(lines[i], (uint16_t)lines[i]);
    after_empty_lines(512, 511);
    after_empty_lines(65535, 65534);
    /* lines past 65,535 are of no folder */
    after_empty_lines(65536, 65535);
    after_empty_lines(65537, 1);
}

/* ---- two texts in one place: nothing is written, so they may be the same or overlap */

static void overlapping(void) {
    static const uint8_t both[] = "shelf\n\nmerger\nwells";
    size_t len = sizeof both - 1;
    for (uint16_t folder = 0; folder < 5; folder++) {
        printf("one text twice, folder %u gives", folder);
        fields(hc_folder_name(both, len, both, len, folder));
        printf("\nits first 9 bytes, and all from the sixth on, folder %u gives", folder);
        fields(hc_folder_name(both, 9, both + 5, len - 5, folder));
        printf("\n");
    }
}

int main(void) {
    const text house = TEXT("shelf\nloans\nmerger\n");
    client_or_house(house);
    nobody(house);
    ordinary_bytes(house);
    long_texts();
    overlapping();
    return 0;
}
