/* Conflicts by pair (document 02, C-12) on their edges, through the C interface: what the register check says and what a request answers and
   leaves, one case to a line. Each call is made twice, with both lists of pairs between guards: once of two clients of the house, which
   would be in conflict if they were read, once of zeros. An answer that leans on them, or an entry that changes, is said on the line. The
   file pairs.stdout has what they must print. */
#include <stdio.h>
#include <string.h>

#include "housechervil.h"

/* ---- a list of pairs between guards */

enum { GUARD = 8, LONGEST = 513 };

typedef struct {
    const uint16_t *numbers;
    size_t len;
} list;

#define LIST(...) (list){(const uint16_t[]){__VA_ARGS__}, sizeof((const uint16_t[]){__VA_ARGS__}) / sizeof(uint16_t)}
#define NONE (list){(const uint16_t[]){0}, 0}

/* A list's copy, as it is lent and as it must be left. */
typedef struct {
    uint16_t lent[GUARD + LONGEST + GUARD], left[GUARD + LONGEST + GUARD];
} copy;

static void lay(copy *c, list l, uint16_t guard) {
    for (size_t i = 0; i < GUARD + LONGEST + GUARD; i++) c->lent[i] = guard;
    memcpy(c->lent + GUARD, l.numbers, l.len * sizeof(uint16_t));
    memcpy(c->left, c->lent, sizeof c->left);
}

/* ---- a house of two logins and six folders: the public shelf, an author, two readers, a stranger of another class, the author again */

enum { AUTHOR = 7, READER = 8, OTHER = 9, STRANGER = 5 };

static const uint16_t house_classes[6] = {0, 1, 1, 1, 2, 1};
static const uint16_t house_clients[6] = {0, AUTHOR, READER, OTHER, STRANGER, AUTHOR};
static const uint16_t persons[2] = {0, 1};

typedef struct {
    uint8_t mode;
    list firsts, seconds;
    const uint16_t *classes, *clients;
    uint8_t cells[12];
    size_t cells_len;
    uint16_t login, folder, kind;
    size_t end;
    uint16_t serial;
} call;

/* What a call answers and leaves. */
typedef struct {
    hc_register_answer check;
    hc_reply reply;
    uint8_t cells[12], log[16];
    int changed;
} result;

static result between(call c, uint16_t first_guard, uint16_t second_guard) {
    static copy firsts, seconds;
    result r;
    lay(&firsts, c.firsts, first_guard);
    lay(&seconds, c.seconds, second_guard);
    memcpy(r.cells, c.cells, sizeof r.cells);
    memset(r.log, 170, sizeof r.log);
    r.check = hc_register_check(2, c.classes, 6, c.clients, 6, c.mode, firsts.lent + GUARD, c.firsts.len, seconds.lent + GUARD,
                                c.seconds.len);
    r.reply = hc_request(2, c.classes, 6, c.clients, 6, c.mode, firsts.lent + GUARD, c.firsts.len, seconds.lent + GUARD, c.seconds.len,
                         persons, 2, r.cells, c.cells_len, c.login, c.folder, c.kind, r.log, sizeof r.log, c.end, c.serial);
    r.changed = memcmp(firsts.lent, firsts.left, sizeof firsts.lent) || memcmp(seconds.lent, seconds.left, sizeof seconds.lent);
    return r;
}

static int same(result a, result b) {
    return a.check.number == b.check.number && a.reply.number == b.reply.number && a.reply.first == b.reply.first &&
           a.reply.second == b.reply.second && a.reply.count == b.reply.count && a.reply.end == b.reply.end &&
           a.reply.serial == b.reply.serial && !memcmp(a.cells, b.cells, sizeof a.cells) && !memcmp(a.log, b.log, sizeof a.log);
}

static void bytes(const char *name, const uint8_t *from, size_t n) {
    printf("%s", name);
    for (size_t i = 0; i < n; i++) printf(" %u", from[i]);
}

/* Calls, and prints: the check, then all six numbers of the reply, the cells and the log. */
static void tell(const char *name, call c) {
    result r = between(c, AUTHOR, STRANGER), again = between(c, 0, 0);
    printf("%s: check %u %u %u, answers %u %u %u %u", name, r.check.number, r.check.first, r.check.second, r.reply.number, r.reply.first,
           r.reply.second, r.reply.count);
    printf(" end %zu serial %u", r.reply.end, r.reply.serial);
    bytes(" cells", r.cells, sizeof r.cells);
    bytes(" log", r.log, sizeof r.log);
    if (!same(r, again)) printf(" (other guards, other answers)");
    if (r.changed || again.changed) printf(" (an entry changed)");
    printf("\n");
}

/* A request of login 0 for a folder, with these pairs, on this row. */
static call ask(list firsts, list seconds, const char *row, uint16_t folder, uint16_t kind) {
    call c = {HC_BY_PAIRS, firsts, seconds, house_classes, house_clients, {0}, 12, 0, folder, kind, 0, 3};
    for (size_t i = 0; i < 6; i++) c.cells[i] = (uint8_t)(row[i] - '0');
    return c;
}

/* ---- the edges */

/* The author is in conflict with each reader: the two pairs of the incident, one of them one way round, the other the other. */
static void incident(void) {
    list firsts = LIST(OTHER, AUTHOR), seconds = LIST(AUTHOR, READER);
    tell("a reader, the other one read", ask(firsts, seconds, "000100", 2, HC_READ));
    tell("the other, one reader read", ask(firsts, seconds, "001000", 3, HC_READ));
    tell("the author, both readers read", ask(firsts, seconds, "001100", 1, HC_READ));
    tell("the author, the other reader read", ask(firsts, seconds, "000100", 5, HC_READ));
    tell("a reader, the author read", ask(firsts, seconds, "010000", 2, HC_READ));
    tell("the other, the author's second folder read", ask(firsts, seconds, "000001", 3, HC_READ));
    tell("the stranger, all read", ask(firsts, seconds, "111101", 4, HC_READ));
    tell("the shelf, all read", ask(firsts, seconds, "011111", 0, HC_READ));
    tell("a reader, the shelf read", ask(firsts, seconds, "100000", 2, HC_READ));
    tell("the author again", ask(firsts, seconds, "010001", 1, HC_READ));
    call by_classes = ask(firsts, seconds, "000100", 2, HC_READ);
    by_classes.mode = HC_BY_CLASSES;
    tell("by classes, a reader, the other one read", by_classes);
}

/* The four kinds: a rival comes first in each; foreign and at stake are by client, in conflict or not. */
static void kinds(void) {
    list author = LIST(AUTHOR), reader = LIST(READER);
    for (uint16_t kind = HC_READ; kind <= HC_READ_AND_WRITE; kind++) {
        tell("a rival", ask(author, reader, "201010", 1, kind));
        tell("a folder of no conflict", ask(author, reader, "000010", 1, kind));
        tell("write rights of both sorts", ask(author, reader, "202022", 1, kind));
    }
    tell("only what may be read is a rival", ask(author, reader, "002000", 1, HC_WRITE));
    tell("a sanitised folder is not foreign", ask(author, reader, "100000", 1, HC_WRITE));
}

/* Pairs that pass. */
static void good(void) {
    tell("no pairs", ask(NONE, NONE, "001100", 1, HC_READ));
    tell("a pair of one class, another asked for", ask(LIST(READER), LIST(OTHER), "001100", 1, HC_READ));
    tell("a pair of two classes", ask(LIST(STRANGER), LIST(AUTHOR), "000010", 1, HC_READ));
    tell("a chain", ask(LIST(STRANGER, READER), LIST(READER, AUTHOR), "000010", 1, HC_READ));
    tell("the same pair twice", ask(LIST(READER, READER), LIST(AUTHOR, AUTHOR), "001000", 1, HC_READ));
    tell("the same pair both ways", ask(LIST(READER, AUTHOR), LIST(AUTHOR, READER), "001000", 1, HC_READ));
    tell("clients without a folder", ask(LIST(1, 65535, 2), LIST(AUTHOR, 1, 3), "001110", 1, HC_READ));
    tell("the second pair", ask(LIST(READER, AUTHOR), LIST(STRANGER, OTHER), "001110", 1, HC_READ));
    static const uint8_t modes[] = {0, 1, 2, 127, 128, 255};
    for (size_t i = 0; i < sizeof modes; i++) {
        call c = ask(LIST(STRANGER), LIST(AUTHOR), "001010", 1, HC_READ);
        c.mode = modes[i];
        printf("mode %u, ", modes[i]);
        tell("a pair of two classes", c);
    }
}

/* A call by pairs, and the same by classes, where the pairs are not looked at. */
static void both(const char *name, call c) {
    tell(name, c);
    c.mode = HC_BY_CLASSES;
    tell("  by classes", c);
}

/* 11: lists of unequal length, over 256 pairs, client 0, one client twice. */
static void bad(void) {
    both("more firsts", ask(LIST(AUTHOR, READER), LIST(READER), "000000", 1, HC_READ));
    both("more seconds", ask(LIST(AUTHOR), LIST(READER, STRANGER), "000000", 1, HC_READ));
    both("no firsts", ask(NONE, LIST(READER), "000000", 1, HC_READ));
    both("no seconds", ask(LIST(READER), NONE, "000000", 1, HC_READ));
    both("client 0 first", ask(LIST(0), LIST(READER), "000000", 1, HC_READ));
    both("client 0 second", ask(LIST(AUTHOR, AUTHOR), LIST(READER, 0), "000000", 1, HC_READ));
    both("client 0 twice", ask(LIST(0), LIST(0), "000000", 1, HC_READ));
    both("one client twice", ask(LIST(AUTHOR, OTHER, READER), LIST(READER, OTHER, AUTHOR), "000000", 1, HC_READ));
    both("one without a folder twice", ask(LIST(65535), LIST(65535), "000000", 1, HC_READ));
}

/* So many pairs of clients without a folder, of which the last names author and reader, or one client twice. */
static void many(const char *name, size_t count, uint16_t last) {
    static uint16_t firsts[LONGEST], seconds[LONGEST];
    for (size_t i = 0; i < count; i++) {
        firsts[i] = (uint16_t)(1000 + i);
        seconds[i] = (uint16_t)(2000 + i);
    }
    firsts[count - 1] = AUTHOR;
    seconds[count - 1] = last;
    printf("of %zu pairs ", count);
    tell(name, ask((list){firsts, count}, (list){seconds, count}, "001000", 1, HC_READ));
}

static void limits(void) {
    static const size_t counts[] = {1, 255, 256, 257, 512, 513};
    for (size_t i = 0; i < sizeof counts / sizeof counts[0]; i++) {
        many("the last is in the way", counts[i], READER);
        many("the last is bad", counts[i], AUTHOR);
    }
}

/* All faults at once, then one fewer from the top: 3, 11, 4, 5. End and serial are handed on, and no byte moves. */
static void order(void) {
    static const uint16_t lone[6] = {0, 1, 0, 1, 2, 1}, two[6] = {0, 1, 1, 1, 2, 2};
    call c = ask(LIST(AUTHOR, AUTHOR), LIST(READER, AUTHOR), "444444", 6, 0);
    c.login = 2;
    c.end = 17;
    c.serial = 65535;
    c.cells_len = 11;
    c.classes = lone;
    both("2 before 11", c);
    c.classes = two;
    both("3 before 11", c);
    c.classes = house_classes;
    both("11 before 4", c);
    c.cells_len = 12;
    both("11 before 5", c);
    c.login = 0;
    both("11 before 6", c);
    c.folder = 1;
    both("11 before 7", c);
    c.kind = HC_READ;
    both("11 before 8", c);
    memset(c.cells, 0, sizeof c.cells);
    both("11 before 9", c);
    c.end = 16;
    both("11 before 30", c);
    c.end = 0;
    both("11 before a grant", c);
    c.seconds = LIST(READER, STRANGER);
    c.cells_len = 11;
    both("good pairs, 4", c);
}

int main(void) {
    incident();
    kinds();
    good();
    bad();
    limits();
    order();
    return 0;
}
