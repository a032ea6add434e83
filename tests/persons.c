/* Persons behind logins (document 02, C-14) on their edges, through the C interface: what a request answers and leaves, one to a line. Each
   call is made twice, with person list, matrix and log between guards, once of zeros and once of bytes of 255. An answer that leans on them, a
   guard or an entry of the list that changes, and any byte that changes with a refusal that leaves all, are said on the line. The file
   persons.stdout has what they must print. */
#include <stdio.h>
#include <string.h>

#include "housechervil.h"

/* ---- a house of three logins: a partner's desk and travel login, and a colleague's; two folders of one bank, between them the shelf,
   its rival and an oil company */

enum { LOGINS = 3, FOLDERS = 5, CELLS = LOGINS * FOLDERS, DESK = 0, TRAVEL = 1, COLLEAGUE = 2 };
enum { SHELF = 0, LOANS = 1, MERGER = 2, WELLS = 3, STAFF = 4 };

static const uint16_t classes[FOLDERS] = {0, 1, 1, 2, 1};
static const uint16_t clients[FOLDERS] = {0, 1, 2, 3, 1};
static const uint16_t firsts[1] = {3}, seconds[1] = {2}; /* by pairs: the oil company and the rival */

typedef struct {
    const uint16_t *numbers;
    size_t len;
} list;

#define LIST(...) (list){(const uint16_t[]){__VA_ARGS__}, sizeof((const uint16_t[]){__VA_ARGS__}) / sizeof(uint16_t)}
#define EMPTY (list){(const uint16_t[]){0}, 0}

enum { LOG = 24, GUARD = 8, LONGEST = 6 };

/* What a call is given. The house's own person list is not used: a copy of `persons` is lent. */
typedef struct {
    hc_house house;
    list persons;
    uint8_t cells[CELLS];
    size_t cells_len;
    uint16_t login, folder, kind;
    uint8_t log[LOG];
    size_t end;
    uint16_t serial;
} call;

/* A request on a blank matrix and an empty log, by classes. */
static call ask(list persons, uint16_t login, uint16_t kind, uint16_t folder) {
    call c = {.house = {.logins = LOGINS, .classes = classes, .classes_len = FOLDERS, .clients = clients, .clients_len = FOLDERS},
              .persons = persons, .cells_len = CELLS, .login = login, .folder = folder, .kind = kind, .serial = 3};
    memset(c.log, 170, sizeof c.log);
    return c;
}

static call by_pairs(call c) {
    c.house.mode = HC_BY_PAIRS;
    c.house.firsts = firsts;
    c.house.seconds = seconds;
    c.house.firsts_len = c.house.seconds_len = 1;
    return c;
}

/* ---- a call between guards */

/* All that is lent: the guards and, between them, the copies. */
typedef struct {
    uint16_t persons[GUARD + LONGEST + GUARD];
    uint8_t cells[GUARD + CELLS + GUARD], log[GUARD + LOG + GUARD];
} lent;

static lent lay(const call *c, uint8_t guard) {
    lent l;
    memset(l.persons, guard, sizeof l.persons);
    memset(l.cells, guard, sizeof l.cells);
    memset(l.log, guard, sizeof l.log);
    memcpy(l.persons + GUARD, c->persons.numbers, c->persons.len * sizeof(uint16_t));
    memcpy(l.cells + GUARD, c->cells, CELLS);
    memcpy(l.log + GUARD, c->log, LOG);
    return l;
}

typedef struct {
    hc_reply reply;
    uint8_t cells[CELLS], log[LOG];
    int changed;
} result;

/* Whether a byte differs that may not: of the persons and the guards always, of cells and log where the answer leaves all. */
static int changed(const lent *a, const lent *b, uint16_t number) {
    int keeps = (number >= 1 && number <= 19) || number == HC_LOG_FULL;
    return memcmp(a->persons, b->persons, sizeof a->persons) || memcmp(a->cells, b->cells, GUARD) || memcmp(a->log, b->log, GUARD) ||
           memcmp(a->cells + GUARD + CELLS, b->cells + GUARD + CELLS, GUARD) || memcmp(a->log + GUARD + LOG, b->log + GUARD + LOG, GUARD) ||
           (keeps && (memcmp(a->cells, b->cells, sizeof a->cells) || memcmp(a->log, b->log, sizeof a->log)));
}

static result between(const call *c, uint8_t guard) {
    lent before = lay(c, guard), after = lay(c, guard);
    hc_house house = c->house;
    result r;
    house.persons = after.persons + GUARD;
    house.persons_len = c->persons.len;
    r.reply = hc_house_request(&house, after.cells + GUARD, c->cells_len, c->login, c->folder, c->kind, after.log + GUARD, LOG, c->end,
                               c->serial);
    memcpy(r.cells, after.cells + GUARD, CELLS);
    memcpy(r.log, after.log + GUARD, LOG);
    r.changed = changed(&before, &after, r.reply.number);
    return r;
}

static int same(const result *a, const result *b) {
    return a->reply.number == b->reply.number && a->reply.first == b->reply.first && a->reply.second == b->reply.second &&
           a->reply.count == b->reply.count && a->reply.end == b->reply.end && a->reply.serial == b->reply.serial &&
           !memcmp(a->cells, b->cells, CELLS) && !memcmp(a->log, b->log, LOG);
}

/* Calls twice, and says what must not be. */
static result make(const call *c) {
    result r = between(c, 0), again = between(c, 255);
    if (!same(&r, &again)) printf(" (other guards, other answers)");
    if (r.changed || again.changed) printf(" (a byte changed)");
    return r;
}

/* ---- what is printed */

static void bytes(const char *name, const uint8_t *from, size_t n) {
    printf("%s", name);
    for (size_t i = 0; i < n; i++) printf(" %u", from[i]);
}

static void answer(hc_reply r) {
    printf(" answers %u %u %u %u end %zu serial %u", r.number, r.first, r.second, r.count, r.end, r.serial);
}

/* Calls, and prints the reply, the rows and the new record, or that there is none. */
static result tell(const char *name, const call *c) {
    printf("%s:", name);
    result r = make(c);
    answer(r.reply);
    for (size_t person = 0; person < LOGINS; person++) bytes(person == 0 ? ", rows" : " |", r.cells + person * FOLDERS, FOLDERS);
    if (r.reply.end == c->end) {
        printf(", no record\n");
    } else {
        bytes(", record", r.log + c->end, r.reply.end - c->end);
        printf("\n");
    }
    return r;
}

/* The next request of a session: matrix, log, end and serial are handed on. */
static void next(call *c, const char *name, uint16_t login, uint16_t kind, uint16_t folder) {
    c->login = login;
    c->kind = kind;
    c->folder = folder;
    result r = tell(name, c);
    memcpy(c->cells, r.cells, CELLS);
    memcpy(c->log, r.log, LOG);
    c->end = r.reply.end;
    c->serial = r.reply.serial;
}

/* ---- the incident */

static void two_reads(const char *title, call c, uint16_t first, uint16_t second) {
    printf("%s\n", title);
    next(&c, "  the desk login reads one", DESK, HC_READ, first);
    next(&c, "  the travel login reads the other", TRAVEL, HC_READ, second);
    next(&c, "  the colleague reads the other", COLLEAGUE, HC_READ, second);
}

/* One head holds both rivals if each login is its own person, and not if both logins are one person's. */
static void incident(void) {
    two_reads("each login its own person", ask(LIST(0, 1, 2), 0, 0, 0), LOANS, MERGER);
    two_reads("desk and travel one person's", ask(LIST(0, 0, 2), 0, 0, 0), LOANS, MERGER);
    two_reads("the other one first", ask(LIST(0, 0, 2), 0, 0, 0), MERGER, LOANS);
    two_reads("the person's number is the travel login's", ask(LIST(1, 1, 2), 0, 0, 0), LOANS, MERGER);
    two_reads("the person's number is the colleague's, whose own is the desk's", ask(LIST(2, 2, 0), 0, 0, 0), LOANS, MERGER);
    two_reads("all three one person's", ask(LIST(1, 1, 1), 0, 0, 0), LOANS, MERGER);
    two_reads("two folders of one client", ask(LIST(0, 0, 2), 0, 0, 0), LOANS, STAFF);
    two_reads("by pairs, each login its own person", by_pairs(ask(LIST(0, 1, 2), 0, 0, 0)), WELLS, MERGER);
    two_reads("by pairs, desk and travel one person's", by_pairs(ask(LIST(0, 0, 2), 0, 0, 0)), WELLS, MERGER);
    two_reads("by pairs, two that no pair names", by_pairs(ask(LIST(0, 0, 2), 0, 0, 0)), LOANS, MERGER);
}

/* ---- one row behind two logins: 20, 21, 22 and lost rights come from it, and each record has the login that asked */

static void one_row(void) {
    call c = ask(LIST(2, 2, 0), 0, 0, 0);
    printf("one row behind two logins\n");
    next(&c, "  desk writes", DESK, HC_WRITE, WELLS);
    next(&c, "  travel would lose that", TRAVEL, HC_CAREFUL_READ, LOANS);
    next(&c, "  travel loses it", TRAVEL, HC_READ, LOANS);
    c.end = 0; /* the log is rotated: it has no room for all */
    next(&c, "  desk meets a foreign folder", DESK, HC_WRITE, WELLS);
    next(&c, "  travel asks for what desk may read", TRAVEL, HC_READ_AND_WRITE, LOANS);
    next(&c, "  the colleague may write the wells", COLLEAGUE, HC_WRITE, WELLS);
    c.end = 0;
    next(&c, "  desk loses what travel may write", DESK, HC_READ, WELLS);
    next(&c, "  travel may write no more", TRAVEL, HC_WRITE, LOANS);
    next(&c, "  desk meets a rival", DESK, HC_READ_AND_WRITE, MERGER);
    next(&c, "  the log is full", COLLEAGUE, HC_READ_AND_WRITE, WELLS);
    c.end = 0;
    next(&c, "  the colleague keeps the wells", COLLEAGUE, HC_READ_AND_WRITE, WELLS);
}

/* Persons without a login: their rows stay, whatever they hold, and stand in nobody's way. */
static void nobody(void) {
    call c = ask(LIST(2, 2, 2), DESK, HC_READ, LOANS);
    tell("persons 0 and 1 have no login", &c);
    c.cells[0 * FOLDERS + MERGER] = HC_MAY_READ;
    c.cells[1 * FOLDERS + WELLS] = HC_MAY_WRITE;
    c.cells[1 * FOLDERS + SHELF] = 255;
    tell("their rows hold something", &c);
    c.cells[2 * FOLDERS + MERGER] = HC_MAY_READ;
    tell("and the one with logins too", &c);
}

/* 8 is of the person's row: not of the row with the login's number, nor of another. */
static void above_3(void) {
    call clean = ask(LIST(1, 2, 0), DESK, HC_READ, LOANS), c = clean;
    c.cells[1 * FOLDERS + WELLS] = 4;
    tell("a 4 in the person's row", &c);
    c.login = TRAVEL;
    tell("the same, asked by the login of that number", &c);
    c = clean;
    c.cells[0 * FOLDERS + SHELF] = 255;
    c.cells[2 * FOLDERS + MERGER] = 4;
    tell("above 3 in every other row", &c);
    c.cells[1 * FOLDERS + STAFF] = 255;
    tell("above 3 in every row", &c);
    c.persons = LIST(2, 2, 2);
    tell("the same, of person 2", &c);
}

/* ---- 10 */

enum { NO_FAULT, SIZES, LONE_ZERO, TWO_CLASSES, PAIRS, MATRIX, LOGIN, FOLDER, KIND, CELL, END, ROOM, FAULTS };

/* The call with one fault more. A cell is put out of order in each row. */
static call spoilt(call c, int fault) {
    static const uint16_t lone[FOLDERS] = {0, 1, 0, 2, 2}, two[FOLDERS] = {0, 1, 1, 2, 2};
    switch (fault) {
    case SIZES: c.house.clients_len = FOLDERS - 1; break;
    case LONE_ZERO: c.house.classes = lone; break;
    case TWO_CLASSES: c.house.classes = two; break;
    case PAIRS:
        c = by_pairs(c);
        c.house.seconds_len = 0;
        break;
    case MATRIX: c.cells_len = CELLS - 1; break;
    case LOGIN: c.login = LOGINS; break;
    case FOLDER: c.folder = FOLDERS; break;
    case KIND: c.kind = 0; break;
    case CELL: c.cells[STAFF] = c.cells[FOLDERS + STAFF] = c.cells[2 * FOLDERS + STAFF] = 4; break;
    case END: c.end = LOG + 1; break;
    case ROOM: c.end = LOG - 5; break;
    }
    return c;
}

/* A list alone and with each fault: the answers, in the order of the title in `lists`. */
static void faults(const char *name, list persons) {
    printf("%s:", name);
    for (int fault = NO_FAULT; fault < FAULTS; fault++) {
        call c = spoilt(ask(persons, DESK, HC_READ, LOANS), fault);
        printf(" %u", make(&c).reply.number);
    }
    printf("\n");
}

static void lists(void) {
    printf("alone, then with labels unequal, a lone 0, two classes, bad pairs, a short matrix, no login, no folder, no kind, a cell above 3,");
    printf(" the end past the log, no room\n");
    faults("a good list", LIST(0, 1, 2));
    faults("one person", LIST(2, 2, 2));
    faults("one entry short", LIST(0, 1));
    faults("one entry", LIST(0));
    faults("an empty list", EMPTY);
    faults("one entry long", LIST(0, 1, 2, 0));
    faults("twice as long", LIST(0, 1, 2, 0, 1, 2));
    faults("the asking login's entry is P", LIST(3, 1, 2));
    faults("another's is P", LIST(0, 3, 2));
    faults("the last is P", LIST(0, 1, 3));
    faults("the asking login's is 65,535", LIST(65535, 1, 2));
    faults("another's is 65,535", LIST(0, 65535, 2));
    faults("the last is 65,535", LIST(0, 1, 65535));
    faults("256, whose low byte is a person", LIST(0, 1, 256));
    faults("short, and an entry is P", LIST(0, 3));
    faults("long, and the entry too many is P", LIST(0, 1, 2, 3));
}

/* Every entry is judged, whoever asks. */
static void every_entry(void) {
    for (size_t place = 0; place < LOGINS; place++) {
        uint16_t persons[LOGINS];
        hc_own_persons(persons, LOGINS);
        persons[place] = LOGINS;
        printf("entry %zu is 3:", place);
        for (uint16_t login = 0; login <= LOGINS; login++) {
            call c = ask((list){persons, LOGINS}, login, HC_READ, LOANS);
            printf(" login %u %u", login, make(&c).reply.number);
        }
        printf("\n");
    }
}

/* All faults at once, then one fewer from the top: 10 stands between 5 and 6. End and serial are handed on. */
static void order(void) {
    static const struct {
        const char *name;
        int first;
    } rows[] = {{"1", SIZES}, {"2", LONE_ZERO}, {"3", TWO_CLASSES}, {"11", PAIRS}, {"4", MATRIX}, {"5", LOGIN}, {"10", FOLDER}};
    call c;
    for (size_t i = 0; i < sizeof rows / sizeof rows[0]; i++) {
        c = ask(LIST(0, 1, 3), DESK, HC_READ, LOANS);
        for (int fault = END; fault >= rows[i].first; fault--) c = spoilt(c, fault);
        printf("%s and all after it", rows[i].name);
        tell("", &c);
    }
    for (int first = FOLDER; first <= END; first++) {
        c = ask(LIST(0, 1, 2), DESK, HC_READ, LOANS);
        for (int fault = END; fault >= first; fault--) c = spoilt(c, fault);
        printf("a good list, %d and all after it", first - FOLDER + 6);
        tell("", &c);
    }
}

/* ---- the smallest house and the largest */

static uint8_t matrix[HC_MATRIX_MAX];

/* A request of a house of so many logins and 512 folders, all of one client. Prints where the matrix is no more blank. */
static void sized(const char *name, size_t logins, const uint16_t *persons, size_t persons_len, uint16_t login) {
    static uint16_t ones[HC_FOLDERS_MAX];
    uint8_t log[LOG];
    for (size_t i = 0; i < HC_FOLDERS_MAX; i++) ones[i] = 1;
    memset(matrix, 0, sizeof matrix);
    const hc_house house = {.logins = logins, .classes = ones, .classes_len = HC_FOLDERS_MAX, .clients = ones,
                            .clients_len = HC_FOLDERS_MAX, .persons = persons, .persons_len = persons_len};
    hc_reply r = hc_house_request(&house, matrix, logins * HC_FOLDERS_MAX, login, 511, HC_READ_AND_WRITE, log, sizeof log, 0, 0);
    printf("%s:", name);
    answer(r);
    bytes(r.end == 0 ? ", no record" : ", record", log, r.end);
    for (size_t i = 0; i < sizeof matrix; i++) {
        if (matrix[i] != 0) printf(", cell %zu of row %zu is %u", i % HC_FOLDERS_MAX, i / HC_FOLDERS_MAX, matrix[i]);
    }
    printf("\n");
}

static void limits(void) {
    static uint16_t persons[HC_LOGINS_MAX + 1];
    hc_own_persons(persons, HC_LOGINS_MAX + 1);
    sized("1 login, person 0", 1, persons, 1, 0);
    sized("1 login, person 1", 1, persons + 1, 1, 0);
    sized("128 logins, each its own person", 128, persons, 128, 127);
    sized("128 logins, 127 entries", 128, persons, 127, 0);
    sized("128 logins, 129 entries", 128, persons, 129, 0);
    persons[0] = 127;
    sized("login 0 is person 127", 128, persons, 128, 0);
    persons[127] = 0;
    sized("login 127 is person 0", 128, persons, 128, 127);
    persons[127] = 128;
    sized("login 127 is person 128", 128, persons, 128, 0);
    for (size_t i = 0; i < HC_LOGINS_MAX; i++) persons[i] = 127;
    sized("all are person 127", 128, persons, 128, 64);
    for (size_t i = 0; i < HC_LOGINS_MAX; i++) persons[i] = 0;
    sized("all are person 0", 128, persons, 128, 127);
}

/* hc_own_persons writes so many entries and no more. */
static void own(void) {
    for (size_t len = 0; len <= 4; len++) {
        uint16_t persons[6] = {9, 9, 9, 9, 9, 9};
        hc_own_persons(persons + 1, len);
        printf("own persons, %zu:", len);
        for (size_t i = 0; i < 6; i++) printf(" %u", persons[i]);
        printf("\n");
    }
}

int main(void) {
    incident();
    one_row();
    nobody();
    above_3();
    lists();
    every_entry();
    order();
    limits();
    own();
    return 0;
}
