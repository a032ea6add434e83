/* Requests and register checks on the edges of document 01 ('More edges' and the refusal table; docs/RULES.md has them), through the C
   interface: what they answer and leave, one to a line. The file edges.stdout has what they must print. */
#include <stdio.h>
#include <string.h>

#include "housechervil.h"

/* The mode of these cases, with lists of no pairs; pairs.c has the others. Each login is its own person; persons.c has others. */
#define BY_CLASSES(any) HC_BY_CLASSES, any, 0, any, 0
static uint16_t own[HC_LOGINS_MAX + 1];

static void list(const char *name, const uint8_t *bytes, size_t n) {
    printf("%s", name);
    for (size_t i = 0; i < n; i++) printf(" %u", bytes[i]);
}

/* An answer's number and what it carries. */
static void answer(unsigned number, unsigned first, unsigned second, unsigned count) {
    printf(" %u", number);
    switch (number) {
    case HC_GRANTED: printf(" %u", count); break;
    case HC_REGISTER_TWO_CLASSES: printf(" %u %u", first, second); break;
    case HC_REGISTER_LONE_ZERO:
    case HC_ROW_CELL:
    case HC_RIVAL:
    case HC_FOREIGN:
    case HC_AT_STAKE: printf(" %u", first); break;
    }
}

static void tell(hc_reply r) {
    printf(" answers");
    answer(r.number, r.first, r.second, r.count);
    printf(" end %zu serial %u", r.end, r.serial);
}

/* ---- one request on the register of the table L0 to L11: two logins, five folders */

static const uint16_t table_classes[5] = {0, 1, 1, 2, 1};
static const uint16_t table_clients[5] = {0, 1, 2, 3, 1};

static hc_reply ask_table(uint8_t matrix[10], uint16_t login, uint16_t folder, uint16_t kind, uint8_t *log, size_t log_len, size_t end, uint16_t serial) {
    return hc_request(2, table_classes, 5, table_clients, 5, BY_CLASSES(table_clients), own, 2, matrix, 10, login, folder, kind, log, log_len,
                      end, serial);
}

typedef struct {
    const char *name;
    uint8_t cells[10];
    uint16_t login, folder, kind;
    size_t end;
    uint16_t serial;
} ask_case;

static const ask_case asks[] = {
    /* each kind on a blank matrix, and a right asked for again */
    {"read", {0}, 0, 1, HC_READ, 0, 7},
    {"careful read", {0}, 0, 1, HC_CAREFUL_READ, 0, 7},
    {"write", {0}, 0, 1, HC_WRITE, 0, 7},
    {"read and write", {0}, 0, 1, HC_READ_AND_WRITE, 0, 7},
    {"asked again", {0, 3, 0, 0, 3}, 0, 1, HC_READ_AND_WRITE, 0, 7},
    /* write rights taken back, and not */
    {"read takes back", {2, 2, 0, 2, 3}, 0, 1, HC_READ, 0, 7},
    {"read and write takes back", {2, 0, 2, 2, 1}, 0, 4, HC_READ_AND_WRITE, 0, 7},
    {"sanitised loses write", {3, 0, 0, 0, 0}, 0, 3, HC_READ, 0, 7},
    {"both becomes read", {0, 3, 0, 0, 0}, 0, 3, HC_READ, 0, 7},
    {"sanitised read takes nothing", {0, 2, 2, 2, 2}, 0, 0, HC_READ, 0, 7},
    {"sanitised careful read", {0, 2, 2, 2, 2}, 0, 0, HC_CAREFUL_READ, 0, 7},
    {"write takes nothing", {2, 0, 0, 2, 0}, 0, 1, HC_WRITE, 0, 7},
    {"writes gathered", {0, 2, 0, 2, 0}, 0, 2, HC_WRITE, 0, 7},
    /* 20, 21 and 22, and the smallest folder */
    {"rival", {0, 0, 1, 0, 0}, 0, 1, HC_READ, 0, 7},
    {"smallest rival", {0, 1, 0, 0, 1}, 0, 2, HC_READ, 0, 7},
    {"foreign on write", {0, 0, 0, 1, 0}, 0, 1, HC_WRITE, 0, 7},
    {"foreign on both", {0, 0, 0, 1, 0}, 0, 1, HC_READ_AND_WRITE, 0, 7},
    {"foreign to sanitised", {0, 0, 0, 1, 0}, 0, 0, HC_WRITE, 0, 7},
    {"sanitised is not foreign", {1, 0, 0, 0, 0}, 0, 1, HC_WRITE, 0, 7},
    {"at stake", {2, 0, 0, 2, 0}, 0, 1, HC_CAREFUL_READ, 0, 7},
    /* 20 before 22, and before a smaller folder of 21 */
    {"20 before 22", {2, 0, 1, 2, 0}, 0, 1, HC_CAREFUL_READ, 0, 7},
    {"20 before 21 on write", {0, 0, 0, 1, 1}, 0, 2, HC_WRITE, 0, 7},
    {"20 before 21 on both", {0, 0, 0, 1, 1}, 0, 2, HC_READ_AND_WRITE, 0, 7},
    /* rows that no blank matrix leads to */
    {"rivals together, one again", {0, 1, 1, 0, 0}, 0, 1, HC_READ, 0, 7},
    {"rivals together, another class", {0, 1, 1, 0, 0}, 0, 3, HC_READ, 0, 7},
    {"rivals together, sanitised", {0, 1, 1, 0, 0}, 0, 0, HC_WRITE, 0, 7},
    {"reads one writes another, write", {0, 1, 0, 2, 0}, 0, 1, HC_WRITE, 0, 7},
    {"reads one writes another, both", {0, 1, 0, 2, 0}, 0, 1, HC_READ_AND_WRITE, 0, 7},
    {"reads one writes another, again", {0, 1, 0, 2, 0}, 0, 3, HC_WRITE, 0, 7},
    {"cell 4", {0, 0, 4, 0, 255}, 0, 1, HC_READ, 0, 7},
    /* the rows of other logins are not consulted, and stay */
    {"other row", {0, 0, 0, 0, 0, 0, 0, 1, 0, 0}, 0, 1, HC_READ, 0, 0},
    {"every right", {3, 3, 3, 3, 3, 3, 3, 3, 3, 3}, 1, 3, HC_READ, 0, 0},
    {"cell 255", {0, 0, 0, 0, 0, 0, 0, 0, 0, 255}, 1, 1, HC_READ, 0, 0},
    {"others above 3", {9, 99, 4, 255, 7, 0, 0, 0, 0, 2}, 1, 2, HC_READ_AND_WRITE, 0, 0},
    /* 5 to 9, and which comes first */
    {"login 2", {0}, 2, 1, HC_READ, 0, 0},
    {"folder 5", {0}, 0, 5, HC_READ, 0, 7},
    {"kind 0", {0}, 0, 1, 0, 0, 7},
    {"kind 5", {0}, 0, 1, 5, 0, 7},
    {"5 before 6", {4}, 2, 5, 0, 0, 0},
    {"6 before 7", {4}, 0, 5, 0, 17, 0},
    {"7 before 8", {4}, 0, 1, 5, 17, 0},
    {"8 before 9", {4, 0, 1, 0, 0}, 0, 1, HC_READ, 17, 0},
    /* the log's end: past its buffer, and at its length */
    {"9 before 20", {0, 0, 1, 0, 0}, 0, 1, HC_READ, 17, 3},
    {"end far past", {0}, 0, 1, HC_READ, SIZE_MAX, 3},
    {"end at length", {0, 0, 0, 2, 0}, 0, 1, HC_READ, 16, 3},
    /* a record in just enough room and in one byte less */
    {"grant of 7 in 7", {0, 0, 0, 2, 0}, 0, 1, HC_READ, 9, 3},
    {"grant of 7 in 6", {0, 0, 0, 2, 0}, 0, 1, HC_READ, 10, 3},
    {"20 of 7 in 7", {0, 0, 1, 0, 0}, 0, 1, HC_READ, 9, 3},
    {"20 of 7 in 6", {0, 0, 1, 0, 0}, 0, 1, HC_READ, 10, 3},
    {"21 of 7 in 6", {0, 0, 0, 1, 0}, 0, 1, HC_WRITE, 10, 3},
    {"22 of 7 in 6", {0, 0, 0, 2, 0}, 0, 1, HC_CAREFUL_READ, 10, 3},
    /* serials of each length, and the last */
    {"grant of 6 in 6", {0}, 0, 1, HC_READ, 10, 127},
    {"serial 128", {0}, 0, 1, HC_READ, 9, 128},
    {"serial 128 in 6", {0}, 0, 1, HC_READ, 10, 128},
    {"serial 65535", {0, 0, 1, 0, 0}, 0, 1, HC_READ_AND_WRITE, 4, 65535},
};

static void ask(ask_case c) {
    uint8_t log[16];
    memset(log, 170, sizeof log);
    hc_reply r = ask_table(c.cells, c.login, c.folder, c.kind, log, sizeof log, c.end, c.serial);
    printf("%s", c.name);
    tell(r);
    list(" cells", c.cells, 10);
    list(" log", log, sizeof log);
    printf("\n");
}

/* ---- registers: what the check says, and a request of login 0 for folder 0 on a blank matrix of some length */

static void check(const char *name, size_t logins, const uint16_t *classes, size_t classes_len, const uint16_t *clients, size_t clients_len, size_t size) {
    uint8_t matrix[513] = {0};
    uint8_t log[6];
    memset(log, 170, sizeof log);
    hc_register_answer v = hc_register_check(logins, classes, classes_len, clients, clients_len, BY_CLASSES(clients));
    printf("%s check", name);
    if (v.number == HC_ACCEPTED) {
        printf(" 0");
    } else {
        answer(v.number, v.first, v.second, 0);
    }
    tell(hc_request(logins, classes, classes_len, clients, clients_len, BY_CLASSES(clients), own, logins, matrix, size, 0, 0, HC_READ, log,
                    sizeof log, 0, 0));
    printf("\n");
}

#define LIST(...) (const uint16_t[]){__VA_ARGS__}, sizeof((const uint16_t[]){__VA_ARGS__}) / sizeof(uint16_t)

static void registers(void) {
    uint16_t ones[513];
    for (size_t i = 0; i < 513; i++) ones[i] = 1;
    /* refusal 1, and its edges */
    check("no logins", 0, LIST(0), LIST(0), 0);
    check("1 login", 1, LIST(0), LIST(0), 1);
    check("128 logins", 128, LIST(0), LIST(0), 128);
    check("129 logins", 129, LIST(0), LIST(0), 129);
    check("no folders", 1, ones, 0, ones, 0, 0);
    check("more classes", 1, LIST(0, 0), LIST(0), 1);
    check("more clients", 1, LIST(0), LIST(0, 0), 1);
    check("512 folders", 1, ones, 512, ones, 512, 512);
    check("513 folders", 1, ones, 513, ones, 513, 513);
    /* refusals 2 and 3, the folders they carry, and which comes first; 4 */
    check("lone class 0", 1, LIST(0), LIST(5), 1);
    check("lone client 0", 1, LIST(0, 1), LIST(0, 0), 2);
    check("one class of two clients", 1, LIST(1, 1), LIST(4, 5), 2);
    check("two classes of one client", 1, LIST(1, 2), LIST(4, 4), 2);
    check("first that differs", 1, LIST(1, 2, 1, 2), LIST(4, 5, 5, 4), 4);
    check("first earlier one", 1, LIST(1, 1, 2), LIST(4, 4, 4), 3);
    check("2 before 3", 1, LIST(1, 2, 0), LIST(4, 4, 5), 3);
    check("3 before 4", 1, LIST(1, 2), LIST(4, 4), 3);
    check("matrix too short", 2, LIST(1, 1), LIST(4, 5), 3);
    check("matrix too long", 2, LIST(1, 1), LIST(4, 5), 5);
}

/* ---- the largest house: 128 logins, 512 folders; the cells of its last two folders */

static void largest(const char *name, uint16_t login, uint16_t folder) {
    static uint8_t matrix[65536];
    uint16_t ones[512];
    uint8_t log[9];
    memset(matrix, 0, sizeof matrix);
    memset(log, 170, sizeof log);
    for (size_t i = 0; i < 512; i++) ones[i] = 1;
    hc_reply r = hc_request(128, ones, 512, ones, 512, BY_CLASSES(ones), own, 128, matrix, sizeof matrix, login, folder, HC_READ_AND_WRITE, log,
                            sizeof log, 0, 0);
    printf("%s", name);
    tell(r);
    list(" cells", matrix + 65534, 2);
    list(" log", log, sizeof log);
    printf("\n");
}

/* The longest record: a write right on each of 512 folders, of which a read of the last, of another client, takes back all but one. */
static void longest(const char *name, size_t end) {
    uint16_t labels[512];
    uint8_t matrix[512], log[1024];
    for (size_t i = 0; i < 512; i++) labels[i] = i == 511 ? 2 : 1;
    memset(matrix, 2, sizeof matrix);
    memset(log, 170, sizeof log);
    hc_reply r = hc_request(1, labels, 512, labels, 512, BY_CLASSES(labels), own, 1, matrix, 512, 0, 511, HC_READ, log, sizeof log, end, 65535);
    printf("%s", name);
    tell(r);
    list(" cells", matrix, 4);
    list(" ..", matrix + 508, 4);
    list(" log", log + 117, 18);
    list(" ..", log + 1012, 12);
    printf("\n");
}

/* ---- the table L0 to L11: matrix and log are handed on from request to request */

static void table(void) {
    static const struct {
        const char *name;
        uint16_t kind, login, folder;
    } rows[] = {
        {"L0", HC_WRITE, 0, 1}, {"L1", HC_WRITE, 0, 3}, {"L2", HC_CAREFUL_READ, 0, 1}, {"L3", HC_READ, 0, 1}, {"L4", HC_READ, 0, 2},
        {"L5", HC_READ, 0, 0}, {"L6", HC_WRITE, 0, 4}, {"L7", HC_READ, 0, 3}, {"L8", HC_WRITE, 0, 4},
        {"L9", HC_READ_AND_WRITE, 1, 2}, {"L10", HC_WRITE, 1, 0}, {"L11", HC_READ, 1, 4}, {"end", HC_READ, 2, 0},
    };
    uint8_t matrix[10] = {0}, log[128];
    size_t end = 0;
    uint16_t serial = 0;
    memset(log, 170, sizeof log);
    for (size_t i = 0; i < sizeof rows / sizeof rows[0]; i++) {
        hc_reply r = ask_table(matrix, rows[i].login, rows[i].folder, rows[i].kind, log, sizeof log, end, serial);
        printf("%s", rows[i].name);
        tell(r);
        printf(" prints");
        if (r.end == end) {
            printf(" - %u", r.number);
        } else {
            /* every number of these records has one byte */
            printf(" %u %u", log[end], log[end + 4]);
            list("", log + end + 6, log[end + 5]);
            list(" record", log + end, r.end - end);
        }
        printf("\n");
        end = r.end;
        serial = r.serial;
    }
    list("cells", matrix, 10);
    printf("\n");
}

int main(void) {
    hc_own_persons(own, sizeof own / sizeof own[0]);
    for (size_t i = 0; i < sizeof asks / sizeof asks[0]; i++) ask(asks[i]);
    registers();
    largest("login 127 of 128", 127, 511);
    largest("login 128 of 128", 128, 511);
    largest("folder 511 of 512", 0, 511);
    largest("folder 512 of 512", 0, 512);
    longest("511 taken back in just enough room", 120);
    longest("511 taken back in too little room", 121);
    table();
    return 0;
}
