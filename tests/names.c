/* The header's names against the library: each answer is really got, and printed with its name, the number that came and its words. A
   name that stands for another number than came is marked, and the program then ends with 1. The file names.stdout has what is printed. */
#include <stdio.h>
#include <string.h>

#include "housechervil.h"

static int wrong = 0;

static void number(const char *name, unsigned named, unsigned came) {
    printf("%s %u", name, came);
    if (named != came) {
        printf(" (it is named %u)", named);
        wrong = 1;
    }
}

static void plain(const char *name, unsigned named, unsigned came) {
    number(name, named, came);
    printf("\n");
}

static void worded(const char *name, unsigned named, unsigned came) {
    number(name, named, came);
    printf(": %s\n", hc_answer_words((uint16_t)came));
}

#define PLAIN(NAME, came) plain(#NAME, NAME, came)
#define WORDED(NAME, came) worded(#NAME, NAME, came)

/* ---- the register and the request: a call that is granted, of which each case changes what it needs */

static const uint16_t table_classes[5] = {0, 1, 1, 2, 1};
static const uint16_t table_clients[5] = {0, 1, 2, 3, 1};

typedef struct {
    size_t logins;
    uint16_t classes[5], clients[5];
    uint8_t mode;
    uint16_t firsts[1], seconds[1], persons[2];
    uint8_t matrix[10];
    size_t matrix_len;
    uint16_t login, folder, kind;
    uint8_t log[16];
    size_t end;
} call;

/* Login 0 of 2, each its own person, asks to read folder 1, on a blank matrix and an empty log, by classes. By pairs, clients 1 and 3 are
   in conflict. */
static call granted(void) {
    call c = {.logins = 2, .firsts = {1}, .seconds = {3}, .persons = {0, 1}, .matrix_len = 10, .folder = 1, .kind = HC_READ};
    memcpy(c.classes, table_classes, sizeof c.classes);
    memcpy(c.clients, table_clients, sizeof c.clients);
    return c;
}

static unsigned check(call c) {
    return hc_register_check(c.logins, c.classes, 5, c.clients, 5, c.mode, c.firsts, 1, c.seconds, 1).number;
}

static hc_reply make(call *c) {
    return hc_request(c->logins, c->classes, 5, c->clients, 5, c->mode, c->firsts, 1, c->seconds, 1, c->persons, 2, c->matrix,
                      c->matrix_len, c->login, c->folder, c->kind, c->log, sizeof c->log, c->end, 0);
}

static unsigned ask(call c) {
    return make(&c).number;
}

static void register_names(void) {
    call c = granted();
    PLAIN(HC_ACCEPTED, check(c));
    c.logins = HC_LOGINS_MAX + 1;
    WORDED(HC_REGISTER_SIZES, check(c));
    WORDED(HC_REGISTER_SIZES, ask(c));
    c = granted();
    c.classes[0] = 1;
    WORDED(HC_REGISTER_LONE_ZERO, check(c));
    WORDED(HC_REGISTER_LONE_ZERO, ask(c));
    c = granted();
    c.classes[4] = 2;
    WORDED(HC_REGISTER_TWO_CLASSES, check(c));
    WORDED(HC_REGISTER_TWO_CLASSES, ask(c));
    c = granted();
    c.mode = HC_BY_PAIRS;
    PLAIN(HC_ACCEPTED, check(c));
    c.seconds[0] = 1;
    WORDED(HC_BAD_PAIRS, check(c));
    WORDED(HC_BAD_PAIRS, ask(c));
    c.mode = HC_BY_CLASSES;
    PLAIN(HC_ACCEPTED, check(c));
}

/* A mode's number, told by which of two folders stands in folder 1's way: 2 is of its class, 3 is of its pair. */
static void mode(const char *name, uint8_t named, uint16_t rival) {
    call c = granted();
    c.mode = named;
    c.matrix[2] = c.matrix[3] = HC_MAY_READ;
    hc_reply r = make(&c);
    printf("%s %u: %s, folder", name, named, hc_answer_words(r.number));
    number("", rival, r.first);
    printf("\n");
}

static void mode_names(void) {
    mode("HC_BY_CLASSES", HC_BY_CLASSES, 2);
    mode("HC_BY_PAIRS", HC_BY_PAIRS, 3);
}

/* Refusals 4 to 10. */
static void request_names(void) {
    call c = granted();
    WORDED(HC_GRANTED, ask(c));
    c.matrix_len = 9;
    WORDED(HC_MATRIX_LENGTH, ask(c));
    c = granted();
    c.login = 2;
    WORDED(HC_NO_LOGIN, ask(c));
    c = granted();
    c.persons[1] = 2;
    WORDED(HC_BAD_PERSONS, ask(c));
    c = granted();
    c.folder = 5;
    WORDED(HC_NO_FOLDER, ask(c));
    c = granted();
    c.kind = HC_READ_AND_WRITE + 1;
    WORDED(HC_NO_KIND, ask(c));
    c = granted();
    c.matrix[3] = (HC_MAY_READ | HC_MAY_WRITE) + 1;
    WORDED(HC_ROW_CELL, ask(c));
    c = granted();
    c.end = sizeof c.log + 1;
    WORDED(HC_LOG_END_PAST_BUFFER, ask(c));
}

/* Refusals 20, 21, 22 and 30. */
static void wall_names(void) {
    call c = granted();
    c.matrix[2] = HC_MAY_READ;
    WORDED(HC_RIVAL, ask(c));
    c = granted();
    c.matrix[3] = HC_MAY_READ;
    c.kind = HC_WRITE;
    WORDED(HC_FOREIGN, ask(c));
    c = granted();
    c.matrix[3] = HC_MAY_WRITE;
    c.kind = HC_CAREFUL_READ;
    WORDED(HC_AT_STAKE, ask(c));
    c = granted();
    c.end = sizeof c.log;
    WORDED(HC_LOG_FULL, ask(c));
}

/* A kind's number, its words, the rights that its grant enters, and the kind that its record has. */
static void kind(const char *name, uint16_t named, unsigned rights) {
    call c = granted();
    c.kind = named;
    hc_reply r = make(&c);
    hc_log_item record = hc_log_step(c.log, r.end, 0);
    number(name, named, record.kind);
    printf(": %s, %s, cell", hc_kind_words(named), hc_answer_words(r.number));
    number("", rights, c.matrix[1]);
    printf("\n");
}

#define KIND(NAME, rights) kind(#NAME, NAME, rights)

static void kind_names(void) {
    KIND(HC_READ, HC_MAY_READ);
    KIND(HC_CAREFUL_READ, HC_MAY_READ);
    KIND(HC_WRITE, HC_MAY_WRITE);
    KIND(HC_READ_AND_WRITE, HC_MAY_READ | HC_MAY_WRITE);
}

/* ---- the log */

#define BYTES(...) (const uint8_t[]){__VA_ARGS__}, sizeof((const uint8_t[]){__VA_ARGS__})

static void log_names(void) {
    PLAIN(HC_STEP_RECORD, hc_log_step(BYTES(3, 0, 1, 1, 0, 1, 3), 0).number);
    PLAIN(HC_STEP_END, hc_log_step(BYTES(3, 0, 1, 1, 0, 1, 3), 7).number);
    WORDED(HC_LOG_PLACE_PAST_END, hc_log_step(BYTES(3, 0, 1, 1, 0, 1, 3), 8).number);
    WORDED(HC_LOG_CUT_SHORT, hc_log_step(BYTES(3, 0, 1, 1, 0, 1), 0).number);
    WORDED(HC_LOG_FORM, hc_log_step(BYTES(131, 0, 0, 1, 1, 0, 1, 3), 0).number);
    WORDED(HC_LOG_RANGE, hc_log_step(BYTES(3, 0, 1, 5, 0, 1, 3), 0).number);
    WORDED(HC_LOG_LIST, hc_log_step(BYTES(3, 0, 1, 1, 0, 1, 1), 0).number);
    PLAIN(HC_ACCEPTED, hc_log_check(BYTES(3, 0, 1, 1, 0, 1, 3, 4, 0, 1, 1, 0, 0)).number);
    WORDED(HC_LOG_SERIAL, hc_log_check(BYTES(3, 0, 1, 1, 0, 1, 3, 5, 0, 1, 1, 0, 0)).number);
    PLAIN(HC_ACCEPTED, hc_number_read(BYTES(172, 2), 0).number);
    WORDED(HC_LOG_CUT_SHORT, hc_number_read(BYTES(172), 0).number);
    WORDED(HC_LOG_FORM, hc_number_read(BYTES(172, 0), 0).number);
}

/* ---- packed copies, serials and folder names */

static void pack_names(void) {
    uint8_t packed[2] = {0}, cells[5] = {0};
    PLAIN(HC_ACCEPTED, hc_pack(cells, 5, packed, 2).number);
    WORDED(HC_PACK_LENGTHS, hc_pack(cells, 5, packed, 1).number);
    cells[4] = 4;
    WORDED(HC_PACK_CELL, hc_pack(cells, 5, packed, 2).number);
    PLAIN(HC_ACCEPTED, hc_unpack(packed, 2, cells, 5).number);
    WORDED(HC_PACK_LENGTHS, hc_unpack(packed, 1, cells, 5).number);
    packed[1] = 4;
    WORDED(HC_PACK_UNUSED_BITS, hc_unpack(packed, 2, cells, 5).number);
}

static void serial_names(void) {
    PLAIN(HC_SERIAL_SAME, hc_serial_compare(7, 7));
    PLAIN(HC_SERIAL_EARLIER, hc_serial_compare(65535, 0));
    PLAIN(HC_SERIAL_UNDECIDED, hc_serial_compare(7, 32775));
    PLAIN(HC_SERIAL_LATER, hc_serial_compare(0, 65535));
}

static hc_stretch name(uint16_t folder) {
    return hc_folder_name(BYTES('a'), BYTES('b', 10, 'c'), folder);
}

static void text_names(void) {
    PLAIN(HC_ACCEPTED, name(0).number);
    PLAIN(HC_TEXT_CLIENT, name(0).text);
    PLAIN(HC_TEXT_HOUSE, name(1).text);
    WORDED(HC_UNNAMED, name(2).number);
}

int main(void) {
    printf("version %s: %d %d %d\n", HC_VERSION, HC_VERSION_MAJOR, HC_VERSION_MINOR, HC_VERSION_PATCH);
    register_names();
    mode_names();
    request_names();
    wall_names();
    kind_names();
    log_names();
    pack_names();
    serial_names();
    text_names();
    printf("no answer: %s\n", hc_answer_words(65535));
    printf("no kind: %s, %s\n", hc_kind_words(0), hc_kind_words(HC_READ_AND_WRITE + 1));
    return wrong;
}
