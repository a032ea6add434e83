/* The calls over hc_house against the plain calls, on many inputs: sound ones and such as are refused, lists of length 0 null in the struct.
   Every number of both replies is compared, and every byte of what is lent. The file house.stdout has what must be printed: how often each
   answer came, and that none differed. */
#include <stdio.h>
#include <string.h>

#include "housechervil.h"

enum { CALLS = 200000, LOGINS = 4, FOLDERS = 6, PAIRS = 3, LOG = 16, ANSWERS = 31 };

/* ---- inputs, from a generator of fixed start */

static uint64_t state = 88172645463325252u;

static size_t below(size_t n) {
    state ^= state << 13;
    state ^= state >> 7;
    state ^= state << 17;
    return (size_t)(state >> 20) % n;
}

/* The usual number, or now and then another below n. */
static size_t mostly(size_t usual, size_t n) {
    return below(24) ? usual : below(n);
}

/* What is lent, and the other numbers of a call. The lists are longer than any length given, so that a length too many may be read. */
typedef struct {
    uint16_t classes[FOLDERS + 1], clients[FOLDERS + 1], firsts[PAIRS + 1], seconds[PAIRS + 1], persons[LOGINS + 2];
    uint8_t matrix[(LOGINS + 1) * (FOLDERS + 1)], log[LOG];
    size_t logins, classes_len, clients_len, firsts_len, seconds_len, persons_len, matrix_len, log_len, end;
    uint16_t login, folder, kind, serial;
    uint8_t mode;
} input;

/* Clients 0 to 5, of which 0 marks a sanitised folder and the others are in two classes; pairs of those. */
static void label(input *in) {
    for (size_t i = 0; i <= FOLDERS; i++) {
        size_t client = below(6);
        in->clients[i] = (uint16_t)client;
        in->classes[i] = (uint16_t)mostly(client == 0 ? 0 : 1 + client % 2, 3);
    }
    for (size_t i = 0; i <= PAIRS; i++) {
        size_t first = 1 + below(5);
        in->firsts[i] = (uint16_t)first;
        in->seconds[i] = (uint16_t)mostly(first % 5 + 1, 6);
    }
}

static input random_input(void) {
    input in;
    size_t folders = 1 + below(FOLDERS), pairs = below(PAIRS + 1);
    memset(&in, 0, sizeof in);
    label(&in);
    in.logins = mostly(1 + below(LOGINS), LOGINS + 1);
    size_t logins = in.logins == 0 ? 1 : in.logins; /* there is no number below 0 */
    in.classes_len = mostly(folders, FOLDERS + 2);
    in.clients_len = mostly(folders, FOLDERS + 2);
    in.mode = (uint8_t)below(3);
    in.firsts_len = mostly(pairs, PAIRS + 2);
    in.seconds_len = mostly(pairs, PAIRS + 2);
    for (size_t i = 0; i < LOGINS + 2; i++) in.persons[i] = (uint16_t)mostly(below(logins), LOGINS + 1);
    in.persons_len = mostly(in.logins, LOGINS + 3);
    for (size_t i = 0; i < sizeof in.matrix; i++) in.matrix[i] = (uint8_t)(below(3) ? 0 : below(60) ? below(4) : 4);
    in.matrix_len = mostly(in.logins * in.classes_len, sizeof in.matrix + 1);
    in.login = (uint16_t)mostly(below(logins), LOGINS + 1);
    in.folder = (uint16_t)mostly(below(folders), FOLDERS + 2);
    in.kind = (uint16_t)mostly(1 + below(4), 6);
    in.log_len = mostly(LOG, LOG + 1);
    in.end = below(2) ? 0 : below(LOG + 2);
    in.serial = (uint16_t)below(65536);
    return in;
}

/* ---- both calls */

static const uint16_t *null_if_empty(const uint16_t *list, size_t len) {
    return len == 0 ? NULL : list;
}

static hc_house house_of(const input *in) {
    return (hc_house){.logins = in->logins,
                      .classes = null_if_empty(in->classes, in->classes_len), .classes_len = in->classes_len,
                      .clients = null_if_empty(in->clients, in->clients_len), .clients_len = in->clients_len,
                      .mode = in->mode,
                      .firsts = null_if_empty(in->firsts, in->firsts_len), .firsts_len = in->firsts_len,
                      .seconds = null_if_empty(in->seconds, in->seconds_len), .seconds_len = in->seconds_len,
                      .persons = null_if_empty(in->persons, in->persons_len), .persons_len = in->persons_len};
}

static hc_reply plain(input *in) {
    return hc_request(in->logins, in->classes, in->classes_len, in->clients, in->clients_len, in->mode, in->firsts, in->firsts_len,
                      in->seconds, in->seconds_len, in->persons, in->persons_len, in->matrix, in->matrix_len, in->login, in->folder,
                      in->kind, in->log, in->log_len, in->end, in->serial);
}

static hc_reply over_house(input *in) {
    const hc_house house = house_of(in);
    return hc_house_request(&house, in->matrix, in->matrix_len, in->login, in->folder, in->kind, in->log, in->log_len, in->end,
                            in->serial);
}

static int same_check(const input *in) {
    const hc_house house = house_of(in);
    hc_register_answer a = hc_house_check(&house);
    hc_register_answer b = hc_register_check(in->logins, in->classes, in->classes_len, in->clients, in->clients_len, in->mode, in->firsts,
                                             in->firsts_len, in->seconds, in->seconds_len);
    return a.number == b.number && a.first == b.first && a.second == b.second;
}

static int same_reply(hc_reply a, hc_reply b) {
    return a.number == b.number && a.first == b.first && a.second == b.second && a.count == b.count && a.end == b.end &&
           a.serial == b.serial;
}

int main(void) {
    static unsigned came[ANSWERS];
    unsigned differ = 0;
    for (unsigned i = 0; i < CALLS; i++) {
        input one = random_input(), other;
        memcpy(&other, &one, sizeof one);
        int checks = same_check(&one);
        hc_reply a = plain(&one), b = over_house(&other);
        differ += !checks || !same_reply(a, b) || memcmp(&one, &other, sizeof one);
        came[a.number]++;
    }
    for (unsigned number = 0; number < ANSWERS; number++) {
        if (came[number] != 0) printf("%u came %u times: %s\n", number, came[number], hc_answer_words((uint16_t)number));
    }
    printf("of %u calls %u differ\n", (unsigned)CALLS, differ);
    return differ != 0;
}
