/* A log of 16 bytes that fills up again and again, and is rotated each time as the header says: its bytes are kept, its end is set to 0,
   matrix and serial are handed on. Rights from before a rotation are taken back and stand in the way after it, serials go on, also
   past 65,535, and the kept logs pass the whole-log check as one. The file rotation.stdout has what must be printed. */
#include <stdio.h>
#include <string.h>

#include "housechervil.h"

static const uint16_t classes[5] = {0, 1, 1, 2, 1};
static const uint16_t clients[5] = {0, 1, 2, 3, 1};
static const uint16_t persons[2] = {0, 1};
static const hc_house house = {
    .logins = 2, .classes = classes, .classes_len = 5, .clients = clients, .clients_len = 5, .persons = persons, .persons_len = 2};

static uint8_t matrix[2 * 5];
static uint8_t log_bytes[16];
static size_t end = 0;
static uint16_t serial = 65533;

static uint8_t kept[256];
static size_t kept_len = 0;

static void rotate(void) {
    memcpy(kept + kept_len, log_bytes, end);
    kept_len += end;
    printf("%zu bytes are kept, %zu in all; the end is 0, the next serial %u\n", end, kept_len, serial);
    end = 0;
}

static hc_reply request(uint16_t login, uint16_t kind, uint16_t folder) {
    hc_reply r = hc_house_request(&house, matrix, sizeof matrix, login, folder, kind, log_bytes, sizeof log_bytes, end, serial);
    printf("%u asks for %u, %s: %u %s", login, folder, hc_kind_words(kind), r.number, hc_answer_words(r.number));
    if (r.number == HC_GRANTED) printf(", %u taken back", r.count);
    if (r.number == HC_RIVAL || r.number == HC_FOREIGN || r.number == HC_AT_STAKE) printf(", folder %u", r.first);
    printf("; end %zu, next serial %u\n", r.end, r.serial);
    end = r.end;
    serial = r.serial;
    return r;
}

/* Asks, and asks again after a rotation if the log is full. */
static void ask(uint16_t login, uint16_t kind, uint16_t folder) {
    if (request(login, kind, folder).number == HC_LOG_FULL) {
        rotate();
        request(login, kind, folder);
    }
}

int main(void) {
    ask(0, HC_WRITE, 1);
    ask(0, HC_WRITE, 3);
    ask(0, HC_CAREFUL_READ, 1);
    ask(0, HC_READ, 1);
    ask(0, HC_READ, 2);
    ask(1, HC_READ_AND_WRITE, 2);
    ask(0, HC_READ, 3);
    ask(0, HC_WRITE, 4);
    ask(1, HC_READ, 4);
    rotate();

    printf("cells");
    for (size_t i = 0; i < sizeof matrix; i++) printf(" %u", matrix[i]);
    hc_placed whole = hc_log_check(kept, kept_len);
    printf("\nthe kept logs as one: %u, %zu records\n", whole.number, whole.value);
    printf("their serials");
    hc_log_item item = hc_log_step(kept, kept_len, 0);
    for (; item.number == HC_STEP_RECORD; item = hc_log_step(kept, kept_len, item.place)) printf(" %u", item.serial);
    printf("\n");
    return 0;
}
