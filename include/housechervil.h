/*
 * Housechervil: the access monitor of a reading room. This is the C face of the static library `housechervil` (`make` writes
 * target/staticlib/libhousechervil.a). Every function behind it is proved to answer, and to leave in every buffer lent, exactly what
 * the rules say, on every input; they stand in the repository's docs/RULES.md. No call leans on an earlier check.
 *
 * Library and header are for x86-64 Linux. The header is C11 and C++17, and was tried with gcc and g++ 12.2 and with clang and
 * clang++ 14.0.
 *
 * THE HOUSE
 *   Logins are numbered from 0; there are P of them, 1 to 128: the parameter `logins`. Folders are numbered from 0; there are F of
 *   them, 1 to 512: the common length of the lists of classes and clients.
 *   Requests are made by logins, and records keep the login; rights are held by persons, numbered from 0 too. The person list gives
 *   each login's person, a number below P, in login order. Several logins may be one person's, who has one wall behind them all; a
 *   person may have no login. Where each login is its own person the list is 0, 1, 2 and so on (hc_own_persons).
 *   The register gives each folder a class and a client, 0 to 65,535, in two lists in folder order. Client 0 with class 0 marks a
 *   sanitised folder; neither 0 may stand without the other. Two folders of one client have one class.
 *   The mode says which clients are in conflict. By classes (HC_BY_CLASSES): two different clients of one class; the lists of pairs
 *   are not looked at. By pairs (HC_BY_PAIRS, and every other mode that is not 0): two clients that some pair names both, whichever
 *   way round, and no others; classes then count for nothing but the register's own check. A pair is an entry of `firsts` with the
 *   entry of `seconds` at the same place; there are 0 to 256. A pair may stand there twice, either way round, and its clients need
 *   not have folders. Sanitised folders are in conflict with none.
 *   The matrix has P times F bytes, person by person; the F cells of a person are a row. A cell is 0 for no right, 1 for read, 2 for
 *   write, 3 for both; blank is all 0.
 *   The wall is proved for a house that keeps its labels, mode, pairs and person list from the blank matrix on.
 *   The log is a lent buffer with an end, the place where the next record goes: 0 in an empty log.
 *   Serials number the records; the caller gives the first, and each reply gives the next. After 65,535 comes 0.
 *
 * POINTERS
 *   A list or a buffer is a pointer and its length in elements. The library reads a const one, writes into the others only what is
 *   said below, keeps no pointer and allocates nothing; as built it needs less than 16 KiB of stack, and of the C library only memset.
 *   It has no state: calls may run at the same time unless one of them writes a buffer that another uses.
 *   A length may be 0, and then nothing is read or written through the pointer. Pass a pointer that is not null and is aligned
 *   even then (any object of the element's type will do): compiled code may assume it. So too `firsts` and `seconds` in class mode,
 *   where `clients, 0, clients, 0` will do. Only in an hc_house may a list of length 0 be null.
 *   A buffer that is written overlaps with no other list or buffer of the same call. No length is above PTRDIFF_MAX bytes.
 *
 * ANSWERS
 *   `number` is the answer's number in the rules, which have none for a step's record and end; each has a name below. Values that
 *   an answer does not carry are 0. Everywhere a refusal changes no byte, unless its text says so.
 *
 * A FULL LOG
 *   A request whose record does not fit is answered 30 and changes nothing; with HC_RECORD_MAX bytes left it fits. To rotate the
 *   log, keep its bytes up to the end elsewhere, set the end to 0 and go on with the same matrix and the same serial: the rights
 *   are all in the matrix, and the next record's serial follows the kept log's last. Kept logs, one behind the other in their
 *   order, pass the whole-log check as one.
 */
#ifndef HOUSECHERVIL_H
#define HOUSECHERVIL_H

#include <stddef.h>
#include <stdint.h>

/* The version of header, crate and CHANGELOG.md. */
#define HC_VERSION "0.1.0"
#define HC_VERSION_MAJOR 0
#define HC_VERSION_MINOR 1
#define HC_VERSION_PATCH 0

#define HC_LOGINS_MAX 128   /* the most logins */
#define HC_FOLDERS_MAX 512  /* the most folders */
#define HC_MATRIX_MAX 65536 /* the bytes of the largest matrix */
#define HC_PAIRS_MAX 256    /* the most pairs of clients in conflict */
#define HC_RECORD_MAX 904   /* the bytes of the longest record: with this much room left a request is never answered 30 */

/* ---- names; the tables at the functions say when each answer is given */

/* The modes: how it is told which clients are in conflict. */
#define HC_BY_CLASSES 0
#define HC_BY_PAIRS 1

/* The kinds of request. */
#define HC_READ 1
#define HC_CAREFUL_READ 2
#define HC_WRITE 3
#define HC_READ_AND_WRITE 4

/* The rights in a cell of the matrix, one bit each. They are not the kinds. */
#define HC_MAY_READ 1
#define HC_MAY_WRITE 2

/* Nothing is refused. */
#define HC_GRANTED 0  /* a request, and the answer in a record */
#define HC_ACCEPTED 0 /* the register check, packing, unpacking, the whole-log check, a number, a name */

/* Refusals: a number means the same wherever it is answered. */
#define HC_REGISTER_SIZES 1
#define HC_REGISTER_LONE_ZERO 2
#define HC_REGISTER_TWO_CLASSES 3
#define HC_MATRIX_LENGTH 4
#define HC_NO_LOGIN 5
#define HC_NO_FOLDER 6
#define HC_NO_KIND 7
#define HC_ROW_CELL 8
#define HC_LOG_END_PAST_BUFFER 9
#define HC_BAD_PERSONS 10
#define HC_BAD_PAIRS 11
#define HC_RIVAL 20
#define HC_FOREIGN 21
#define HC_AT_STAKE 22
#define HC_LOG_FULL 30
#define HC_LOG_PLACE_PAST_END 50
#define HC_LOG_CUT_SHORT 51
#define HC_LOG_FORM 52
#define HC_LOG_RANGE 53
#define HC_LOG_LIST 54
#define HC_LOG_SERIAL 55
#define HC_PACK_CELL 60
#define HC_PACK_LENGTHS 61
#define HC_PACK_UNUSED_BITS 62
#define HC_UNNAMED 81

/* A step of the log reader that is no refusal. This 1 is not the register's: no step answers HC_REGISTER_SIZES. */
#define HC_STEP_RECORD 0
#define HC_STEP_END 1

/* How a first serial stands to a second. */
#define HC_SERIAL_SAME 0
#define HC_SERIAL_EARLIER 1
#define HC_SERIAL_UNDECIDED 2
#define HC_SERIAL_LATER 3

/* The text in which a folder's name was found. */
#define HC_TEXT_CLIENT 0
#define HC_TEXT_HOUSE 1

/*
 * The words of an answer, never null. 0 is 'granted', as in a request and in a record; HC_STEP_RECORD and HC_STEP_END are not
 * answers in this sense. (`unused`: clang warns of a function that nothing uses when it is given the header alone.)
 */
__attribute__((unused)) static inline const char *hc_answer_words(uint16_t number)
{
    switch (number) {
    case HC_GRANTED: return "granted";
    case HC_REGISTER_SIZES: return "logins or folders beyond their range, or lists of unequal length";
    case HC_REGISTER_LONE_ZERO: return "exactly one of class and client is 0";
    case HC_REGISTER_TWO_CLASSES: return "a client has two classes";
    case HC_MATRIX_LENGTH: return "the matrix's length is not logins times folders";
    case HC_NO_LOGIN: return "there is no such login";
    case HC_NO_FOLDER: return "there is no such folder";
    case HC_NO_KIND: return "there is no such kind of request";
    case HC_ROW_CELL: return "a cell of the person's row is above 3";
    case HC_LOG_END_PAST_BUFFER: return "the log's end lies past its buffer";
    case HC_BAD_PERSONS: return "the person list's length is not the number of logins, or an entry is not below it";
    case HC_BAD_PAIRS: return "over 256 pairs, their lists of unequal length, or a pair with client 0 or one client twice";
    case HC_RIVAL: return "the person may read a folder of a rival";
    case HC_FOREIGN: return "the person may read a folder of another client";
    case HC_AT_STAKE: return "a write right would be lost";
    case HC_LOG_FULL: return "the record is longer than the room left in the log";
    case HC_LOG_PLACE_PAST_END: return "the place is past the log's end";
    case HC_LOG_CUT_SHORT: return "the log ends inside a record";
    case HC_LOG_FORM: return "a number is not in its shortest form, or is above 65,535";
    case HC_LOG_RANGE: return "a login, folder, kind or answer that no record has";
    case HC_LOG_LIST: return "a count or a list that no record has";
    case HC_LOG_SERIAL: return "the serial is not the one after its predecessor's";
    case HC_PACK_CELL: return "a cell is above 3";
    case HC_PACK_LENGTHS: return "the packed length is not one quarter of the cells, rounded up";
    case HC_PACK_UNUSED_BITS: return "unused bits of the last packed byte are set";
    case HC_UNNAMED: return "neither text has a name for the folder";
    default: return "no answer that this header knows";
    }
}

/* The words of a kind, never null. */
__attribute__((unused)) static inline const char *hc_kind_words(uint16_t kind)
{
    switch (kind) {
    case HC_READ: return "read";
    case HC_CAREFUL_READ: return "careful read";
    case HC_WRITE: return "write";
    case HC_READ_AND_WRITE: return "read and write";
    default: return "no kind of request";
    }
}

#ifdef __cplusplus
extern "C" {
#endif

/* ---- the register */

/*
 * The register check. Checks run from top to bottom; the first that fails speaks.
 *
 *   number  when                                                            first, second
 *   0       the register is accepted
 *   1       P or F beyond its range, or lists of unequal length
 *   2       exactly one of class and client is 0                            the first such folder
 *   3       a client has two classes                                        the first folder that differs from an earlier one of
 *                                                                           its client, and the first such earlier one
 *   11      by pairs, and their lists are of unequal length, there are
 *           over 256 pairs, or a pair names client 0 or one client twice
 *
 * Refusal 2 is sought through the whole register before 3. In class mode 11 is not given, whatever the lists of pairs hold. The
 * person list is no part of the register: a request judges it (10).
 */
typedef struct {
    uint16_t number, first, second;
} hc_register_answer;

hc_register_answer hc_register_check(size_t logins, const uint16_t *classes, size_t classes_len, const uint16_t *clients,
                                     size_t clients_len, uint8_t mode, const uint16_t *firsts, size_t firsts_len,
                                     const uint16_t *seconds, size_t seconds_len);

/* ---- the request */

/*
 * A request of `login` for `folder`. The kinds are HC_READ, HC_CAREFUL_READ, HC_WRITE and HC_READ_AND_WRITE, 1 to 4. `persons` is
 * the person list, and 'the person' below is the one that it gives for `login`.
 *
 *   Rival: a folder that the person may read, of a client in conflict with the asked folder's. By classes that is a folder of the
 *   asked folder's class and of another client; by pairs, one whose client a pair names together with the asked folder's.
 *   Foreign: a folder that the person may read, not sanitised, whose client is not the asked folder's, in conflict or not.
 *   At stake: a folder that the person may write, whose client is not the asked folder's; there are none if the asked
 *   folder is sanitised. A sanitised folder that is at stake loses its write right like any other.
 *
 *   kind  granted if there is            on a grant
 *   1     no rival                       read is entered; write is removed from every folder at stake
 *   2     no rival, nothing at stake     read is entered
 *   3     no rival, no foreign           write is entered
 *   4     no rival, no foreign           as kind 1, then write is entered
 *
 * Checks run from top to bottom; the first that fails speaks. A folder carried is always the smallest number that fits.
 *
 *   number  when                                                            carries
 *   0       granted                                                         count: how many write rights were taken back
 *   1       P or F beyond its range, or lists of unequal length
 *   2       exactly one of class and client is 0                            first: the first such folder
 *   3       a client has two classes                                        first, second: as the register check
 *   11      by pairs, and the pairs are not good, as the register check
 *           has it
 *   4       the matrix's length is not P times F
 *   5       login is P or more
 *   10      the person list's length is not P, or some entry, this
 *           login's or another's, is P or more
 *   6       folder is F or more
 *   7       kind is not 1 to 4
 *   8       a cell of the person's row exceeds 3                            first: its folder
 *   9       the log's end lies past its buffer
 *   20      a rival exists                                                  first: it
 *   21      kind 3 or 4, a foreign folder exists                            first: it
 *   22      kind 2, a folder is at stake                                    first: it
 *   30      the record is longer than the room left; it speaks in place
 *           of a grant, 20, 21 or 22 whose record does not fit, and the
 *           decision is not told
 *
 * `end` and `serial` are the log's new end and the next serial: hand them to the next request.
 *   0            changes the person's row of the matrix and appends a record, under the login, to the log
 *   20, 21, 22   leave the matrix and append a record, under the login
 *   1 to 11, 30  change no byte, and return end and serial as they came
 * Log bytes outside the new record stay.
 */
typedef struct {
    uint16_t number, first, second, count;
    size_t end;
    uint16_t serial;
} hc_reply;

hc_reply hc_request(size_t logins, const uint16_t *classes, size_t classes_len, const uint16_t *clients, size_t clients_len,
                    uint8_t mode, const uint16_t *firsts, size_t firsts_len, const uint16_t *seconds, size_t seconds_len,
                    const uint16_t *persons, size_t persons_len, uint8_t *matrix, size_t matrix_len, uint16_t login,
                    uint16_t folder, uint16_t kind, uint8_t *log, size_t log_len, size_t end, uint16_t serial);

/* ---- the house in one struct, filled once */

/*
 * What a house keeps throughout, in the order in which the calls take it; the two calls over it answer and leave what the plain ones
 * do. A list of length 0 may be null here, and they hand on a pointer that is not: a house that goes by classes may leave the pairs
 * out. The person list may not be left out: no request would be served.
 */
typedef struct {
    size_t logins;
    const uint16_t *classes;
    size_t classes_len;
    const uint16_t *clients;
    size_t clients_len;
    uint8_t mode;
    const uint16_t *firsts;
    size_t firsts_len;
    const uint16_t *seconds;
    size_t seconds_len;
    const uint16_t *persons;
    size_t persons_len;
} hc_house;

/* Fills a person list with each login's own number: each login its own person. */
__attribute__((unused)) static inline void hc_own_persons(uint16_t *persons, size_t persons_len)
{
    uint16_t login = 0;

    for (size_t i = 0; i < persons_len; i++) {
        persons[i] = login++;
    }
}

/* The pointer that is handed on for a list of a house. */
__attribute__((unused)) static inline const uint16_t *hc_house_list(const uint16_t *list, size_t len)
{
    static const uint16_t empty = 0;

    return len == 0 ? &empty : list;
}

/* hc_register_check of a house. */
__attribute__((unused)) static inline hc_register_answer hc_house_check(const hc_house *house)
{
    return hc_register_check(house->logins, hc_house_list(house->classes, house->classes_len), house->classes_len,
                             hc_house_list(house->clients, house->clients_len), house->clients_len, house->mode,
                             hc_house_list(house->firsts, house->firsts_len), house->firsts_len,
                             hc_house_list(house->seconds, house->seconds_len), house->seconds_len);
}

/* hc_request in a house. */
__attribute__((unused)) static inline hc_reply hc_house_request(const hc_house *house, uint8_t *matrix, size_t matrix_len,
                                                                uint16_t login, uint16_t folder, uint16_t kind, uint8_t *log,
                                                                size_t log_len, size_t end, uint16_t serial)
{
    return hc_request(house->logins, hc_house_list(house->classes, house->classes_len), house->classes_len,
                      hc_house_list(house->clients, house->clients_len), house->clients_len, house->mode,
                      hc_house_list(house->firsts, house->firsts_len), house->firsts_len,
                      hc_house_list(house->seconds, house->seconds_len), house->seconds_len,
                      hc_house_list(house->persons, house->persons_len), house->persons_len, matrix, matrix_len, login, folder,
                      kind, log, log_len, end, serial);
}

/* ---- serials */

/* The serial after this one: after 65,535 comes 0. */
uint16_t hc_serial_next(uint16_t serial);

/*
 * Two serials compared by the way from the first to the second, counted round 65,536.
 *
 *   0   same                 the way is 0
 *   1   first is earlier     1 to 32,767
 *   2   undecided            32,768
 *   3   first is later       more
 */
uint8_t hc_serial_compare(uint16_t first, uint16_t second);

/* ---- packed copies of cells */

/* An answer and the place, or the number of records, that it carries. */
typedef struct {
    uint16_t number;
    size_t value;
} hc_placed;

/*
 * Packs cells, four in a byte, the first in the lowest two bits, unused bits of the last byte 0. The packed form's length is one
 * quarter of the cells' number, rounded up; a list of 0 cells has 0 bytes. The first check that fails speaks.
 *
 *   number  when                              value
 *   0       packed: all of `packed` is written
 *   61      the lengths don't match
 *   60      a cell is above 3                 the place of the first such cell
 */
hc_placed hc_pack(const uint8_t *cells, size_t cells_len, uint8_t *packed, size_t packed_len);

/*
 * Unpacks `cells_len` cells. Packing and unpacking undo each other on all they accept. The first check that fails speaks.
 *
 *   number  when
 *   0       unpacked: all of `cells` is written
 *   61      the lengths don't match
 *   62      unused bits of the last byte are set
 */
hc_placed hc_unpack(const uint8_t *packed, size_t packed_len, uint8_t *cells, size_t cells_len);

/* ---- the log */

/*
 * A step of the log reader at a place: a record, the end or a refusal. `log_len` is the log's end, not its buffer's length. Start
 * at 0; only a record moves the reader, to its `place`.
 *
 *   number  when                                                            place
 *   0       a record (HC_STEP_RECORD)                                       the byte after it
 *   1       the end: place is log_len (HC_STEP_END)                         log_len
 *   50      place is past the end                                           the reader's place
 *   51      bytes end inside the record                                     the first byte of the field at fault
 *   52      a number not in its shortest form, or above 65,535              the same
 *   53      login above 127, a folder above 511, kind not 1 to 4,
 *           an answer its kind cannot have                                  the same
 *   54      count is not 1 on a refusal, not 0 on a grant of kind 2 or 3,
 *           or above 511; the list does not rise, or lists the record's
 *           own folder                                                      the same
 *
 * Fields are judged in their order, and byte by byte, so the first fault met speaks; in one field 51 and 52 come before 53, and 53
 * before 54. A record gives serial, login, folder, kind,
 * answer (0, 20, 21 or 22), and its list as `count` and `list`, the place of the first listed number, from which hc_number_read
 * walks. After a grant the list has the folders that lost a write right, rising; after a refusal the folder carried.
 */
typedef struct {
    uint16_t number, serial, login, folder, kind, answer, count;
    size_t list, place;
} hc_log_item;

hc_log_item hc_log_step(const uint8_t *log, size_t log_len, size_t place);

/*
 * The whole-log check. `log_len` is the log's end, not its buffer's length.
 *
 *   number    when                                                          value
 *   0         every record is accepted, in its turn                         the number of records; an empty log has none
 *   51 to 54  as for a step                                                 the first byte of the field at fault
 *   55        a serial is not the one after its predecessor's               the record's start
 */
hc_placed hc_log_check(const uint8_t *log, size_t log_len);

/*
 * The number at a place: groups of seven bits, lowest group first, one byte a group, the byte's top bit set if another follows.
 * `log_len` is the log's end, not its buffer's length.
 *
 *   number  when                                                            value           place
 *   0       the number is read                                              it              the byte after it
 *   51      the bytes end before it or inside it                            0               the place given
 *   52      not the shortest form, or above 65,535; a third byte above 3
 *           is 52 at once                                                   0               the place given
 */
typedef struct {
    uint16_t number, value;
    size_t place;
} hc_number;

hc_number hc_number_read(const uint8_t *log, size_t log_len, size_t place);

/* ---- folder names */

/*
 * The name to show for a folder. The house keeps a text of folder names, one to a line in folder order; a client may send its own
 * text in the same order. Line 0 is folder 0's. A line ends at byte 10 or at the end of the text, so a last line without a byte 10
 * counts. The name is the client's line if it has one that is not empty, otherwise the house's.
 *
 *   number  when                                                            text              place, length
 *   0       the client's line is not empty                                  HC_TEXT_CLIENT    the line in the client's text
 *   0       the client has no such line or an empty one, and the house's
 *           is not empty                                                    HC_TEXT_HOUSE     the line in the house's text
 *   81      neither has one that is not empty                               0                 0, 0
 *
 * Nothing is copied: the name is `length` bytes of that text from `place` on. It has at least one byte and may hold every byte but
 * 10; carriage returns and blanks are bytes like others, and no 0 is put behind it. Both texts are only read, so they may be the same
 * or overlap. A client without a text of its own has one of length 0 (its pointer is still not null). Every folder number has an
 * answer; no register is asked how many there are.
 */
typedef struct {
    uint16_t number, text;
    size_t place, length;
} hc_stretch;

hc_stretch hc_folder_name(const uint8_t *client, size_t client_len, const uint8_t *house, size_t house_len, uint16_t folder);

/* ---- the sizes that the compiled library has */

#ifdef __cplusplus
#define HC_STATIC_ASSERT static_assert
#else
#define HC_STATIC_ASSERT _Static_assert
#endif

HC_STATIC_ASSERT(sizeof(size_t) == 8, "the library is built for a size_t of 8 bytes");
HC_STATIC_ASSERT(sizeof(hc_register_answer) == 6, "the size of hc_register_answer");
HC_STATIC_ASSERT(sizeof(hc_reply) == 24, "the size of hc_reply");
HC_STATIC_ASSERT(sizeof(hc_placed) == 16, "the size of hc_placed");
HC_STATIC_ASSERT(sizeof(hc_log_item) == 32, "the size of hc_log_item");
HC_STATIC_ASSERT(sizeof(hc_number) == 16, "the size of hc_number");
HC_STATIC_ASSERT(sizeof(hc_stretch) == 24, "the size of hc_stretch");

#undef HC_STATIC_ASSERT

#ifdef __cplusplus
}
#endif

#endif
