/*
 * A small reading room: it prints the board, files a register, asks for folders, prints each answer in words and then the log. At the
 * end stand two more rooms: one whose conflicts are by pair, and one where a person has two logins.
 *
 *     make
 *     make -C examples/c check
 *
 * `check` runs it on examples/house.names, the house's names of its folders, and examples/client.names, those that Aster Bank has for
 * its own two, and compares what it prints with reading_room.stdout.
 */
#include <housechervil.h>
#include <stdio.h>

enum { LOGINS = 2, FOLDERS = 5 };

static const char *const login_names[LOGINS] = {"Ada", "Ben"};
static const char *const kind_names[] = {
    [HC_READ] = "to read",
    [HC_CAREFUL_READ] = "to read, keeping all write rights,",
    [HC_WRITE] = "to write",
    [HC_READ_AND_WRITE] = "to read and write",
};

/* Class 1 is the banks, class 2 the oil companies; folder 0 is sanitised. */
static const uint16_t classes[FOLDERS] = {0, 1, 1, 2, 1};
static const uint16_t clients[FOLDERS] = {0, 1, 2, 3, 1};
static const uint16_t persons[LOGINS] = {0, 1}; /* Ada and Ben are two persons */

/* What the house keeps throughout. It goes by classes, so it has no pairs. */
static const hc_house house = {
    .logins = LOGINS,
    .classes = classes,
    .classes_len = FOLDERS,
    .clients = clients,
    .clients_len = FOLDERS,
    .mode = HC_BY_CLASSES,
    .persons = persons,
    .persons_len = LOGINS,
};

/* What changes in the room: the rights, and the log with its end and the next serial. */
typedef struct {
    uint8_t matrix[LOGINS * FOLDERS];
    uint8_t log[4096];
    size_t end;
    uint16_t serial;
} room;

/* ---- folder names */

/* A text of folder names, one to a line in folder order. */
typedef struct {
    uint8_t bytes[65536];
    size_t len;
} names;

static names client_names, house_names;

/* Whether the whole file could be read: one that fills the buffer may be longer. */
static int read_names(names *text, const char *path)
{
    FILE *file = fopen(path, "rb");
    int whole;

    if (file == NULL) {
        perror(path);
        return 0;
    }
    text->len = fread(text->bytes, 1, sizeof text->bytes, file);
    whole = !ferror(file) && text->len < sizeof text->bytes;
    fclose(file);
    if (!whole) {
        fprintf(stderr, "%s cannot be read, or is too long\n", path);
    }
    return whole;
}

static hc_stretch find_name(uint16_t folder)
{
    return hc_folder_name(client_names.bytes, client_names.len, house_names.bytes, house_names.len, folder);
}

/* A folder's number with its name. A name is a stretch of one of the texts, and no 0 ends it. */
static void print_folder(uint16_t folder)
{
    hc_stretch name = find_name(folder);
    const names *text = name.text == HC_TEXT_CLIENT ? &client_names : &house_names;

    if (name.number == HC_UNNAMED) {
        printf("%u, which has no name", folder);
        return;
    }
    printf("%u '", folder);
    fwrite(text->bytes + name.place, 1, name.length, stdout);
    printf("'");
}

static void print_board(void)
{
    printf("the board:\n");
    for (uint16_t folder = 0; folder < FOLDERS; folder++) {
        hc_stretch name = find_name(folder);

        print_folder(folder);
        if (name.number != HC_UNNAMED) {
            printf(", as the %s calls it", name.text == HC_TEXT_CLIENT ? "client" : "house");
        }
        printf("\n");
    }
}

/* ---- the register */

static void file_register(const char *title, const hc_house *filed)
{
    hc_register_answer a = hc_house_check(filed);

    printf("%s: ", title);
    switch (a.number) {
    case HC_ACCEPTED:
        printf("accepted\n");
        break;
    case HC_REGISTER_SIZES:
        printf("too few or too many logins or folders\n");
        break;
    case HC_REGISTER_LONE_ZERO:
        print_folder(a.first);
        printf(" has a class without a client, or a client without a class\n");
        break;
    case HC_REGISTER_TWO_CLASSES:
        print_folder(a.first);
        printf(" has another class than ");
        print_folder(a.second);
        printf(", of the same client\n");
        break;
    }
}

/* ---- requests */

static void print_answer(hc_reply r)
{
    switch (r.number) {
    case HC_GRANTED:
        printf("granted");
        if (r.count > 0) {
            printf(", and %u write right%s taken back", r.count, r.count == 1 ? " is" : "s are");
        }
        break;
    case HC_RIVAL:
        printf("refused, ");
        print_folder(r.first);
        printf(" of a rival is open to this login");
        break;
    case HC_FOREIGN:
        printf("refused, ");
        print_folder(r.first);
        printf(" of another client is open to this login");
        break;
    case HC_AT_STAKE:
        printf("refused, the write right on ");
        print_folder(r.first);
        printf(" would be lost");
        break;
    case HC_LOG_FULL:
        printf("not decided, the log is full");
        break;
    default:
        printf("not judged, %s", hc_answer_words(r.number));
        break;
    }
    printf("\n");
}

static void ask(room *here, uint16_t login, uint16_t kind, uint16_t folder)
{
    hc_reply r = hc_house_request(&house, here->matrix, sizeof here->matrix, login, folder, kind, here->log, sizeof here->log,
                                  here->end, here->serial);

    here->end = r.end;
    here->serial = r.serial;
    printf("%s asks %s ", login_names[login], kind_names[kind]);
    print_folder(folder);
    printf(": ");
    print_answer(r);
}

/* ---- the log */

/* A record's list is told as its count and the place of its first number. The step has judged them all. */
static void print_list(const room *here, hc_log_item record)
{
    size_t place = record.list;

    for (uint16_t i = 0; i < record.count; i++) {
        hc_number listed = hc_number_read(here->log, here->end, place);

        printf("%s ", i == 0 ? ", list" : ",");
        print_folder(listed.value);
        place = listed.place;
    }
}

static void print_log(const room *here)
{
    hc_placed whole = hc_log_check(here->log, here->end);
    hc_log_item item = hc_log_step(here->log, here->end, 0);

    printf("the log, %zu bytes: ", here->end);
    if (whole.number != HC_ACCEPTED) {
        printf("%s, at byte %zu\n", hc_answer_words(whole.number), whole.value);
        return;
    }
    printf("%zu records\n", whole.value);
    while (item.number == HC_STEP_RECORD) {
        printf("%u: login %u, folder ", item.serial, item.login);
        print_folder(item.folder);
        printf(", kind %u, answer %u", item.kind, item.answer);
        print_list(here, item);
        printf("\n");
        item = hc_log_step(here->log, here->end, item.place);
    }
}

/* ---- rooms whose files have names of their own */

static void print_read(const char *who, const char *const *files, uint16_t file, hc_reply r)
{
    printf("%s asks to read '%s': %s", who, files[file], r.number == HC_GRANTED ? "granted" : "refused");
    if (r.number == HC_RIVAL) {
        printf(", '%s' of a rival is open to this login", files[r.first]);
    }
    printf("\n");
}

/*
 * The files of an author and of two readers: each reader is in conflict with the author, not with the other reader. No classes can say
 * that, since in one class all three are in conflict. Two pairs do, and then the class plays no part.
 */
static void read_all(const char *title, uint8_t mode)
{
    enum { FILES = 3, PAIRS = 2, DALE = 7, ELM = 8, FIR = 9 };
    static const char *const files[FILES] = {"Dale, author", "Elm, reader", "Fir, reader"};
    static const uint16_t one_class[FILES] = {1, 1, 1}, client[FILES] = {DALE, ELM, FIR};
    static const uint16_t firsts[PAIRS] = {DALE, DALE}, seconds[PAIRS] = {ELM, FIR};
    static const uint16_t order[FILES] = {1, 2, 0};
    const hc_house journal = {
        .logins = 1, .classes = one_class, .classes_len = FILES, .clients = client, .clients_len = FILES,
        .mode = mode, .firsts = firsts, .firsts_len = PAIRS, .seconds = seconds, .seconds_len = PAIRS,
        .persons = persons, .persons_len = 1,
    };
    uint8_t matrix[FILES] = {0}, log[64];
    hc_reply r = {0};

    printf("%s:\n", title);
    for (size_t i = 0; i < FILES; i++) {
        r = hc_house_request(&journal, matrix, sizeof matrix, 0, order[i], HC_READ, log, sizeof log, r.end, r.serial);
        print_read(login_names[0], files, order[i], r);
    }
}

/*
 * A partner's desk login and travel login, and the files of two banks. Which person is behind a login is told by the list: two persons
 * have a wall each, so that the partner comes to know both banks; one person has one wall, whichever login asks.
 */
static void read_both(const char *title, const uint16_t *person_list)
{
    enum { BOTH = 2, FILES = 2, ASTER = 1, BIRCH = 2 };
    static const char *const logins[BOTH] = {"the desk login", "the travel login"};
    static const char *const files[FILES] = {"Aster Bank, loans", "Birch Bank, merger"};
    static const uint16_t banks[FILES] = {1, 1}, client[FILES] = {ASTER, BIRCH};
    const hc_house firm = {
        .logins = BOTH, .classes = banks, .classes_len = FILES, .clients = client, .clients_len = FILES,
        .mode = HC_BY_CLASSES, .persons = person_list, .persons_len = BOTH,
    };
    uint8_t matrix[BOTH * FILES] = {0}, log[64];
    hc_reply r = {0};

    printf("%s:\n", title);
    for (uint16_t i = 0; i < BOTH; i++) {
        r = hc_house_request(&firm, matrix, sizeof matrix, i, i, HC_READ, log, sizeof log, r.end, r.serial);
        print_read(logins[i], files, i, r);
    }
}

int main(int argc, char **argv)
{
    static const uint16_t slip[FOLDERS] = {0, 1, 1, 2, 2}; /* Aster Bank among the banks, then among the oil companies */
    static const uint16_t own_persons[] = {0, 1}, one_person[] = {0, 0};
    static room here; /* blank: no rights, no records, the first serial is 0 */
    hc_house slipped = house;

    if (argc != 3) {
        fprintf(stderr, "usage: reading_room HOUSE CLIENT, two texts of folder names, one to a line in folder order\n");
        return 2;
    }
    if (!read_names(&house_names, argv[1]) || !read_names(&client_names, argv[2])) {
        return 1;
    }
    print_board();

    slipped.classes = slip;
    file_register("the first register", &slipped);
    file_register("the mended register", &house);

    ask(&here, 0, HC_WRITE, 1);
    ask(&here, 0, HC_WRITE, 3);
    ask(&here, 0, HC_CAREFUL_READ, 1);
    ask(&here, 0, HC_READ, 1);
    ask(&here, 0, HC_READ, 2);
    ask(&here, 0, HC_READ, 0);
    ask(&here, 0, HC_READ, 3);
    ask(&here, 0, HC_WRITE, 4);
    ask(&here, 1, HC_READ_AND_WRITE, 2);
    ask(&here, 1, HC_READ, 4);
    ask(&here, 1, HC_READ, 5);

    print_log(&here);

    read_all("an author and two readers, by classes", HC_BY_CLASSES);
    read_all("the same, each reader in a pair with the author", HC_BY_PAIRS);

    read_both("a partner's desk and travel login, each its own person", own_persons);
    read_both("the same, both logins one person's", one_person);
    return 0;
}
