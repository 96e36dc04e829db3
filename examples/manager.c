/* A small file manager, for partition 0 of a store. What it knows is in a directory, so that a house can go on from it.
 *
 *   manager new DIR                          makes DIR with a random master key and drive key, for `store format`
 *   manager keys DIR                         sets new keys: the partition's and its working key 0. Credentials under old ones end
 *   manager table DIR [OPERATION RIGHTS LEVEL]..   loads an operation table: OPERATION needs RIGHTS, a comma between two, and LEVEL;
 *                                            one that is not named needs its own right, as it does before the first table
 *   manager create DIR NUMBER SIZE           makes object NUMBER of SIZE bytes, where they have room from a multiple of 16 on
 *   manager write DIR NUMBER < shape         writes a shape at the object's start
 *   manager raise DIR NUMBER                 gives the object its next version: credentials issued for it before open nothing
 *   manager delete DIR NUMBER
 *   manager group DIR NUMBER MEMBER..        makes object NUMBER the group of these logs, a stack; or, where it is a group already, gives it
 *                                            these for the next stack: credentials issued for it before open nothing
 *   manager find DIR NUMBER                  learns an object's size and version anew, where the answer to a create or raise was lost
 *   manager issue DIR NUMBER HOLDER read|write MINUTES CREDENTIAL KEY      makes the two files that holder HOLDER needs; of a group they are
 *                                            for all of its logs, each of which HOLDER may look at, too
 *
 * A group's credential knows the group's version and not the log's. So whatever renews a log, a create, a raise or a delete, raises every
 * group that lists it first; and a group gets its next list after its next version. A group's list is written by `group` alone: so no
 * group lists a group, whose list its holders could write.
 *
 * Operations and rights of a table have the same words: read, write, look, raise, create, delete, key (for setting one).
 * The store's socket is DIR/socket, or where a link of this name points. Files in DIR: master, drive-key, partition-key and
 * working-key (32 bytes each); table, the operation table that was loaded last (21); object-NUMBER (version and size) for each
 * object; group-NUMBER, a group's list as it was written, empty until it is; last, the greatest version seen; count, which numbers the
 * frames; lock. All have mode 600, as have CREDENTIAL and KEY. A file is replaced whole or not at all.
 * A `keys` or `table` whose answer was lost is simply done again: what allows them is not what they change. So is a `group`, after a `find`.
 * Build: cc -Iinclude examples/manager.c target/staticlib/libsolver.a target/staticlib/libstore.a
 */
#include "wire.h"
#include "sievelast.h"
#include "sievelast_store.h"
#include <dirent.h>
#include <sys/file.h>
#include <sys/random.h>

#define PARTITION 0
#define HOLDER 0         /* the manager's own number */
#define OWN_TIME 60000   /* milliseconds that its own credentials last */
#define MOST_LOST 64     /* how many versions past the last one seen `find` tries */
#define NAME_BYTES 4096
#define TEXT_BYTES 64
#define LINE_BYTES (SIEVELAST_TABLE_BYTES / SIEVELAST_TABLE_OPERATIONS) /* of an operation table: two of mask, one of level */
#define LINE_WORDS 3     /* of the command line */

struct object {
    uint32_t number, version, size;
};

static const char *dir;
static uint8_t request[SIEVELAST_REQUEST_BYTES]; /* of the last frame */
static uint8_t reply[SIEVELAST_REPLY_HEAD_BYTES + SIEVELAST_LOOK_BYTES + SIEVELAST_DIGEST_BYTES];

/* ---- files */
static const char *in_dir(const char *name)
{
    static char path[NAME_BYTES];
    if (snprintf(path, sizeof path, "%s/%s", dir, name) >= NAME_BYTES)
        wire_wrong(dir, "too long a name");
    return path;
}

static const char *object_name(uint32_t number)
{
    static char name[TEXT_BYTES];
    snprintf(name, sizeof name, "object-%" PRIu32, number);
    return name;
}

static const char *group_name(uint32_t number)
{
    static char name[TEXT_BYTES];
    snprintf(name, sizeof name, "group-%" PRIu32, number);
    return name;
}

static int is_there(const char *name)
{
    return access(in_dir(name), F_OK) == 0;
}

/* Replaces a file whole, by one that has reached the disk. */
static void save(const char *path, const void *bytes, size_t n)
{
    char fresh[NAME_BYTES + 8];
    snprintf(fresh, sizeof fresh, "%s.fresh", path);
    unlink(fresh);
    int f = open(fresh, O_WRONLY | O_CREAT | O_EXCL | O_CLOEXEC, 0600);
    if (f < 0 || write(f, bytes, n) != (ssize_t)n || fsync(f) || close(f) || rename(fresh, path))
        wire_fail(path);
}

static void save_numbers(const char *name, uint32_t one, uint32_t two)
{
    char text[TEXT_BYTES];
    int n = snprintf(text, sizeof text, "%" PRIu32 " %" PRIu32 "\n", one, two);
    save(in_dir(name), text, (size_t)n);
}

/* Two numbers of a file in DIR. */
static void load_numbers(const char *name, uint32_t *one, uint32_t *two)
{
    char text[TEXT_BYTES] = {0};
    wire_load(in_dir(name), text, sizeof text - 1);
    if (sscanf(text, "%" SCNu32 " %" SCNu32, one, two) != 2)
        wire_wrong(in_dir(name), "not two numbers");
}

static void load_key(const char *name, uint8_t key[SIEVELAST_KEY_BYTES])
{
    wire_load_exact(in_dir(name), key, SIEVELAST_KEY_BYTES);
}

static void randomize(uint8_t *bytes, size_t n)
{
    if (getrandom(bytes, n, 0) != (ssize_t)n)
        wire_fail("random bytes");
}

/* The directory, ours alone until the program ends: a second manager waits. */
static void enter(const char *name)
{
    dir = name;
    int f = open(in_dir("lock"), O_RDWR | O_CREAT | O_CLOEXEC, 0600);
    if (f < 0 || flock(f, LOCK_EX))
        wire_fail(name);
}

/* A number for the next frame, which no frame had before: it is on the disk before the frame is sent. */
static uint32_t next_count(void)
{
    uint32_t count, unused;
    load_numbers("count", &count, &unused);
    save_numbers("count", count + 1, 0);
    return count;
}

/* ---- operation tables */
static int operation_named(const char *name)
{
    static const char *const names[SIEVELAST_TABLE_OPERATIONS] = {"read", "write", "look", "raise", "create", "delete", "key"};
    for (int i = 0; i < SIEVELAST_TABLE_OPERATIONS; i++)
        if (!strcmp(name, names[i]))
            return i + 1;
    wire_wrong(name, "none of read, write, look, raise, create, delete, key");
}

static uint16_t rights_named(char *list)
{
    uint16_t rights = 0;
    for (char *name = strtok(list, ","); name; name = strtok(NULL, ",")) {
        int operation = operation_named(name);
        rights |= SIEVELAST_RIGHT(operation);
    }
    return rights;
}

static void put_line(uint8_t *table, int operation, uint16_t rights, uint8_t level)
{
    uint8_t *line = table + LINE_BYTES * (operation - 1);
    line[0] = (uint8_t)(rights >> 8);
    line[1] = (uint8_t)rights;
    line[2] = level;
}

/* The table with which every partition starts: an operation needs its own right, and to set a key level 1. */
static void first_table(uint8_t table[SIEVELAST_TABLE_BYTES])
{
    for (int operation = SIEVELAST_READ; operation <= SIEVELAST_SET_KEY; operation++)
        put_line(table, operation, SIEVELAST_RIGHT(operation), operation == SIEVELAST_SET_KEY);
}

/* The rights that an operation needs under a slot: by the table that was loaded last, which rules neither the drive key's frames nor
 * the loading of tables. */
static uint16_t needed_rights(enum sievelast_slot slot, enum sievelast_operation operation)
{
    uint8_t table[SIEVELAST_TABLE_BYTES], *line = table + LINE_BYTES * (operation - 1);
    if (slot == SIEVELAST_SLOT_DRIVE || operation == SIEVELAST_LOAD_TABLE)
        return SIEVELAST_RIGHT(operation);
    wire_load_exact(in_dir("table"), table, sizeof table);
    return (uint16_t)(line[0] << 8 | line[1]);
}

/* ---- frames */
/* For one operation; the level is one that is enough for every table. */
static struct sievelast_credential own_credential(enum sievelast_slot slot, enum sievelast_operation operation)
{
    return (struct sievelast_credential){.partition = PARTITION,
                                         .slot = (uint8_t)slot,
                                         .holder = HOLDER,
                                         .rights = needed_rights(slot, operation),
                                         .least = SIEVELAST_LEVEL_REPLY,
                                         .end = UINT32_MAX,
                                         .expiry = wire_milliseconds(CLOCK_REALTIME) + OWN_TIME};
}

/* Sends one frame at level 2 under a credential made for it and the key of its slot. The row, after a grant that of the reply
 * check; *result is where in `reply` the result is. */
static uint64_t ask(struct sievelast_credential c, const uint8_t *slot_key, struct sievelast_request r, const uint8_t *data,
                    struct sievelast_checked *result)
{
    static uint8_t frame[SIEVELAST_MOST_FRAME_BYTES];
    uint8_t credential[SIEVELAST_CREDENTIAL_BYTES];
    r.level = SIEVELAST_LEVEL_REPLY;
    r.time = wire_milliseconds(CLOCK_REALTIME);
    r.count = next_count();
    struct sievelast_issued i = sievelast_issue(c, slot_key, SIEVELAST_KEY_BYTES, credential, sizeof credential);
    if (i.row)
        return i.row;
    sievelast_request_encode(r, request, sizeof request);
    struct sievelast_built b = sievelast_build(credential, sizeof credential, request, sizeof request, data, r.data_len, i.key,
                                               sizeof i.key, frame, sizeof frame);
    if (b.row)
        return b.row;
    struct wire_answer a = wire_ask(in_dir("socket"), frame, b.length, reply, sizeof reply);
    if (a.row)
        return a.row;
    *result = sievelast_check(credential, sizeof credential, request, sizeof request, i.key, sizeof i.key, reply, a.length);
    return result->row;
}

/* The same on an object, or for number 0 on the partition, under the working key. */
static uint64_t ask_object(struct object o, struct sievelast_request r, const uint8_t *data, struct sievelast_checked *result)
{
    uint8_t key[SIEVELAST_KEY_BYTES];
    struct sievelast_credential c = own_credential(SIEVELAST_SLOT_BLACK, r.operation);
    c.object = o.number;
    c.version = o.version;
    load_key("working-key", key);
    return ask(c, key, r, data, result);
}

/* The version that a raise or a create gave, noted before anything else is done. */
static void note_version(struct object *o, struct sievelast_checked result)
{
    o->version = (uint32_t)sievelast_version_decode(reply + result.start, result.length).version;
    save_numbers("last", o->version, 0);
    save_numbers(object_name(o->number), o->version, o->size);
    printf("object %" PRIu32 ": %" PRIu32 " bytes, version %" PRIu32 "\n", o->number, o->size, o->version);
}

/* ---- commands */
static void make(const char *name)
{
    uint8_t key[SIEVELAST_KEY_BYTES], table[SIEVELAST_TABLE_BYTES];
    if (mkdir(name, 0700))
        wire_fail(name);
    enter(name);
    randomize(key, sizeof key);
    save(in_dir("master"), key, sizeof key);
    randomize(key, sizeof key);
    save(in_dir("drive-key"), key, sizeof key);
    first_table(table);
    save(in_dir("table"), table, sizeof table);
    save_numbers("count", 0, 0);
    save_numbers("last", WIRE_FIRST_VERSION, 0);
}

/* Operation 7: a key from a random seed, signed by the key above it. */
static void set_key(enum sievelast_slot signing_slot, const char *signing_name, uint32_t target, const char *name)
{
    uint8_t signing[SIEVELAST_KEY_BYTES], message[SIEVELAST_REQUEST_BYTES + SIEVELAST_SEED_BYTES];
    uint8_t *seed = message + SIEVELAST_REQUEST_BYTES;
    struct sievelast_checked result;
    struct sievelast_credential c = own_credential(signing_slot, SIEVELAST_SET_KEY);
    load_key(signing_name, signing);
    randomize(seed, SIEVELAST_SEED_BYTES);
    struct sievelast_request r = {.operation = SIEVELAST_SET_KEY, .a = target, .data_len = SIEVELAST_SEED_BYTES};
    uint64_t row = ask(c, signing, r, seed, &result);
    if (row)
        wire_refused(name, row);
    memcpy(message, request, sizeof request);
    struct sievelast_digest d = sievelast_hmac(signing, sizeof signing, message, sizeof message);
    save(in_dir(name), d.bytes, sizeof d.bytes);
}

static void keys(void)
{
    set_key(SIEVELAST_SLOT_DRIVE, "drive-key", PARTITION, "partition-key");
    set_key(SIEVELAST_SLOT_PARTITION, "partition-key", SIEVELAST_SLOT_BLACK, "working-key");
    printf("partition %d: its key and working key 0 are set\n", PARTITION);
}

/* Operation 8: a table, signed by the partition key. */
static void load_table(int count, char **words)
{
    uint8_t table[SIEVELAST_TABLE_BYTES], key[SIEVELAST_KEY_BYTES];
    struct sievelast_checked result;
    first_table(table);
    for (int i = 0; i < count; i += LINE_WORDS)
        put_line(table, operation_named(words[i]), rights_named(words[i + 1]), (uint8_t)wire_number(words[i + 2], UINT8_MAX));
    load_key("partition-key", key);
    uint64_t row = ask(own_credential(SIEVELAST_SLOT_PARTITION, SIEVELAST_LOAD_TABLE), key,
                       (struct sievelast_request){.operation = SIEVELAST_LOAD_TABLE, .data_len = sizeof table}, table, &result);
    if (row)
        wire_refused("table not loaded", row);
    save(in_dir("table"), table, sizeof table);
    printf("partition %d: its operation table is", PARTITION);
    for (int i = 0; i < SIEVELAST_TABLE_BYTES; i++)
        printf(i % LINE_BYTES ? "%02x" : " %02x", table[i]);
    printf("\n");
}

static struct object load_object(uint32_t number)
{
    struct object o = {.number = number};
    load_numbers(object_name(number), &o.version, &o.size);
    return o;
}

static void raise_object(uint32_t number)
{
    struct object o = load_object(number);
    struct sievelast_checked result;
    uint64_t row = ask_object(o, (struct sievelast_request){.operation = SIEVELAST_RAISE}, NULL, &result);
    if (row)
        wire_refused("not raised", row);
    note_version(&o, result);
}

/* Whether the group's list, as it was written last, has a number. */
static int lists(uint32_t group, uint32_t number)
{
    static uint8_t list[SIEVELAST_MOST_DATA_BYTES];
    size_t n = wire_load(in_dir(group_name(group)), list, sizeof list);
    for (size_t at = 0; at + SIEVELAST_MEMBER_BYTES <= n; at += SIEVELAST_MEMBER_BYTES)
        if (wire_get4(list + at) == number)
            return 1;
    return 0;
}

/* Does something to every group that lists an object; how many do. */
static int each_group_of(uint32_t number, void (*what)(uint32_t group))
{
    DIR *all = opendir(dir);
    struct dirent *file;
    uint32_t group;
    int count = 0;
    if (!all)
        wire_fail(dir);
    while ((file = readdir(all)))
        if (sscanf(file->d_name, "group-%" SCNu32, &group) == 1 && !strcmp(file->d_name, group_name(group)) && lists(group, number)) {
            count++;
            if (what)
                what(group);
        }
    closedir(all);
    return count;
}

static void create_object(struct object *o)
{
    struct object partition = {.version = WIRE_FIRST_VERSION};
    struct sievelast_checked result;
    uint64_t row = ask_object(partition, (struct sievelast_request){.operation = SIEVELAST_CREATE, .a = o->number, .b = o->size}, NULL,
                              &result);
    if (row)
        wire_refused("not created", row);
    note_version(o, result);
}

/* An object that is not there was deleted before, and the answer lost. */
static void delete_object(uint32_t number)
{
    struct object o = load_object(number);
    struct sievelast_checked result;
    uint64_t row = ask_object(o, (struct sievelast_request){.operation = SIEVELAST_DELETE}, NULL, &result);
    if (row && row != SIEVELAST_ROW_NO_OBJECT)
        wire_refused("not deleted", row);
    if (unlink(in_dir(object_name(number))) || (is_there(group_name(number)) && unlink(in_dir(group_name(number)))))
        wire_fail(in_dir(object_name(number)));
    printf("object %" PRIu32 ": deleted\n", number);
}

/* ---- logs and groups */
static void create(uint32_t number, const char *size)
{
    struct object o = {.number = number, .size = (uint32_t)wire_number(size, UINT32_MAX)};
    each_group_of(number, raise_object);
    create_object(&o);
    if (is_there(group_name(number)) && unlink(in_dir(group_name(number)))) /* of a group that came no further than its name */
        wire_fail(in_dir(group_name(number)));
}

static void raise_version(uint32_t number)
{
    each_group_of(number, raise_object);
    raise_object(number);
}

static void delete(uint32_t number)
{
    each_group_of(number, raise_object);
    delete_object(number);
}

static int by_number(const void *one, const void *other)
{
    return memcmp(one, other, SIEVELAST_MEMBER_BYTES); /* the highest byte is the first */
}

/* Makes a group's list of these members, by rising numbers, of at most a frame's data; its bytes. */
static uint32_t make_list(uint32_t group, uint8_t *list, int count, char **words)
{
    uint32_t n = (uint32_t)count * SIEVELAST_MEMBER_BYTES, before = 0;
    if (n > SIEVELAST_MOST_DATA_BYTES)
        wire_wrong("members", "too many");
    for (int i = 0; i < count; i++) {
        uint32_t number = (uint32_t)wire_number(words[i], UINT32_MAX);
        if (number == group || is_there(group_name(number)))
            wire_wrong(words[i], "a group, and no log");
        wire_put4(list + i * SIEVELAST_MEMBER_BYTES, number);
    }
    qsort(list, (size_t)count, SIEVELAST_MEMBER_BYTES, by_number);
    for (uint32_t at = 0; at < n; before = wire_get4(list + at), at += SIEVELAST_MEMBER_BYTES)
        if (wire_get4(list + at) <= before)
            wire_wrong("members", "each is a number from 1, and comes once");
    return n;
}

/* Gives a group its next version, and the size of its next list: by a raise where the size stays, else as a new object. From then on, and
 * until its list is written, nobody has a credential for it. */
static void renew_group(struct object *g)
{
    int known = is_there(object_name(g->number)), is_group = is_there(group_name(g->number));
    if (!is_group && (known || each_group_of(g->number, NULL)))
        wire_wrong(object_name(g->number), "a log, or in the list of another group");
    if (known && load_object(g->number).size != g->size) {
        delete_object(g->number);
        known = 0;
    }
    if (known)
        raise_object(g->number);
    save(in_dir(group_name(g->number)), NULL, 0);
    if (!known)
        create_object(g);
    *g = load_object(g->number);
}

static void group(uint32_t number, int count, char **words)
{
    static uint8_t list[SIEVELAST_MOST_DATA_BYTES];
    struct object g = {.number = number, .size = make_list(number, list, count, words)};
    struct sievelast_checked result;
    renew_group(&g);
    uint64_t row = ask_object(g, (struct sievelast_request){.operation = SIEVELAST_WRITE, .b = g.size, .data_len = g.size}, list, &result);
    if (row)
        wire_refused("list not written", row);
    save(in_dir(group_name(number)), list, g.size);
    printf("group %" PRIu32 ": logs", number);
    for (uint32_t at = 0; at < g.size; at += SIEVELAST_MEMBER_BYTES)
        printf(" %" PRIu32, wire_get4(list + at));
    printf("\n");
}

/* A shape of more than a frame's data goes in several frames: until the last is granted the object holds a part of it. */
static void write_shape(uint32_t number)
{
    static uint8_t data[SIEVELAST_MOST_DATA_BYTES];
    struct object o = load_object(number);
    struct sievelast_checked result;
    uint32_t n, at = 0;
    if (is_there(group_name(number)))
        wire_wrong(group_name(number), "its list is written by `group`");
    while ((n = (uint32_t)fread(data, 1, sizeof data, stdin)) > 0) {
        uint64_t row = ask_object(o, (struct sievelast_request){.operation = SIEVELAST_WRITE, .a = at, .b = n, .data_len = n}, data,
                                  &result);
        if (row)
            wire_refused("not written", row);
        at += n;
    }
    printf("object %" PRIu32 ": %" PRIu32 " bytes written\n", o.number, at);
}

/* A lost answer gave the object a version just past the last that was seen. A look under any other version is refused by row 15. */
static void find(uint32_t number)
{
    struct object o = {.number = number};
    struct sievelast_checked result;
    uint32_t last, unused;
    uint64_t row = SIEVELAST_ROW_VERSION;
    load_numbers("last", &last, &unused);
    for (uint32_t past = 1; row == SIEVELAST_ROW_VERSION && past <= MOST_LOST; past++) {
        o.version = last + past;
        row = ask_object(o, (struct sievelast_request){.operation = SIEVELAST_LOOK}, NULL, &result);
    }
    if (row)
        wire_refused("not found", row);
    struct sievelast_looked looked = sievelast_look_decode(reply + result.start, result.length);
    o.size = looked.size;
    save_numbers("last", o.version, 0);
    save_numbers(object_name(o.number), o.version, o.size);
    printf("object %" PRIu32 ": %" PRIu32 " bytes, version %" PRIu32 "\n", o.number, o.size, o.version);
}

/* What a credential for an object opens. A group's range counts in the bytes of whichever log is named, and a look says how many it has. */
static struct sievelast_credential credential_for(struct object o, enum sievelast_operation operation)
{
    struct sievelast_credential c = own_credential(SIEVELAST_SLOT_BLACK, operation);
    uint8_t number[SIEVELAST_MEMBER_BYTES];
    c.object = o.number;
    c.version = o.version;
    c.end = o.size;
    if (is_there(group_name(o.number))) {
        if (wire_load(in_dir(group_name(o.number)), number, sizeof number) == 0)
            wire_wrong(group_name(o.number), "its list is not written: `group` once more");
        c.rights |= needed_rights(SIEVELAST_SLOT_BLACK, SIEVELAST_LOOK) | SIEVELAST_GROUP_RIGHT;
        c.end = UINT32_MAX;
    }
    return c;
}

static void issue(uint32_t number, char **words)
{
    struct object o = load_object(number);
    enum sievelast_operation operation = !strcmp(words[1], "write") ? SIEVELAST_WRITE : SIEVELAST_READ;
    struct sievelast_credential c = credential_for(o, operation);
    uint8_t key[SIEVELAST_KEY_BYTES], credential[SIEVELAST_CREDENTIAL_BYTES];
    uint64_t minutes = wire_number(words[2], UINT32_MAX);
    if (operation == SIEVELAST_READ && strcmp(words[1], "read"))
        wire_wrong(words[1], "neither read nor write");
    c.holder = (uint32_t)wire_number(words[0], UINT32_MAX);
    c.expiry = wire_milliseconds(CLOCK_REALTIME) + minutes * 60000;
    load_key("working-key", key);
    struct sievelast_issued i = sievelast_issue(c, key, sizeof key, credential, sizeof credential);
    if (i.row)
        wire_refused("not issued", i.row);
    save(words[3], credential, sizeof credential);
    save(words[4], i.key, sizeof i.key);
    printf("holder %" PRIu32 " may %s %s %" PRIu32 ", version %" PRIu32 ", for %" PRIu64 " minutes\n", c.holder, words[1],
           c.rights & SIEVELAST_GROUP_RIGHT ? "the logs of group" : "object", o.number, o.version, minutes);
}

/* A command on an object: its number is the first of the words behind DIR. */
static int of_object(const char *command, int count, char **words)
{
    uint32_t number = (uint32_t)wire_number(words[0], UINT32_MAX);
    if (count == 2 && !strcmp(command, "create"))
        create(number, words[1]);
    else if (count == 1 && !strcmp(command, "write"))
        write_shape(number);
    else if (count == 1 && !strcmp(command, "raise"))
        raise_version(number);
    else if (count == 1 && !strcmp(command, "delete"))
        delete(number);
    else if (count > 1 && !strcmp(command, "group"))
        group(number, count - 1, words + 1);
    else if (count == 1 && !strcmp(command, "find"))
        find(number);
    else if (count == 6 && !strcmp(command, "issue"))
        issue(number, words + 1);
    else
        return 0;
    return 1;
}

int main(int count, char **words)
{
    const char *command = count > 2 ? words[1] : "";
    int known = 1;
    if (count == 3 && !strcmp(command, "new")) {
        make(words[2]);
        return 0;
    }
    if (count > 2)
        enter(words[2]);
    if (count == 3 && !strcmp(command, "keys"))
        keys();
    else if (count > 2 && (count - 3) % LINE_WORDS == 0 && !strcmp(command, "table"))
        load_table(count - 3, words + 3);
    else
        known = count > 3 && of_object(command, count - 3, words + 3);
    if (!known)
        wire_wrong("usage", "manager new|keys DIR, table DIR [OPERATION RIGHTS LEVEL].., create DIR NUMBER SIZE, "
                            "write|raise|delete|find DIR NUMBER, group DIR NUMBER MEMBER.., "
                            "issue DIR NUMBER HOLDER read|write MINUTES CREDENTIAL KEY");
    return 0;
}
