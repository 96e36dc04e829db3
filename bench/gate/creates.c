/* A delete and then a create of every second one of N objects, ROUNDS times over: the gaps are equal. Each frame is issued, built, put to
 * the lent gate, and its reply checked. For counting instructions (creates beside this file). */
#include "session.h"

enum { SIZE = 16, MEDIUM = 4 * SIEVELAST_MOST_OBJECTS * SIZE, PAST_EVERY_ENTRY = 6000 };

static uint32_t versions[SIEVELAST_MOST_OBJECTS + 1];

static void create(struct session *s, uint32_t number)
{
    session_credential(s, SIEVELAST_SLOT_BLACK, 0, SESSION_FIRST_VERSION);
    session_request(s, SIEVELAST_CREATE, number, SIZE);
    EXPECT_ROW(s, SIEVELAST_GRANTED);
    versions[number] = session_version(s);
}

static void delete(struct session *s, uint32_t number)
{
    session_credential(s, SIEVELAST_SLOT_BLACK, number, versions[number]);
    session_request(s, SIEVELAST_DELETE, 0, 0);
    EXPECT_ROW(s, SIEVELAST_GRANTED);
}

int main(int argc, char **argv)
{
    uint32_t objects = argc > 2 ? (uint32_t)atoi(argv[1]) : 0;
    if (objects < 1 || objects > SIEVELAST_MOST_OBJECTS) {
        fprintf(stderr, "usage: creates OBJECTS ROUNDS, of 1 to %d objects\n", SIEVELAST_MOST_OBJECTS);
        return 2;
    }
    static const uint8_t seed[SIEVELAST_SEED_BYTES];
    struct session *s = session_new(MEDIUM);
    s->data = seed;
    EXPECT(session_start(s) == SIEVELAST_GRANTED);
    s->request.level = SIEVELAST_LEVEL_RECORDS;
    for (uint32_t k = 1; k <= objects; k++)
        create(s, k);
    for (int rounds = atoi(argv[2]); rounds > 0; rounds--) {
        s->clock += PAST_EVERY_ENTRY;
        for (uint32_t k = 1; k <= objects; k += 2)
            delete(s, k);
        for (uint32_t k = 1; k <= objects; k += 2)
            create(s, k);
    }
    session_free(s);
    return failures != 0;
}
