/* Facts that a test expects, counted. One that does not hold is printed with its line, with what is under way, and with what the test
 * says of the case; of many the first PRINTED. */
#ifndef TESTS_EXPECT_H
#define TESTS_EXPECT_H
#include <inttypes.h>
#include <stdint.h>
#include <stdio.h>

enum { PRINTED = 20 };

static int failures;
static int checks;
static char under_way[120]; /* printed with a failure */

/* Does it hold? If not, and if it is to be printed, there is more to say of it. */
static inline int expect(int ok, const char *what, int line)
{
    checks++;
    failures += !ok;
    if (ok || failures > PRINTED)
        return 1;
    printf("line %d: %s%s%s\n", line, what, *under_way ? "; " : "", under_way);
    return 0;
}
#define EXPECT(ok) (void)expect((ok) != 0, #ok, __LINE__)

/* The same with more to say, as printf does. */
#define EXPECT_IN(ok, ...)                         \
    do {                                           \
        if (!expect((ok) != 0, #ok, __LINE__)) {   \
            printf("    " __VA_ARGS__);            \
            printf("\n");                          \
        }                                          \
    } while (0)

static inline void expect_number(uint64_t found, uint64_t right, const char *what, int line)
{
    if (!expect(found == right, what, line))
        printf("    is %" PRIu64 ", not %" PRIu64 "\n", found, right);
}
#define EXPECT_NUMBER(found, right) expect_number((uint64_t)(found), (uint64_t)(right), #found, __LINE__)

/* The test's last line, and main's status. */
static inline int expected(const char *test)
{
    printf("%s: %d checks, %d failures\n", test, checks, failures);
    return checks == 0 || failures != 0;
}
#endif
