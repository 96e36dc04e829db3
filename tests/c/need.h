/* What an operation needs of its frame: every right of a mask, and at least a level. */
#ifndef TESTS_NEED_H
#define TESTS_NEED_H
#include <stdint.h>

struct need {
    uint32_t mask, level;
};

/* Document 01's rule: "Operation k needs rights bit k - 1", and row 7 refuses level 0 with operation 7. Change 5, where this rule stays:
 * "operation 8 treated as 7". */
static inline struct need need_by_rule(int operation)
{
    int as = operation == 8 ? 7 : operation;
    struct need n = {(uint32_t)1 << (as - 1), as == 7};
    return n;
}
#endif
