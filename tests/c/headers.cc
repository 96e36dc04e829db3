// A C++ program that uses all three headers: constants in constant expressions, structs, calls to both archives.
#include "sievelast.h"
#include "sievelast_records.h"
#include "sievelast_store.h"
#include <cstdio>

static_assert(SIEVELAST_MOST_REPLY_BYTES > SIEVELAST_MOST_RESULT_BYTES, "a reply is longer than its result");
static_assert(SIEVELAST_RIGHT(SIEVELAST_DELETE) < SIEVELAST_EVERY_RIGHT, "a right is one of all");
static_assert(SIEVELAST_RIGHT(SIEVELAST_LOAD_TABLE) == SIEVELAST_RIGHT(SIEVELAST_SET_KEY), "who sets keys loads tables");
static_assert((SIEVELAST_GROUP_RIGHT & SIEVELAST_EVERY_RIGHT) == 0, "no operation needs the group's right");

int main()
{
    static sievelast_drive drive;
    uint8_t medium[4] = {1, 2, 3, 4}, key[SIEVELAST_KEY_BYTES] = {}, space[SIEVELAST_REQUEST_BYTES], reply[1];
    uint8_t group_space[SIEVELAST_GROUP_REQUEST_BYTES];
    sievelast_request request = {};
    request.operation = SIEVELAST_LOOK;
    request.count = 41;
    uint64_t encoded = sievelast_request_encode(request, space, sizeof space);
    sievelast_request_decoded decoded = sievelast_request_decode(space, sizeof space);
    uint64_t group_encoded = sievelast_group_request_encode(request, 4711, group_space, sizeof group_space);
    sievelast_group_request_decoded group = sievelast_group_request_decode(group_space, sizeof group_space);
    uint64_t formatted = sievelast_format(&drive, medium, sizeof medium, 1, key, sizeof key, key, sizeof key);
    sievelast_answered answered = sievelast_gate(&drive, medium, sizeof medium, space, sizeof space, 5, reply, sizeof reply);
    bool right = encoded == SIEVELAST_GRANTED && decoded.fields.count == 41 && formatted == SIEVELAST_GRANTED && medium[3] == 0 &&
                 answered.row == SIEVELAST_ROW_FRAME_SHORT && drive.highwater == 5 && group_encoded == SIEVELAST_GRANTED &&
                 group.member == 4711 && group.fields.count == 41;
    std::printf("headers in C++: %s; the gate's row: %s\n", right ? "right" : "WRONG", sievelast_row_text(answered.row));
    return right ? 0 : 1;
}
