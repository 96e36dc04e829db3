/* Sievelast's client end for C: build a frame, check a reply. Link libsievelast.a, which is `tools/build solver`'s libsolver.a.
 * sievelast_records.h has lengths, rows and the records, and says what holds for every call. An example: examples/solver.c.
 *
 * Rows (why a call said no); 0 means granted:
 *   26  the key is not 32 bytes
 *   28  a record is not as long as it must be (36 bytes; a request 28, a group's 32, as its mark says), or its fields are none that a
 *       drive would take; for the builder also: the request's data length is not data_len; for the check also: the request calls for
 *       a result of over 4,194,304 bytes
 *   29  the space is too short for the frame (96 bytes and the data; a group's 100 and the data)
 *   30  the reply is not the one that the request calls for: its mark, operation, level, a length, or its level 2 digest
 *
 * Row 28 asks for a level by document 01's rule, at least 1 for setting a key and for loading a table: what a partition's operation
 * table asks for beyond that (sievelast_records.h), the drive alone knows, and refuses by row 7. Nor does the client end know a group's
 * list; but row 28 asks that a group credential and a group's request go together, for operations 1 to 3 and not for object 0.
 *
 * Who wrote the reply. Only level 2 tells: there the drive's reply has a digest under the credential key, over credential, request
 * and result. At levels 0 and 1 the check sees that the reply has the form that the request calls for, and no more: whoever can write
 * on the wire can put any bytes there. A program that believes what it reads asks at SIEVELAST_LEVEL_REPLY.
 *
 * One case is left at level 2, by the layouts themselves: the frame of a write of exactly the eight bytes 4C 41 02 02 00 00 00 00,
 * through a group too, has for its digest that of its own reply, "granted". Whoever reads that frame on the wire can send this reply
 * before the drive does, or for a frame that the drive never got. No other write and no read is concerned (docs/DECISIONS.md, 13). Do
 * not write these eight bytes alone, or look whether the write was done.
 */
#ifndef SIEVELAST_H
#define SIEVELAST_H

#include "sievelast_records.h"

#ifdef __cplusplus
extern "C" {
#endif

struct sievelast_built {
    uint64_t row;    /* 0, or 26, 28, 29 */
    uint64_t length; /* bytes of the frame at the start of space; 0 when refused */
};

struct sievelast_checked {
    uint64_t row;    /* 0, or 26, 28, 30 */
    uint64_t start;  /* where the result starts in reply; 8 when granted, 0 when refused */
    uint64_t length; /* bytes of the result, which may be 0; 0 when refused */
};

/* Writes a frame at the start of space: the 36 bytes of the credential, the 28 or 32 bytes of the request, the data, and 32 bytes of
 * digest under the credential key (32 bytes, from whoever issued the credential). Bytes of space after the frame keep their
 * values; a refused call writes none. A space of SIEVELAST_LEAST_FRAME_BYTES + data_len is enough, for a group's frame one of
 * SIEVELAST_GROUP_FRAME_BYTES + data_len. */
struct sievelast_built sievelast_build(const uint8_t *credential, size_t credential_len, const uint8_t *request,
                                       size_t request_len, const uint8_t *data, size_t data_len, const uint8_t *key,
                                       size_t key_len, uint8_t *space, size_t space_len);

/* Checks a drive's reply against the credential and the request, of either form, of its frame, and says where in it the result is. At
 * level 2 the reply's digest is checked under the credential key. Only a result with row 0 may be used, and only one of level 2
 * believed. */
struct sievelast_checked sievelast_check(const uint8_t *credential, size_t credential_len, const uint8_t *request,
                                         size_t request_len, const uint8_t *key, size_t key_len, const uint8_t *reply,
                                         size_t reply_len);

#ifdef __cplusplus
}
#endif

#endif
