/* What the header's macros read of an answer, and the editions, tried by the compiler: there is nothing to run.
 *
 * At the top of the repository:
 *   cc -std=c11 -Iinclude -fsyntax-only tests/header/macros.c
 */
#include "fogzurt.h"

/* An answer with `value` in the byte at an index, from 0, and `others` in every other one. */
#define BYTE(index, value) ((uint64_t)(value) << 8 * (index))
#define AMONG(index, value, others) \
    (BYTE(index, value) | (UINT64_C(0x0101010101010101) * (others) & ~BYTE(index, 0xff)))

/* Each part is its own byte, whatever the others hold. */
#define IS_BYTE(macro, index)                                                      \
    _Static_assert(macro(AMONG(index, 0x5a, 0)) == 0x5a, "the byte of " #macro);   \
    _Static_assert(macro(AMONG(index, 0x5a, 0xff)) == 0x5a, "no more in " #macro); \
    _Static_assert(macro(AMONG(index, 0, 0xff)) == 0, "nothing else in " #macro)

IS_BYTE(FOGZURT_NUMBER, 0);
IS_BYTE(FOGZURT_KIND, 1);
IS_BYTE(FOGZURT_POSITION, 2);
IS_BYTE(FOGZURT_SENT_SYMBOL, 3);
IS_BYTE(FOGZURT_SECOND_POSITION, 4);
IS_BYTE(FOGZURT_SECOND_SENT_SYMBOL, 5);
IS_BYTE(FOGZURT_ERROR, 6);
IS_BYTE(FOGZURT_TRIED, 7);

/* The error is signed: its byte is a two's complement. */
#define IS_ERROR(value, byte)                                                               \
    _Static_assert(FOGZURT_ERROR(AMONG(6, byte, 0)) == (value), "error " #value);           \
    _Static_assert(FOGZURT_ERROR(AMONG(6, byte, 0xff)) == (value), "error " #value " alone")

IS_ERROR(1, 0x01);
IS_ERROR(6, 0x06);
IS_ERROR(127, 0x7f);
IS_ERROR(-1, 0xff);
IS_ERROR(-2, 0xfe);
IS_ERROR(-6, 0xfa);
IS_ERROR(-128, 0x80);
_Static_assert(FOGZURT_ERROR(0) - 1 < 0, "an int, and not an unsigned number");

/* The count has the highest byte, and is no negative number there. */
_Static_assert(FOGZURT_TRIED(AMONG(7, 0xff, 0)) == 255, "the highest byte");
_Static_assert(FOGZURT_TRIED(INT64_MIN) == 128, "the highest bit, also of a signed number");
_Static_assert(FOGZURT_TRIED(0) - 1 > 0, "an unsigned number");

/* A refusal with a count: the number is its lowest byte, and no longer the whole answer. */
#define UNREADABLE(tried) (BYTE(7, tried) | FOGZURT_ERR_UNREADABLE)
_Static_assert(UNREADABLE(49) != FOGZURT_ERR_UNREADABLE, "more than the number");
_Static_assert(FOGZURT_NUMBER(UNREADABLE(49)) == FOGZURT_ERR_UNREADABLE, "the number of it");
_Static_assert(FOGZURT_KIND(UNREADABLE(49)) == FOGZURT_KIND_NONE, "the kind of it");
_Static_assert(FOGZURT_ERROR(UNREADABLE(49)) == 0, "the error of it");
_Static_assert(FOGZURT_TRIED(UNREADABLE(49)) == 49, "the count of it");

/* The numbers that a caller writes down: the editions and the line rules, the number for any other of each, the
 * number of a word that is read but not converted, and the version that brought the second decoder. */
_Static_assert(FOGZURT_EDITION_2013 == 13 && FOGZURT_EDITION_2018 == 18, "the editions");
_Static_assert(FOGZURT_ERR_EDITION == 12, "the number of no edition");
_Static_assert(FOGZURT_ERR_NOT_CLEAN == 13, "the number of a word that is not clean");
_Static_assert(FOGZURT_RULE_1 == 1 && FOGZURT_RULE_2 == 2, "the line rules");
_Static_assert(FOGZURT_ERR_RULE == 14, "the number of no line rule");
_Static_assert(FOGZURT_VERSION_MAJOR == 4 && FOGZURT_VERSION_MINOR == 1, "the version");

/* The edition is a 64-bit number and comes first, in all four functions; encode has the line rule after the
 * profile, and both decoders are called in the same way. */
uint64_t (*const encode)(uint64_t, uint64_t, uint64_t, const uint8_t *, size_t, const uint8_t *, size_t,
                         uint8_t *, size_t) = fogzurt_encode;
uint64_t (*const decode)(uint64_t, uint64_t, const uint8_t *, size_t, uint8_t *, size_t, uint8_t *,
                         size_t) = fogzurt_decode;
uint64_t (*const syndrome_decode)(uint64_t, uint64_t, const uint8_t *, size_t, uint8_t *, size_t, uint8_t *,
                                  size_t) = fogzurt_syndrome_decode;
uint64_t (*const convert)(uint64_t, uint64_t, const uint8_t *, size_t, uint8_t *, size_t) = fogzurt_convert;
