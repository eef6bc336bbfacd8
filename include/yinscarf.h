/* The link engine for call control: check a type table, write a value as a message, read a message into a value; order two
 * times, count the seconds between them, and take a UTCTime for a GeneralizedTime and back.
 *
 * Check, write, read, to_generalized and to_utc answer one number, number * 65,536 + rest:
 *   number 0    done; rest is the length written to buf (of a check: 0)
 *   otherwise   refused; number is the cause below, rest its place
 * YINSCARF_NUMBER and YINSCARF_REST take an answer apart.
 *
 * Order and seconds answer one number with a sign:
 *   below 2^40 = 1,099,511,627,776    done; it is the result itself, which may be negative
 *   otherwise                         refused; number * 2^40, where number is 11 or 12
 * YINSCARF_TIME_NUMBER is the number of such an answer, 0 if it is done.
 *
 * Places: for 1 to 6 the number of a record of the table (1 may say 128: too many records); for 11 to 13, 22 to 26, 28
 * and 29 an offset into the value or message; 0 for 7, 14, 21 and 27, and for 11 and 12 of the calls on times.
 *
 * Lent memory: a pointer and the length after it lend that many octets, for the time of the call. All but buf are only read,
 * and may overlap each other; buf must not overlap them. A null pointer with the length 0 is allowed; a null
 * pointer with another length is not, nor is a length of more octets than there are. A refusal leaves all of buf as it was;
 * what is done writes the first octets of buf, as many as the answer says, and leaves the rest as it was. Nothing is kept
 * between calls and no memory is allocated, so calls may run at the same time on different buffers. The archive asks for memset and for
 * nothing else, so a program that has its own needs no C library.
 *
 * ./build puts this file and the archive into target/yinscarf; a program is built by
 *   cc -Itarget/yinscarf program.c target/yinscarf/libyinscarf.a
 */
#ifndef YINSCARF_H
#define YINSCARF_H

#include <stddef.h>
#include <stdint.h>

#ifdef __cplusplus
extern "C" {
#endif

#define YINSCARF_NUMBER(answer) ((unsigned)((answer) >> 16))
#define YINSCARF_REST(answer) ((unsigned)((answer) & 0xFFFF))
/* results lie between -2^39 and 2^39 */
#define YINSCARF_TIME_NUMBER(answer) ((unsigned)(((answer) + (INT64_C(1) << 39)) >> 40))

enum yinscarf_number {
    YINSCARF_DONE = 0,                  /* done; rest is the length written */
    /* the table */
    YINSCARF_TABLE_SHAPE = 1,           /* table not shaped as type records */
    YINSCARF_TABLE_NO_RECORD = 2,       /* a record names one that is not there */
    YINSCARF_TABLE_TAG = 3,             /* a tag missing, or a UNIVERSAL tag that is not allowed */
    YINSCARF_TABLE_CHOICE_LOOP = 4,     /* a CHOICE without tags reaches itself through such CHOICEs alone */
    YINSCARF_TABLE_SHARED_TAG = 5,      /* two members in one run (of a SET any two) or two alternatives share a first tag */
    YINSCARF_TABLE_NO_VALUE = 6,        /* a record has no finite value */
    YINSCARF_TABLE_NO_TYPE = 7,         /* the type is not in the table; of to_generalized and to_utc: no such link version */
    /* the value */
    YINSCARF_VALUE_SHAPE = 11,          /* value not shaped as nodes, a time that there is not, empty, too long, or octets left */
    YINSCARF_VALUE_TYPE = 12,           /* value not of the type; of the calls on times: no time of the kind, or outside the window */
    YINSCARF_VALUE_LEVEL = 13,          /* a node at level 25 */
    YINSCARF_VALUE_ROOM = 14,           /* message longer than buf or 8,192 octets */
    /* the message */
    YINSCARF_MESSAGE_LONG = 21,         /* message over 8,192 octets */
    YINSCARF_MESSAGE_CUT = 22,          /* message cut, or a length beyond what encloses it */
    YINSCARF_MESSAGE_FORM = 23,         /* a header form that X.690 forbids */
    YINSCARF_MESSAGE_NOT_AWAITED = 24,  /* an identifier not awaited or no segment's, or an awaited item missing */
    YINSCARF_MESSAGE_CONTENTS = 25,     /* contents wrong for the kind; unused bits before a further segment */
    YINSCARF_MESSAGE_TRAILING = 26,     /* octets where nothing is awaited */
    YINSCARF_MESSAGE_ROOM = 27,         /* value longer than buf or 16,384 octets; buf under the ten octets of a time */
    YINSCARF_MESSAGE_LEVEL = 28,        /* a value at level 25, or a segment of a string at depth 5 */
    YINSCARF_MESSAGE_LENGTH_FIELD = 29  /* a first length octet from 85 to FE: more than four octets are to follow it */
};

/* Whether a type table passes: 0, or a refusal 1 to 6. */
uint64_t yinscarf_check(const uint8_t *table, size_t table_len);

/* Writes a value of a type as a message: 0 and the message's length, or a refusal 1 to 14. */
uint64_t yinscarf_write(const uint8_t *table, size_t table_len, size_t type, const uint8_t *value, size_t value_len, uint8_t *buf,
                        size_t buf_len);

/* Reads a message of a type into a value: 0 and the value's length, or a refusal 1 to 7 or 21 to 29. */
uint64_t yinscarf_read(const uint8_t *table, size_t table_len, size_t type, const uint8_t *message, size_t message_len, uint8_t *buf,
                       size_t buf_len);

/* Orders two times, each a value that is one node of GeneralizedTime: -1 if the first is before the second, 0 if they are the same,
 * 1 if it is after it; or a refusal: 11 if a value is not one shaped node alone, without children, 12 if it is another kind's, the first
 * value judged before the second. */
int64_t yinscarf_order(const uint8_t *first, size_t first_len, const uint8_t *second, size_t second_len);

/* Counts the whole seconds from the first of two such times to the second, between -2^39 and 2^39, negative if the first is after it;
 * every day has 86,400. The refusals are those of order. */
int64_t yinscarf_seconds(const uint8_t *first, size_t first_len, const uint8_t *second, size_t second_len);

/* Takes a value that is one node of UTCTime for a GeneralizedTime, in the year that ends with its two digits and is inside the window of a link
 * version: of version 1 the years 1970 to 2069, of version 2 1950 to 2049. 0 and the length ten, with the node of GeneralizedTime in buf; or a
 * refusal, the first of: 7 if the version is not 1 or 2, 11 if the value is not one shaped node alone, without children, 12 if it is another
 * kind's, 27 if buf has less than ten octets. */
uint64_t yinscarf_to_generalized(size_t version, const uint8_t *time, size_t time_len, uint8_t *buf, size_t buf_len);

/* The way back: takes a value that is one node of GeneralizedTime for a UTCTime, if its year is inside the window of the link version; 12 if it is
 * outside. Otherwise as to_generalized. */
uint64_t yinscarf_to_utc(size_t version, const uint8_t *time, size_t time_len, uint8_t *buf, size_t buf_len);

#ifdef __cplusplus
}
#endif

#endif
