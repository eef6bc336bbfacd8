/* Call control in small: checks a table, writes a value and reads it back, cuts a line of messages, asks how long it is to a wake-up call, and
 * which century a time is in. */
#include <inttypes.h>
#include <stdio.h>
#include <string.h>

#include "yinscarf.h"

/* 0: [0] IMPLICIT INTEGER, 1: BOOLEAN, 2: SET { 0, 1 OPTIONAL } */
static const uint8_t table[] = {0x54, 0x59, 0x02, 0x01, 0x02, 0x00, 0x00, 0x54, 0x59, 0x01, 0x01, 0x00, 0x00, 0x01,
                                0x54, 0x59, 0x11, 0x01, 0x00, 0x00, 0x11, 0x02, 0x00, 0x00, 0x01, 0x01};
/* 5 and true */
static const uint8_t value[] = {0x56, 0x41, 0x11, 0x02, 0x01, 0x01, 0x56, 0x41, 0x02, 0, 0, 0, 0, 0, 0, 0, 5, 0x56, 0x41, 0x01, 0x01};

/* 31 December 1999 at 22:00, and the day after at 6:30 */
static const uint8_t evening[] = {0x56, 0x41, 0x18, 0x07, 0xCF, 12, 31, 22, 0, 0}, morning[] = {0x56, 0x41, 0x18, 0x07, 0xD0, 1, 1, 6, 30, 0};

/* the year 60 as a UTCTime: of link version 1 2060, of version 2 1960 */
static const uint8_t sixty[] = {0x56, 0x41, 0x17, 0, 60, 2, 29, 6, 30, 0};

static void show(const char *what, uint64_t answer, const uint8_t *buf)
{
    printf("%s: ", what);
    if (YINSCARF_NUMBER(answer) != YINSCARF_DONE) {
        printf("refused, %u at %u\n", YINSCARF_NUMBER(answer), YINSCARF_REST(answer));
        return;
    }
    printf("done");
    for (unsigned i = 0; i < YINSCARF_REST(answer); i++)
        printf(" %02x", buf[i]);
    printf("\n");
}

static void show_time(const char *what, int64_t answer)
{
    if (YINSCARF_TIME_NUMBER(answer) != YINSCARF_DONE)
        printf("%s: refused, %u\n", what, YINSCARF_TIME_NUMBER(answer));
    else
        printf("%s: %" PRId64 "\n", what, answer);
}

/* Reads the first of the messages that stand one after another in what has come on a line, and says how many octets it has; 0 if it is not whole. */
static size_t first_of(const uint8_t *line, size_t n, uint8_t *buf, size_t room)
{
    if (n > 8192)
        n = 8192;
    uint64_t a = yinscarf_read(table, sizeof table, 2, line, n, buf, room);
    show("read from the line", a, buf);
    if (YINSCARF_NUMBER(a) != YINSCARF_MESSAGE_TRAILING)
        return YINSCARF_NUMBER(a) == YINSCARF_DONE ? n : 0;
    n = YINSCARF_REST(a);
    a = yinscarf_read(table, sizeof table, 2, line, n, buf, room);
    show("read up to there", a, buf);
    return YINSCARF_NUMBER(a) == YINSCARF_DONE ? n : 0;
}

int main(void)
{
    uint8_t message[64], back[64], line[20], copy[64];
    uint64_t a = yinscarf_check(table, sizeof table);
    show("check", a, message);
    uint64_t w = yinscarf_write(table, sizeof table, 2, value, sizeof value, message, sizeof message);
    show("write", w, message);
    uint64_t r = yinscarf_read(table, sizeof table, 2, message, YINSCARF_REST(w), back, sizeof back);
    show("read", r, back);
    /* a member of the SET is missing */
    uint64_t no = yinscarf_read(table, sizeof table, 2, (const uint8_t *)"\x31\x00", 2, back, sizeof back);
    show("read", no, back);
    /* the message twice, and half of it */
    memcpy(line, message, 8);
    memcpy(line + 8, message, 8);
    memcpy(line + 16, message, 4);
    if (first_of(line, 20, copy, sizeof copy) != 8 || first_of(line + 8, 12, copy, sizeof copy) != 8 || first_of(line + 16, 4, copy, sizeof copy) != 0 ||
        memcmp(copy, value, sizeof value) != 0)
        return 1;
    int64_t o = yinscarf_order(evening, sizeof evening, morning, sizeof morning);
    show_time("order", o);
    int64_t s = yinscarf_seconds(evening, sizeof evening, morning, sizeof morning);
    show_time("seconds", s);
    /* a SET is no time */
    int64_t other = yinscarf_seconds(evening, sizeof evening, (const uint8_t *)"\x56\x41\x11\x00", 4);
    show_time("seconds", other);
    uint8_t first[10], second[10], again[10];
    uint64_t v1 = yinscarf_to_generalized(1, sixty, sizeof sixty, first, sizeof first);
    show("to GeneralizedTime by version 1", v1, first);
    uint64_t v2 = yinscarf_to_generalized(2, sixty, sizeof sixty, second, sizeof second);
    show("to GeneralizedTime by version 2", v2, second);
    uint64_t u = yinscarf_to_utc(2, second, sizeof second, again, sizeof again);
    show("to UTCTime by version 2", u, again);
    /* 2060 is outside the window of version 2 */
    uint64_t outside = yinscarf_to_utc(2, first, sizeof first, again, sizeof again);
    show("to UTCTime by version 2", outside, again);
    if (v1 != 10 || v2 != 10 || u != 10 || memcmp(again, sixty, sizeof sixty) != 0 || outside != (uint64_t)YINSCARF_VALUE_TYPE * 65536)
        return 1;
    if (o != -1 || s != 30600 || YINSCARF_TIME_NUMBER(other) != YINSCARF_VALUE_TYPE)
        return 1;
    if (a != 0 || w != 8 || memcmp(message, "\x31\x06\x80\x01\x05\x01\x01\xff", 8) != 0)
        return 1;
    if (r != sizeof value || memcmp(back, value, sizeof value) != 0)
        return 1;
    return no == (uint64_t)YINSCARF_MESSAGE_NOT_AWAITED * 65536 + 2 ? 0 : 1;
}
