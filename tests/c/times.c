/* Orders times and counts the seconds between them, each input between pages that may not be touched and read-only during a call. Each answer
 * is compared with the rules of docs/FORMATS.md as they stand here, and with the C library's calendar.
 *   times            the stored pairs and refusals, every day of some years, null pointers, every short length, the longest, damaged inputs
 *   times --pairs    answers pairs on standard input, of each input a two-octet length and its octets: order and seconds, packed, in a line */
#define _GNU_SOURCE
#include <inttypes.h>
#include <time.h>

#include "nodes.h"
#include "yinscarf.h"

enum { OVER = 2, SHORT = 40, DAMAGED = 20000 };

static struct fenced firsts, seconds;
static unsigned long calls;

static void fail(const char *what, struct input a, struct input b, int64_t got, int64_t want)
{
    printf("FAILED: %s: %" PRId64 ", not %" PRId64 ":", what, got, want);
    for (int k = 0; k < 2; k++) {
        struct input x = k ? b : a;
        printf("%s", k ? " /" : "");
        for (size_t i = 0; i < x.n && i < 60; i++)
            printf(" %02x", x.octets[i]);
        printf(" (%zu)", x.n);
    }
    printf("\n");
    exit(1);
}

static int64_t since_1970(struct input x)
{
    const uint8_t *p = x.octets + 3;
    struct tm t = {.tm_year = (int)two(p) - 1900, .tm_mon = p[2] - 1, .tm_mday = p[3], .tm_hour = p[4], .tm_min = p[5], .tm_sec = p[6]};
    return timegm(&t);
}

/* ---- calls ---- */

/* Both operations, with the pages that may not be touched right before each input, then right behind it; the answers must be these. */
static void expect(struct input a, struct input b, int64_t order, int64_t elapsed)
{
    for (int at_end = 0; at_end < 2; at_end++) {
        const uint8_t *p = lent(firsts, a, at_end), *q = lent(seconds, b, at_end);
        int64_t o = yinscarf_order(p, a.n, q, b.n), s = yinscarf_seconds(p, a.n, q, b.n);
        protect(firsts, PROT_READ | PROT_WRITE);
        protect(seconds, PROT_READ | PROT_WRITE);
        calls += 2;
        if (o != order)
            fail("order", a, b, o, order);
        if (s != elapsed)
            fail("seconds", a, b, s, elapsed);
        if (YINSCARF_TIME_NUMBER(s) != (s < INT64_C(1) << 40 ? 0 : s >> 40))
            fail("the number of an answer", a, b, YINSCARF_TIME_NUMBER(s), s >> 40);
    }
}

static void expect_refused(struct input a, struct input b, unsigned number)
{
    expect(a, b, (int64_t)number << 40, (int64_t)number << 40);
}

/* A call whose answer is that of the rules above. */
static void expect_by_rule(struct input a, struct input b)
{
    unsigned number = judged(a, GENERALIZED) ? judged(a, GENERALIZED) : judged(b, GENERALIZED);
    if (number) {
        expect_refused(a, b, number);
        return;
    }
    int64_t s = since_1970(b) - since_1970(a);
    expect(a, b, (s < 0) - (s > 0), s);
}

/* ---- what is tried ---- */

struct pair {
    unsigned from[6], to[6];
    int64_t seconds;
};

static const struct pair pairs[] = {
    {{1970, 1, 1, 0, 0, 0}, {2000, 1, 1, 0, 0, 0}, 946684800},
    {{1970, 1, 1, 0, 0, 0}, {1970, 1, 1, 0, 0, 0}, 0},
    {{9999, 12, 31, 23, 59, 59}, {9999, 12, 31, 23, 59, 59}, 0},
    /* 25 times 146,097 days, but one second */
    {{0, 1, 1, 0, 0, 0}, {9999, 12, 31, 23, 59, 59}, 315569519999},
    {{1600, 1, 1, 0, 0, 0}, {2000, 1, 1, 0, 0, 0}, 12622780800},
    {{1969, 12, 31, 23, 59, 59}, {1970, 1, 1, 0, 0, 0}, 1},
    {{2016, 12, 31, 23, 59, 59}, {2017, 1, 1, 0, 0, 0}, 1},
    {{1999, 12, 31, 22, 0, 0}, {2000, 1, 1, 6, 30, 0}, 30600},
    {{2000, 2, 28, 0, 0, 0}, {2000, 3, 1, 0, 0, 0}, 172800},
    {{1900, 2, 28, 0, 0, 0}, {1900, 3, 1, 0, 0, 0}, 86400},
    {{2100, 2, 28, 0, 0, 0}, {2100, 3, 1, 0, 0, 0}, 86400},
    {{0, 2, 28, 0, 0, 0}, {0, 3, 1, 0, 0, 0}, 172800},
    {{0, 12, 31, 23, 59, 59}, {1, 1, 1, 0, 0, 0}, 1},
    {{0, 1, 1, 0, 0, 0}, {1, 1, 1, 0, 0, 0}, 31622400},
    {{1, 1, 1, 0, 0, 0}, {2, 1, 1, 0, 0, 0}, 31536000},
    {{1582, 10, 4, 0, 0, 0}, {1582, 10, 15, 0, 0, 0}, 950400},
    {{1970, 1, 1, 0, 0, 0}, {2038, 1, 19, 3, 14, 8}, 2147483648},
    {{1970, 1, 1, 0, 0, 0}, {2106, 2, 7, 6, 28, 16}, 4294967296},
    {{1901, 12, 13, 20, 45, 52}, {1970, 1, 1, 0, 0, 0}, 2147483648},
    /* each field decides where those before it are the same, whatever stands behind it */
    {{1999, 12, 31, 23, 59, 59}, {2000, 1, 1, 0, 0, 0}, 1},
    {{2000, 1, 31, 23, 59, 59}, {2000, 2, 1, 0, 0, 0}, 1},
    {{2000, 1, 1, 23, 59, 59}, {2000, 1, 2, 0, 0, 0}, 1},
    {{2000, 1, 1, 0, 59, 59}, {2000, 1, 1, 1, 0, 0}, 1},
    {{2000, 1, 1, 0, 0, 59}, {2000, 1, 1, 0, 1, 0}, 1},
    {{2000, 1, 1, 0, 0, 0}, {2000, 1, 1, 0, 0, 1}, 1},
    {{255, 12, 31, 23, 59, 59}, {256, 1, 1, 0, 0, 0}, 1},
};

static void stored_pairs(void)
{
    uint8_t x[NODE], y[NODE];
    for (size_t i = 0; i < sizeof pairs / sizeof *pairs; i++) {
        const unsigned *f = pairs[i].from, *t = pairs[i].to;
        int64_t s = pairs[i].seconds;
        struct input a = node(x, GENERALIZED, f[0], f[1], f[2], f[3], f[4], f[5]), b = node(y, GENERALIZED, t[0], t[1], t[2], t[3], t[4], t[5]);
        expect(a, b, s ? -1 : 0, s);
        expect(b, a, s ? 1 : 0, -s);
        expect_by_rule(a, b);
    }
}

/* Every day follows the one before it by 86,400 seconds, from the first of the year to the first of the next. */
static void every_day(unsigned year)
{
    uint8_t x[NODE], y[NODE];
    struct input a = node(x, GENERALIZED, year, 1, 1, 0, 0, 0);
    unsigned days = 0;
    for (unsigned month = 1; month <= 12; month++)
        for (unsigned day = 1; day <= 31; day++) {
            struct input b = node(y, GENERALIZED, year, month, day, 0, 0, 0);
            if (judged(b, GENERALIZED) != 0) {
                expect_refused(a, b, 11);
                continue;
            }
            if (days++) {
                expect(a, b, -1, 86400);
                expect(b, a, 1, -86400);
            }
            a = node(x, GENERALIZED, year, month, day, 0, 0, 0);
        }
    if (year < 9999)
        expect(a, node(y, GENERALIZED, year + 1, 1, 1, 0, 0, 0), -1, 86400);
}

/* Each refused input with a time before it and behind it, and any two of them: the first is judged wholly before the second. */
static void stored_refusals(void)
{
    uint8_t x[NODE];
    struct input time = node(x, GENERALIZED, 2000, 1, 1, 0, 0, 0);
    for (size_t i = 0; i < REFUSED; i++) {
        struct input a = {refused[i].octets, refused[i].n};
        expect_refused(a, time, refused[i].number);
        expect_refused(time, a, refused[i].number);
        for (size_t j = 0; j < REFUSED; j++)
            expect_refused(a, (struct input){refused[j].octets, refused[j].n}, refused[i].number);
    }
}

static void no_memory(void)
{
    uint8_t x[NODE];
    struct input time = node(x, GENERALIZED, 2000, 1, 1, 0, 0, 0), none = {NULL, 0};
    int64_t no = INT64_C(11) << 40;
    if (yinscarf_order(NULL, 0, NULL, 0) != no || yinscarf_order(x, NODE, NULL, 0) != no || yinscarf_order(NULL, 0, x, NODE) != no ||
        yinscarf_seconds(NULL, 0, NULL, 0) != no || yinscarf_seconds(x, NODE, NULL, 0) != no || yinscarf_seconds(NULL, 0, x, NODE) != no)
        fail("null pointers", none, time, 0, no);
    if (yinscarf_order(x, NODE, x, NODE) != 0 || yinscarf_seconds(x, NODE, x, NODE) != 0)
        fail("the same octets twice", time, time, 1, 0);
}

/* A node of each kind of every short length and of the longest, with zeros in it, and one whose own length is right. */
static void every_length(void)
{
    static uint8_t big[LONGEST + OVER];
    uint8_t x[NODE];
    struct input time = node(x, GENERALIZED, 2000, 1, 1, 0, 0, 0);
    for (unsigned kind = 0; kind <= 51; kind++)
        for (size_t n = 0; n <= LONGEST + OVER; n = n == SHORT ? LONGEST - OVER : n + 1)
            for (int own = 0; own < 2; own++) {
                size_t inside = n < 5 ? 0 : n - 5;
                memset(big, 0, n);
                memcpy(big, "\x56\x41", n < 2 ? n : 2);
                if (n > 2)
                    big[2] = (uint8_t)kind;
                if (own && n > 4) {
                    unsigned count = (unsigned)(kind == 3 ? inside * 8 : kind == 16 || kind == 17 ? (n - 4) << 8 : inside);
                    big[3] = (uint8_t)(count >> 8);
                    big[4] = (uint8_t)count;
                }
                expect_by_rule((struct input){big, n}, time);
                expect_by_rule(time, (struct input){big, n});
            }
    for (unsigned members = 0; members < 256; members++) {
        memset(big, 0, 4 + members);
        memcpy(big, (uint8_t[]){0x56, 0x41, 16, (uint8_t)members}, 4);
        expect_refused((struct input){big, 4 + members}, time, 12);
        expect_refused(time, (struct input){big, 4 + members}, 12);
        if (members) {
            big[3 + members] = 1;
            expect_refused(time, (struct input){big, 4 + members}, 11);
        }
    }
}

static struct input any(uint8_t *to)
{
    size_t n = NODE;
    if (next() % 8) {
        unsigned day = (unsigned)(next() % (10000 * 12 * 31)), clock = (unsigned)(next() % 86400);
        node(to, GENERALIZED, day / (12 * 31), day / 31 % 12 + 1, day % 31 + 1, clock / 3600, clock / 60 % 60, clock % 60);
    } else {
        size_t i = next() % REFUSED;
        n = refused[i].n;
        memcpy(to, refused[i].octets, n);
    }
    return (struct input){to, next() & 1 ? n : damage(to, n)};
}

static void damaged(void)
{
    uint8_t x[64], y[64];
    unsigned long done = 0;
    for (unsigned i = 0; i < DAMAGED; i++) {
        struct input a = any(x), b = any(y);
        expect_by_rule(a, b);
        done += judged(a, GENERALIZED) == 0 && judged(b, GENERALIZED) == 0;
    }
    printf("%u random and damaged pairs, %lu of them of two times\n", DAMAGED, done);
}

/* ---- pairs from standard input ---- */

static int answer_pairs(void)
{
    static uint8_t x[65536], y[65536];
    for (size_t a; (a = taken(x)) != SIZE_MAX;) {
        size_t b = taken(y);
        if (b == SIZE_MAX)
            return 2;
        printf("%" PRId64 " %" PRId64 "\n", yinscarf_order(x, a, y, b), yinscarf_seconds(x, a, y, b));
    }
    return 0;
}

int main(int argc, char **argv)
{
    static const unsigned years[] = {0, 1, 4, 100, 400, 1582, 1900, 1970, 1999, 2000, 2001, 2100, 9999};
    if (argc == 2 && strcmp(argv[1], "--pairs") == 0)
        return answer_pairs();
    if (argc != 1)
        return 2;
    setvbuf(stdout, NULL, _IOLBF, 0);
    alarm(60);
    firsts = fence(LONGEST + OVER);
    seconds = fence(LONGEST + OVER);
    stored_pairs();
    for (size_t i = 0; i < sizeof years / sizeof *years; i++)
        every_day(years[i]);
    stored_refusals();
    no_memory();
    every_length();
    damaged();
    printf("%lu calls of order and seconds\n", calls);
    return 0;
}
