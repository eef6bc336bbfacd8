/* Takes UTCTimes for GeneralizedTimes and back, the input between pages that may not be touched and read-only during a call, the buffer between
 * such pages too. Each answer, and all of the buffer, is compared with the rules of docs/FORMATS.md as they stand here.
 *   centuries            every year both ways under each version, any two faults at once, buffers of every short length, versions that there are
 *                        not, null pointers, damaged inputs
 *   centuries --calls    answers calls on standard input, of each one octet 0 (to a GeneralizedTime) or 1 (to a UTCTime), the version in eight
 *                        octets, the length of the buffer in two, and of the input a two-octet length and its octets: the packed answer and the
 *                        buffer, which was full of AA, in a line */
#define _GNU_SOURCE
#include <inttypes.h>

#include "nodes.h"
#include "yinscarf.h"

enum { TO_GENERALIZED, TO_UTC, ROOM = 40, DAMAGED = 40000, FILL = 0xAA };

static struct fenced inputs, small, large;
static uint8_t filled[LONGEST];
static unsigned long calls, done;

/* ---- the rules of docs/FORMATS.md ---- */

/* The first year of a version's window, 0 if there is no such version. */
static unsigned first_year(uint64_t version)
{
    return version == 1 ? 1970 : version == 2 ? 1950 : 0;
}

/* 0 and the node that is to be written, or the number of the refusal. */
static unsigned ruled(int way, uint64_t version, struct input x, size_t room, uint8_t *to)
{
    unsigned first = first_year(version), kind = way == TO_UTC ? GENERALIZED : UTC;
    if (first == 0)
        return 7;
    unsigned number = judged(x, kind);
    if (number)
        return number;
    unsigned year = two(x.octets + 3);
    if (way == TO_UTC && (year < first || year > first + 99))
        return 12;
    if (room < NODE)
        return 27;
    unsigned other = way == TO_UTC ? (year >= 2000 ? year - 2000 : year - 1900) : (year >= first - 1900 ? year + 1900 : year + 2000);
    memcpy(to, x.octets, NODE);
    to[2] = way == TO_UTC ? UTC : GENERALIZED;
    to[3] = (uint8_t)(other >> 8);
    to[4] = (uint8_t)other;
    return 0;
}

/* ---- calls ---- */

static uint64_t call(int way, uint64_t version, const uint8_t *x, size_t n, uint8_t *buf, size_t room)
{
    return way == TO_UTC ? yinscarf_to_utc(version, x, n, buf, room) : yinscarf_to_generalized(version, x, n, buf, room);
}

static void fail(const char *what, int way, uint64_t version, struct input x, size_t room, uint64_t got)
{
    printf("FAILED: %s: %s by version %" PRIu64 " into %zu octets answers %u at %u:", what, way == TO_UTC ? "to_utc" : "to_generalized", version, room,
           YINSCARF_NUMBER(got), YINSCARF_REST(got));
    for (size_t i = 0; i < x.n && i < 60; i++)
        printf(" %02x", x.octets[i]);
    printf(" (%zu)\n", x.n);
    exit(1);
}

/* With the pages that may not be touched right before input and buffer, then right behind them; a refusal by this number, or done with this node. */
static void expect(int way, uint64_t version, struct input x, size_t room, unsigned number, const uint8_t *wanted)
{
    struct fenced buffer = room > ROOM ? large : small;
    for (int at_end = 0; at_end < 2; at_end++) {
        const uint8_t *p = lent(inputs, x, at_end);
        uint8_t *buf = place(buffer, room, at_end);
        memset(buffer.base, FILL, buffer.size);
        uint64_t r = call(way, version, p, x.n, buf, room);
        protect(inputs, PROT_READ | PROT_WRITE);
        calls++;
        if (r != (number ? (uint64_t)number << 16 : NODE))
            fail("the answer", way, version, x, room, r);
        if (!number) {
            done++;
            if (memcmp(buf, wanted, NODE) != 0)
                fail("the octets", way, version, x, room, r);
            memset(buf, FILL, NODE);
        }
        if (memcmp(buffer.base, filled, buffer.size) != 0)
            fail("an octet that had to stay", way, version, x, room, r);
    }
}

static void expect_by_rule(int way, uint64_t version, struct input x, size_t room)
{
    uint8_t wanted[NODE];
    unsigned number = ruled(way, version, x, room, wanted);
    expect(way, version, x, room, number, wanted);
}

/* ---- what is tried ---- */

/* A UTCTime and a GeneralizedTime that are the same under a version, each taken for the other. */
static void same(uint64_t version, unsigned year, unsigned in_century, unsigned month, unsigned day, unsigned hour, unsigned minute, unsigned second)
{
    uint8_t u[NODE], g[NODE];
    struct input utc = node(u, UTC, year, month, day, hour, minute, second);
    struct input generalized = node(g, GENERALIZED, in_century, month, day, hour, minute, second);
    expect(TO_GENERALIZED, version, utc, NODE, 0, g);
    expect(TO_UTC, version, generalized, NODE, 0, u);
}

/* All hundred years; a 29 February is refused in both kinds where there is none. */
static void every_year(uint64_t version, unsigned pivot)
{
    uint8_t x[NODE];
    for (unsigned year = 0; year < 100; year++) {
        unsigned in_century = year < pivot ? 2000 + year : 1900 + year;
        same(version, year, in_century, 1, 1, 0, 0, 0);
        same(version, year, in_century, 2, 28, 1, 2, 3);
        same(version, year, in_century, 12, 31, 23, 59, 59);
        if (year % 4 == 0) {
            same(version, year, in_century, 2, 29, 13, 14, 15);
        } else {
            expect(TO_GENERALIZED, version, node(x, UTC, year, 2, 29, 13, 14, 15), NODE, 11, NULL);
            expect(TO_UTC, version, node(x, GENERALIZED, in_century, 2, 29, 13, 14, 15), NODE, 11, NULL);
        }
    }
    /* and every other year of a GeneralizedTime */
    for (unsigned year = 0; year < 10000; year++)
        if (year < 1900 + pivot || year >= 2000 + pivot)
            expect(TO_UTC, version, node(x, GENERALIZED, year, 1, 1, 0, 0, 0), NODE, 12, NULL);
}

/* The borders of the windows, by hand. */
static void borders(void)
{
    static const struct {
        unsigned version, year, number;
    } years[] = {{1, 1949, 12}, {1, 1950, 12}, {1, 1969, 12}, {1, 1970, 0}, {1, 2049, 0}, {1, 2050, 0}, {1, 2069, 0}, {1, 2070, 12},
                 {2, 1949, 12}, {2, 1950, 0},  {2, 1969, 0},  {2, 1970, 0}, {2, 2049, 0}, {2, 2050, 12}, {2, 2069, 12}, {2, 2070, 12},
                 {1, 0, 12},    {1, 70, 12},   {2, 50, 12},   {1, 9999, 12}, {2, 9999, 12}, {1, 1870, 12}, {2, 2150, 12}};
    uint8_t x[NODE], wanted[NODE];
    for (size_t i = 0; i < sizeof years / sizeof *years; i++) {
        node(wanted, UTC, years[i].year % 100, 6, 15, 7, 8, 9);
        expect(TO_UTC, years[i].version, node(x, GENERALIZED, years[i].year, 6, 15, 7, 8, 9), NODE, years[i].number, wanted);
    }
}

/* Every version, node and buffer with every other, in each way, by the rules. */
static void faults(void)
{
    static const uint64_t versions[] = {1, 2, 0, 3};
    static const size_t rooms[] = {NODE, NODE - 1, 0, NODE + 1, ROOM};
    uint8_t u[NODE], g[NODE], old[NODE], no_day[NODE];
    struct input some[5 + REFUSED] = {node(u, UTC, 99, 12, 31, 23, 59, 59), node(g, GENERALIZED, 1999, 12, 31, 23, 59, 59),
                                      node(old, GENERALIZED, 1900, 12, 31, 23, 59, 59), node(no_day, GENERALIZED, 1900, 2, 29, 0, 0, 0), {NULL, 0}};
    for (size_t i = 0; i < REFUSED; i++)
        some[5 + i] = (struct input){refused[i].octets, refused[i].n};
    for (int way = 0; way < 2; way++)
        for (size_t i = 0; i < sizeof some / sizeof *some; i++)
            for (size_t j = 0; j < sizeof versions / sizeof *versions; j++)
                for (size_t k = 0; k < sizeof rooms / sizeof *rooms; k++)
                    expect_by_rule(way, versions[j], some[i], rooms[k]);
}

/* Each pair of faults by hand: the number of the first in the order 7, 11, 12, 27. */
static void two_faults(void)
{
    uint8_t u[NODE], g[NODE], late[NODE], no_u[NODE], no_g[NODE];
    struct input none = {NULL, 0}, utc = node(u, UTC, 99, 1, 1, 0, 0, 0), generalized = node(g, GENERALIZED, 2000, 1, 1, 0, 0, 0);
    struct input outside = node(late, GENERALIZED, 2050, 1, 1, 0, 0, 0);
    struct input no_utc = node(no_u, UTC, 99, 2, 29, 0, 0, 0), no_generalized = node(no_g, GENERALIZED, 1900, 2, 29, 0, 0, 0);
    /* the version, and one more */
    expect(TO_GENERALIZED, 3, none, NODE, 7, NULL);
    expect(TO_UTC, 0, no_generalized, NODE, 7, NULL);
    expect(TO_GENERALIZED, 0, generalized, NODE, 7, NULL);
    expect(TO_UTC, 3, outside, NODE, 7, NULL);
    expect(TO_GENERALIZED, 3, utc, NODE - 1, 7, NULL);
    expect(TO_UTC, 0, generalized, NODE - 1, 7, NULL);
    expect(TO_GENERALIZED, 3, none, 0, 7, NULL);
    /* the node, and its kind, its year or the buffer */
    expect(TO_GENERALIZED, 1, no_generalized, NODE, 11, NULL);
    expect(TO_UTC, 1, no_utc, NODE, 11, NULL);
    expect(TO_UTC, 1, no_generalized, NODE, 11, NULL);
    expect(TO_GENERALIZED, 1, no_utc, 0, 11, NULL);
    expect(TO_UTC, 2, no_generalized, NODE - 1, 11, NULL);
    expect(TO_GENERALIZED, 1, none, 0, 11, NULL);
    /* the kind or the year, and the buffer */
    expect(TO_GENERALIZED, 1, generalized, 0, 12, NULL);
    expect(TO_UTC, 2, utc, NODE - 1, 12, NULL);
    expect(TO_UTC, 2, outside, NODE - 1, 12, NULL);
    /* one alone */
    expect(TO_GENERALIZED, 1, generalized, NODE, 12, NULL);
    expect(TO_UTC, 2, utc, NODE, 12, NULL);
    expect(TO_UTC, 2, outside, NODE, 12, NULL);
    expect(TO_GENERALIZED, 1, utc, NODE - 1, 27, NULL);
    expect(TO_UTC, 2, generalized, NODE - 1, 27, NULL);
}

/* Versions near those in service, and those that look like them in fewer bits; every short buffer, and a long one. */
static void versions_and_rooms(void)
{
    static const uint64_t versions[] = {0, 3, 4, 255, 256, 257, 258, 65537, UINT64_C(1) << 32, (UINT64_C(1) << 32) + 1, UINT64_MAX - 1, UINT64_MAX};
    uint8_t u[NODE], g[NODE];
    struct input utc = node(u, UTC, 0, 2, 29, 1, 2, 3), generalized = node(g, GENERALIZED, 2000, 2, 29, 1, 2, 3);
    for (size_t i = 0; i < sizeof versions / sizeof *versions; i++) {
        expect(TO_GENERALIZED, versions[i], utc, NODE, 7, NULL);
        expect(TO_UTC, versions[i], generalized, NODE, 7, NULL);
    }
    for (size_t room = 0; room <= LONGEST; room = room == ROOM ? LONGEST : room + 1) {
        expect(TO_GENERALIZED, 1, utc, room, room < NODE ? 27 : 0, g);
        expect(TO_UTC, 2, generalized, room, room < NODE ? 27 : 0, u);
    }
    if (yinscarf_to_generalized(1, NULL, 0, NULL, 0) != 11 << 16 || yinscarf_to_utc(1, NULL, 0, NULL, 0) != 11 << 16 ||
        yinscarf_to_generalized(0, NULL, 0, NULL, 0) != 7 << 16 || yinscarf_to_utc(2, g, NODE, NULL, 0) != 27 << 16)
        fail("null pointers", TO_UTC, 2, generalized, 0, 0);
}

static struct input any(uint8_t *to)
{
    size_t n = NODE;
    if (next() % 8) {
        unsigned day = (unsigned)(next() % (200 * 12 * 31)), clock = (unsigned)(next() % 86400), year = day / (12 * 31);
        unsigned kind = next() & 1 ? UTC : GENERALIZED;
        node(to, kind, kind == UTC ? year % 100 : 1900 + year, day / 31 % 12 + 1, day % 31 + 1, clock / 3600, clock / 60 % 60, clock % 60);
    } else {
        size_t i = next() % REFUSED;
        n = refused[i].n;
        memcpy(to, refused[i].octets, n);
    }
    return (struct input){to, next() & 1 ? n : damage(to, n)};
}

static void damaged(void)
{
    uint8_t x[64];
    for (unsigned i = 0; i < DAMAGED; i++) {
        struct input some = any(x);
        expect_by_rule((int)(next() & 1), next() % 16 ? 1 + (next() & 1) : next() % 5, some, next() % 16 ? NODE + next() % 4 : next() % NODE);
    }
}

/* ---- calls from standard input ---- */

static int answer_calls(void)
{
    static uint8_t x[65536], buf[65536];
    for (int way; (way = getchar()) != EOF;) {
        uint64_t version = 0;
        for (int i = 0; i < 8; i++)
            version = version << 8 | (unsigned)getchar();
        size_t room = (size_t)getchar() << 8;
        room |= (size_t)getchar();
        size_t n = taken(x);
        if (n == SIZE_MAX)
            return 2;
        memset(buf, FILL, room);
        printf("%" PRIu64 " ", call(way, version, x, n, buf, room));
        for (size_t i = 0; i < room; i++)
            printf("%02x", buf[i]);
        printf("\n");
    }
    return 0;
}

int main(int argc, char **argv)
{
    if (argc == 2 && strcmp(argv[1], "--calls") == 0)
        return answer_calls();
    if (argc != 1)
        return 2;
    setvbuf(stdout, NULL, _IOLBF, 0);
    alarm(60);
    memset(filled, FILL, sizeof filled);
    inputs = fence(ROOM);
    small = fence(ROOM);
    large = fence(LONGEST);
    every_year(1, 70);
    every_year(2, 50);
    borders();
    faults();
    two_faults();
    versions_and_rooms();
    damaged();
    printf("%lu calls of to_generalized and to_utc, %lu of them done\n", calls, done);
    return 0;
}
