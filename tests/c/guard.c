/* Calls the engine with each input between pages that may not be touched, so that a read or a write outside what was lent stops the
 * test. Inputs are read-only during a call. Runs the stored cases (crates/cases/stdin and stdout) with their answers, every
 * buffer length from 0 to a little over what is needed, messages one after another, null pointers with length 0, and random and damaged
 * cases.
 *   guard STDIN STDOUT [RANDOM CASES] [SEED] */
#define _GNU_SOURCE
#include <string.h>
#include <time.h>

#include "fence.h"
#include "yinscarf.h"

enum { CHECK, WRITE, READ };
enum { ROOM = 16384, LONGEST = 16385, MESSAGE = 8192, OVER = 9, SHORT = 100, CASES = 20000, SECONDS = 300, LAST = YINSCARF_MESSAGE_LENGTH_FIELD };

struct one {
    unsigned op, type;
    const uint8_t *table, *data;
    size_t table_len, data_len;
    uint64_t answer;      /* packed; for a done answer the number is 0 and the result follows */
    uint8_t *result;
};

static struct fenced tables, datas, bufs;
/* What a buffer holds before a call, from another octet on each time. */
static uint8_t pattern[ROOM + OVER + 251];
static struct one *cases;
static size_t count;
static unsigned long calls, checks_done, sizes_done, lines_done;
static double slowest;

static void fail(const char *what, const struct one *c)
{
    printf("FAILED: %s: operation %u type %u table", what, c->op, c->type);
    for (size_t i = 0; i < c->table_len && i < 400; i++)
        printf(" %02x", c->table[i]);
    printf(" data");
    for (size_t i = 0; i < c->data_len && i < 400; i++)
        printf(" %02x", c->data[i]);
    printf("\n");
    exit(1);
}

static double now(void)
{
    struct timespec t;
    clock_gettime(CLOCK_MONOTONIC, &t);
    return (double)t.tv_sec + (double)t.tv_nsec * 1e-9;
}

/* One call with a buffer of so many octets, each input at one end of its fenced memory; the result, if any, is left in out.
 * What must hold of every answer is tested. */
static uint64_t call_at(const struct one *c, size_t room, int at_end, uint8_t *out)
{
    const uint8_t *before = pattern + calls++ % 251;
    uint8_t *table = place(tables, c->table_len, at_end);
    uint8_t *data = place(datas, c->data_len, at_end);
    uint8_t *buf = place(bufs, room, at_end);
    if (c->table_len)
        memcpy(table, c->table, c->table_len);
    if (c->data_len)
        memcpy(data, c->data, c->data_len);
    memcpy(buf, before, room);
    protect(tables, PROT_READ);
    protect(datas, PROT_READ);
    double t = now();
    uint64_t a = c->op == CHECK ? yinscarf_check(table, c->table_len)
                                : (c->op == WRITE ? yinscarf_write : yinscarf_read)(table, c->table_len, c->type, data, c->data_len, buf, room);
    t = now() - t;
    protect(tables, PROT_READ | PROT_WRITE);
    protect(datas, PROT_READ | PROT_WRITE);
    if (t > slowest)
        slowest = t;
    unsigned number = YINSCARF_NUMBER(a), rest = YINSCARF_REST(a);
    if (a >> 16 > LAST || (number > 7 && number < 11) || (number > 14 && number < 21))
        fail("no such number", c);
    if ((c->op == CHECK && number > 6) || (c->op == WRITE && number > 14) || (c->op == READ && number > 7 && number < 21))
        fail("a number of another stage", c);
    if ((number == 7 || number == 14 || number == 21 || number == 27) && rest != 0)
        fail("a place where there is none", c);
    if (number >= 1 && number <= 6 && rest > 128)
        fail("a place beyond the records", c);
    if (number >= 11 && rest > c->data_len)
        fail("a place beyond the data", c);
    if (number == 0 && rest > (c->op == CHECK ? 0 : room))
        fail("longer than the buffer", c);
    size_t from = number == 0 ? rest : 0;
    if (memcmp(buf + from, before + from, room - from) != 0)
        fail(number == 0 ? "octets beyond the result changed" : "buffer changed by a refusal", c);
    if (number == 0 && rest)
        memcpy(out, buf, rest);
    return a;
}

/* A call with the pages that may not be touched right before each input, and one with them right behind it. */
static uint64_t call(const struct one *c, size_t room, uint8_t *out)
{
    static uint8_t other[ROOM];
    uint64_t a = call_at(c, room, 0, out);
    if (call_at(c, room, 1, other) != a || (YINSCARF_NUMBER(a) == YINSCARF_DONE && memcmp(out, other, YINSCARF_REST(a)) != 0))
        fail("another answer with the octets elsewhere", c);
    return a;
}

/* Every buffer length from 0 to a little over a done result of n octets. */
static void every_length(const struct one *c, size_t n, const uint8_t *result)
{
    static uint8_t got[ROOM];
    uint64_t too_short = (uint64_t)(c->op == WRITE ? YINSCARF_VALUE_ROOM : YINSCARF_MESSAGE_ROOM) * 65536;
    for (size_t room = 0; room <= n + OVER; room++) {
        uint64_t a = call(c, room, got);
        sizes_done++;
        if (room < n ? a != too_short : a != n || memcmp(got, result, n) != 0)
            fail("another answer with another buffer length", c);
    }
}

static uint8_t *load(const char *path, size_t *n)
{
    FILE *f = fopen(path, "rb");
    if (!f) {
        perror(path);
        exit(1);
    }
    fseek(f, 0, SEEK_END);
    *n = (size_t)ftell(f);
    rewind(f);
    uint8_t *b = malloc(*n + 1);
    if (!b || fread(b, 1, *n, f) != *n)
        exit(1);
    b[*n] = 0;
    fclose(f);
    return b;
}

static unsigned digit(int c)
{
    return (unsigned)(c <= '9' ? c - '0' : c - 'a' + 10);
}

/* The stored cases with their answers, but for the last, which is cut. */
static void load_cases(const char *in, const char *out)
{
    size_t n, k;
    uint8_t *p = load(in, &n), *e = p + n, *output = load(out, &k);
    char *line = (char *)output;
    cases = calloc(CASES, sizeof *cases);
    while (cases && p + 6 <= e && count < CASES) {
        struct one *c = &cases[count];
        c->op = p[2];
        c->type = p[3];
        c->table_len = (size_t)p[4] << 8 | p[5];
        c->table = p + 6;
        p += 6 + c->table_len;
        c->data_len = (size_t)p[0] << 8 | p[1];
        c->data = p + 2;
        p += 2 + c->data_len;
        char *end = strchr(line, '\n');
        char *word = strchr(line, ' ');
        if (p > e || !end || !word || word[1] == 'c')
            break;
        *end = 0;
        if (word[1] == 'n') {
            char *rest;
            unsigned long number = strtoul(word + 3, &rest, 10);
            c->answer = (uint64_t)number * 65536 + strtoul(rest, NULL, 10);
        } else if (word[3] == ' ') {
            size_t len = strlen(word + 4) / 2;
            c->result = malloc(len + 1);
            for (size_t i = 0; i < len; i++)
                c->result[i] = (uint8_t)(digit(word[4 + 2 * i]) << 4 | digit(word[5 + 2 * i]));
            c->answer = len;
        }
        count++;
        line = end + 1;
    }
    char *word = strchr(line, ' ');
    if (!word || strncmp(word, " cut\n", 6) != 0) {
        printf("FAILED: the stored cases are not whole, from case %zu on\n", count + 1);
        exit(1);
    }
    free(output);
}

static void stored(void)
{
    static uint8_t got[ROOM];
    for (size_t i = 0; i < count; i++) {
        struct one *c = &cases[i];
        if (call(c, ROOM, got) != c->answer)
            fail("not the stored answer", c);
        if (c->result && memcmp(got, c->result, (size_t)c->answer) != 0)
            fail("not the stored result", c);
        if (c->result)
            every_length(c, (size_t)c->answer, c->result);
        checks_done++;
    }
}

/* The next stored message of the same table and type that is read; else the same one. */
static const struct one *follower(const struct one *c)
{
    for (const struct one *d = c + 1; d < cases + count; d++)
        if (d->op == READ && d->result && d->type == c->type && d->table_len == c->table_len && memcmp(d->table, c->table, c->table_len) == 0)
            return d;
    return c;
}

/* Messages one after another: each stored one that is read, and another of its type behind it. Of what this line begins with, less than the message
 * is 22, the message is done, and more is 26 where it ends. */
static void lines(void)
{
    static uint8_t line[2 * LONGEST], got[ROOM];
    for (const struct one *c = cases; c < cases + count; c++) {
        if (c->op != READ || !c->result)
            continue;
        const struct one *d = follower(c);
        struct one some = *c;
        size_t n = c->data_len + d->data_len, step = c->data_len <= SHORT ? 1 : c->data_len / 8;
        memcpy(line, c->data, c->data_len);
        memcpy(line + c->data_len, d->data, d->data_len);
        some.data = line;
        for (size_t k = c->data_len % step; k <= n && k <= MESSAGE; k += step) {
            some.data_len = k;
            uint64_t a = call(&some, (size_t)c->answer, got);
            if (k < c->data_len ? a >> 16 != YINSCARF_MESSAGE_CUT : a != (k > c->data_len ? (uint64_t)YINSCARF_MESSAGE_TRAILING << 16 | c->data_len : c->answer))
                fail("a line cut elsewhere", &some);
            lines_done++;
        }
    }
}

/* Document 01's two cases with a small buffer, and null pointers with length 0. */
static void edges(void)
{
    static const uint8_t b[] = {0x54, 0x59, 0x01, 0x01, 0x00, 0x00, 0x01}, v[] = {0x56, 0x41, 0x01, 0x01}, m[] = {0x01, 0x01, 0xFF};
    uint8_t buf[8] = {1, 2, 3, 4, 5, 6, 7, 8}, same[8] = {1, 2, 3, 4, 5, 6, 7, 8};
    struct one c = {WRITE, 0, b, v, sizeof b, sizeof v, 0, NULL};
    if (yinscarf_write(b, sizeof b, 0, v, sizeof v, buf, 2) != 14 * 65536 || yinscarf_read(b, sizeof b, 0, m, sizeof m, buf, 3) != 27 * 65536 ||
        memcmp(buf, same, 8) != 0)
        fail("small buffers", &c);
    if (yinscarf_check(NULL, 0) != 1 * 65536 || yinscarf_write(NULL, 0, 0, v, sizeof v, buf, 8) != 1 * 65536 ||
        yinscarf_read(NULL, 0, 0, m, sizeof m, buf, 8) != 1 * 65536)
        fail("a null table", &c);
    if (yinscarf_write(b, sizeof b, 0, NULL, 0, buf, 8) != 11 * 65536 || yinscarf_read(b, sizeof b, 0, NULL, 0, buf, 8) != 22 * 65536)
        fail("null data", &c);
    if (yinscarf_write(b, sizeof b, 0, v, sizeof v, NULL, 0) != 14 * 65536 || yinscarf_read(b, sizeof b, 0, m, sizeof m, NULL, 0) != 27 * 65536)
        fail("a null buffer", &c);
    if (yinscarf_write(NULL, 0, 0, NULL, 0, NULL, 0) != 1 * 65536 || yinscarf_read(NULL, 0, 0, NULL, 0, NULL, 0) != 1 * 65536)
        fail("nothing but null pointers", &c);
    if (yinscarf_read(b, sizeof b, 0x100, m, sizeof m, buf, 8) != 7 * 65536 ||
        yinscarf_write(b, sizeof b, 0xFFFFFFFF, v, sizeof v, buf, 8) != 7 * 65536)
        fail("a large type", &c);
    if (memcmp(buf, same, 8) != 0)
        fail("buffer changed by a refusal", &c);
}

/* Octets with small faults: some changed, some cut, some more. */
static size_t damaged(const uint8_t *from, size_t n, uint8_t *to, size_t most)
{
    static const uint8_t likely[] = {0x00, 0x01, 0x02, 0x30, 0x31, 0x7F, 0x80, 0x81, 0x9F, 0xA0, 0xFF, 0x54, 0x56,
                                     0x17, 0x18, 0x37, 0x39, 0x3A, 0x5A};
    memmove(to, from, n);
    for (unsigned k = (unsigned)(next() % 3) + 1; k; k--) {
        size_t at = n ? next() % n : 0;
        uint8_t x = next() & 1 ? likely[next() % sizeof likely] : (uint8_t)next();
        switch (next() % 4) {
        case 0:
            n = at;
            break;
        case 1:
            if (n < most) {
                memmove(to + at + 1, to + at, n - at);
                to[at] = x;
                n++;
            }
            break;
        case 2:
            if (n) {
                memmove(to + at, to + at + 1, n - at - 1);
                n--;
            }
            break;
        default:
            if (n)
                to[at] = x;
        }
    }
    return n;
}

/* Random and damaged cases. What is read is written and read again to the same value; what is written is read to the same
 * value. No form of a value is shorter than the written one, so that neither way back can be refused. */
static void random_ones(unsigned long n)
{
    static uint8_t table[LONGEST + 8], data[LONGEST + 8], result[ROOM], second[ROOM], third[ROOM];
    unsigned long numbers[LAST + 1] = {0};
    for (unsigned long i = 0; i < n; i++) {
        const struct one *from = &cases[next() % count];
        struct one c = *from;
        unsigned way = (unsigned)(next() % 16);
        if (way == 0) {
            c.table_len = next() % 40;
            for (size_t k = 0; k < c.table_len; k++)
                table[k] = (uint8_t)next();
            c.table = table;
        } else if (way < 4) {
            c.table_len = damaged(c.table, c.table_len, table, LONGEST);
            c.table = table;
        }
        if (way == 4) {
            c.data_len = next() % 60;
            for (size_t k = 0; k < c.data_len; k++)
                data[k] = (uint8_t)next();
            c.data = data;
        } else if (way > 2) {
            c.data_len = damaged(c.data, c.data_len, data, LONGEST);
            c.data = data;
        }
        if (next() % 50 == 0)
            c.type = (unsigned)next();
        if (next() % 20 == 0)
            c.op = (unsigned)(next() % 3);
        size_t room = next() % 8 ? ROOM : next() % 64;
        uint64_t a = call(&c, room, result);
        numbers[a >> 16]++;
        if (a >> 16 || c.op == CHECK)
            continue;
        struct one back = c, again = c;
        back.op = c.op == WRITE ? READ : WRITE;
        back.data = result;
        back.data_len = (size_t)a;
        uint64_t b = call(&back, ROOM, second);
        if (b >> 16)
            fail("what was done is refused on the way back", &back);
        again.data = second;
        again.data_len = (size_t)b;
        uint64_t d = call(&again, ROOM, third);
        if (d != a || memcmp(third, result, (size_t)a) != 0)
            fail("another result on the second way", &again);
        if (c.op == WRITE && (b != c.data_len || memcmp(second, c.data, (size_t)b) != 0))
            fail("another value read than written", &c);
    }
    printf("answers by number:");
    for (unsigned k = 0; k <= LAST; k++)
        if (numbers[k])
            printf(" %u:%lu", k, numbers[k]);
    printf("\n");
}

int main(int argc, char **argv)
{
    if (argc < 3)
        return 2;
    unsigned long n = argc > 3 ? strtoul(argv[3], NULL, 10) : 200000;
    if (argc > 4)
        seed = strtoull(argv[4], NULL, 10) | 1;
    setvbuf(stdout, NULL, _IOLBF, 0);
    alarm(SECONDS);
    for (size_t i = 0; i < sizeof pattern; i++)
        pattern[i] = (uint8_t)(i * 7 + i / 256 + 1);
    tables = fence(LONGEST);
    datas = fence(LONGEST);
    bufs = fence(ROOM + OVER);
    load_cases(argv[1], argv[2]);
    if (count < 2)
        return 2;
    edges();
    stored();
    lines();
    random_ones(n);
    printf("%lu stored cases, %lu buffer lengths, %lu beginnings of lines, %lu random and damaged cases, %lu calls; the slowest took %.3f ms\n",
           checks_done, sizes_done, lines_done, n, calls, slowest * 1e3);
    return 0;
}
