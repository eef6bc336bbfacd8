/* A plain decoder and encoder of the batch, as one would write them by hand: the floor. Strings stay in the message. */
#include <string.h>

#include "peers.h"

enum { MOST = 256 };

struct part {
    const uint8_t *at;
    size_t n;
};

struct call {
    int64_t number, seconds;
    struct part caller, lines;
    int answered, state, unused, has_lines;
};

struct batch {
    int64_t version, serial, line;
    struct part origin, lines, route, note;
    int urgent, state, unused, has_note;
    size_t count;
    struct call calls[MOST];
};

/* What is left of the octets being read; once something is wrong, bad stays set. */
struct in {
    const uint8_t *p, *e;
    int bad;
};

static int next_is(const struct in *s, uint8_t tag)
{
    return s->p < s->e && *s->p == tag;
}

/* The length behind an identifier octet, which must be this; -1 if it is indefinite. */
static long header(struct in *s, uint8_t tag)
{
    if (s->e - s->p < 2 || *s->p != tag) {
        s->bad = 1;
        s->p = s->e;
        return 0;
    }
    uint8_t first = s->p[1];
    s->p += 2;
    size_t n = first;
    if (first == 0x80)
        return -1;
    if (first > 0x80) {
        n = 0;
        for (unsigned k = first & 0x7F; k; k--) {
            if (s->p == s->e || n > 0xFFFFFF) {
                s->bad = 1;
                return 0;
            }
            n = n << 8 | *s->p++;
        }
    }
    if (n > (size_t)(s->e - s->p)) {
        s->bad = 1;
        return 0;
    }
    return (long)n;
}

static struct part primitive(struct in *s, uint8_t tag)
{
    struct part c = {s->p, 0};
    long n = header(s, tag);
    if (n < 0)
        s->bad = 1;
    if (s->bad)
        return c;
    c.at = s->p;
    c.n = (size_t)n;
    s->p += n;
    return c;
}

static int64_t integer(struct in *s, uint8_t tag)
{
    struct part c = primitive(s, tag);
    if (c.n < 1 || c.n > 8 || (c.n > 1 && ((c.at[0] == 0 && c.at[1] < 128) || (c.at[0] == 255 && c.at[1] > 127)))) {
        s->bad = 1;
        return 0;
    }
    uint64_t u = c.at[0] & 0x80 ? UINT64_MAX : 0;
    for (size_t i = 0; i < c.n; i++)
        u = u << 8 | c.at[i];
    return (int64_t)u;
}

static int boolean(struct in *s)
{
    struct part c = primitive(s, 0x01);
    if (c.n != 1)
        s->bad = 1;
    return !s->bad && c.at[0] != 0;
}

static int state(struct in *s)
{
    int64_t n = integer(s, 0x0A);
    if (n != 0 && n != 1 && n != 2 && n != 5)
        s->bad = 1;
    return (int)n;
}

static struct part bits(struct in *s, int *unused)
{
    struct part c = primitive(s, 0x03);
    if (c.n < 1 || c.at[0] > 7 || (c.n == 1 && c.at[0] != 0)) {
        s->bad = 1;
        return c;
    }
    *unused = c.at[0];
    c.at++;
    c.n--;
    return c;
}

/* What a constructed item holds, for reading; leave goes on behind it. */
static struct in enter(struct in *s, uint8_t tag, int *open)
{
    long n = header(s, tag);
    struct in inner = {s->p, n < 0 ? s->e : s->p + n, s->bad};
    *open = n < 0;
    return inner;
}

static int at_end(const struct in *inner, int open)
{
    return inner->bad || (open ? inner->e - inner->p >= 2 && inner->p[0] == 0 && inner->p[1] == 0 : inner->p == inner->e);
}

static void leave(struct in *s, struct in *inner, int open)
{
    if (inner->bad || !at_end(inner, open))
        s->bad = 1;
    else
        s->p = inner->p + 2 * open;
}

static void one_call(struct in *s, struct call *c)
{
    int open;
    struct in b = enter(s, 0x30, &open);
    c->number = integer(&b, 0x02);
    c->caller = primitive(&b, 0x04);
    c->seconds = integer(&b, 0x42);
    c->answered = boolean(&b);
    c->state = state(&b);
    c->has_lines = next_is(&b, 0x03);
    if (c->has_lines)
        c->lines = bits(&b, &c->unused);
    leave(s, &b, open);
}

static void *read_batch(const uint8_t *message, size_t n)
{
    static struct batch v;
    int open, inner_open;
    struct in s = {message, message + n, 0};
    struct in b = enter(&s, 0x30, &open);
    v.version = integer(&b, 0x02);
    v.serial = integer(&b, 0x41);
    v.urgent = boolean(&b);
    v.origin = primitive(&b, 0x04);
    v.state = state(&b);
    v.lines = bits(&b, &v.unused);
    struct in t = enter(&b, 0xA0, &inner_open);
    v.line = integer(&t, 0x02);
    v.route = primitive(&t, 0x04);
    leave(&b, &t, inner_open);
    v.has_note = next_is(&b, 0x81);
    if (v.has_note)
        v.note = primitive(&b, 0x81);
    if (primitive(&b, 0x05).n != 0)
        b.bad = 1;
    struct in l = enter(&b, 0x30, &inner_open);
    for (v.count = 0; !at_end(&l, inner_open) && v.count < MOST; v.count++)
        one_call(&l, &v.calls[v.count]);
    leave(&b, &l, inner_open);
    leave(&s, &b, open);
    return s.bad || s.p != s.e ? NULL : &v;
}

static size_t integer_size(int64_t z)
{
    size_t n = 1;
    while (n < 8 && (z < -((int64_t)1 << (8 * n - 1)) || z >= (int64_t)1 << (8 * n - 1)))
        n++;
    return n;
}

static size_t length_size(size_t n)
{
    return n < 128 ? 1 : n < 256 ? 2 : 3;
}

/* The length of an item with n octets of contents. */
static size_t whole(size_t n)
{
    return 1 + length_size(n) + n;
}

static uint8_t *put_header(uint8_t *p, uint8_t tag, size_t n)
{
    *p++ = tag;
    if (n >= 256) {
        *p++ = 0x82;
        *p++ = (uint8_t)(n >> 8);
    } else if (n >= 128) {
        *p++ = 0x81;
    }
    *p++ = (uint8_t)n;
    return p;
}

static uint8_t *put_integer(uint8_t *p, uint8_t tag, int64_t z)
{
    size_t n = integer_size(z);
    p = put_header(p, tag, n);
    for (size_t i = n; i; i--)
        *p++ = (uint8_t)((uint64_t)z >> (8 * (i - 1)));
    return p;
}

static uint8_t *put_octets(uint8_t *p, uint8_t tag, struct part c)
{
    p = put_header(p, tag, c.n);
    memcpy(p, c.at, c.n);
    return p + c.n;
}

static uint8_t *put_bits(uint8_t *p, struct part c, int unused)
{
    p = put_header(p, 0x03, c.n + 1);
    *p++ = (uint8_t)unused;
    memcpy(p, c.at, c.n);
    if (c.n)
        p[c.n - 1] &= (uint8_t)(0xFF << unused);
    return p + c.n;
}

static uint8_t *put_boolean(uint8_t *p, int x)
{
    *p++ = 0x01;
    *p++ = 1;
    *p++ = x ? 0xFF : 0;
    return p;
}

static size_t call_size(const struct call *c)
{
    return whole(integer_size(c->number)) + whole(c->caller.n) + whole(integer_size(c->seconds)) + 3 + 3 +
           (c->has_lines ? whole(c->lines.n + 1) : 0);
}

static size_t write_batch(const void *value, uint8_t *buf, size_t room)
{
    const struct batch *v = value;
    size_t calls = 0;
    for (size_t i = 0; i < v->count; i++)
        calls += whole(call_size(&v->calls[i]));
    size_t trunk = whole(integer_size(v->line)) + whole(v->route.n);
    size_t n = whole(integer_size(v->version)) + whole(integer_size(v->serial)) + 3 + whole(v->origin.n) + 3 + whole(v->lines.n + 1) +
               whole(trunk) + (v->has_note ? whole(v->note.n) : 0) + 2 + whole(calls);
    if (n > 0xFFFF || whole(n) > room)
        return 0;
    uint8_t *p = put_header(buf, 0x30, n);
    p = put_integer(p, 0x02, v->version);
    p = put_integer(p, 0x41, v->serial);
    p = put_boolean(p, v->urgent);
    p = put_octets(p, 0x04, v->origin);
    p = put_integer(p, 0x0A, v->state);
    p = put_bits(p, v->lines, v->unused);
    p = put_header(p, 0xA0, trunk);
    p = put_integer(p, 0x02, v->line);
    p = put_octets(p, 0x04, v->route);
    if (v->has_note)
        p = put_octets(p, 0x81, v->note);
    p = put_header(p, 0x05, 0);
    p = put_header(p, 0x30, calls);
    for (size_t i = 0; i < v->count; i++) {
        const struct call *c = &v->calls[i];
        p = put_header(p, 0x30, call_size(c));
        p = put_integer(p, 0x02, c->number);
        p = put_octets(p, 0x04, c->caller);
        p = put_integer(p, 0x42, c->seconds);
        p = put_boolean(p, c->answered);
        p = put_integer(p, 0x0A, c->state);
        if (c->has_lines)
            p = put_bits(p, c->lines, c->unused);
    }
    return (size_t)(p - buf);
}

static void drop(void *value)
{
    (void)value;
}

const struct peer floor_peer = {"plain C, this type only", read_batch, write_batch, drop};
