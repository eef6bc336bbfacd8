/* Reads messages with every first length octet from 80 to FF and as many octets behind it as it says: the length, or, of more than may be, that and
 * any octets in turn. Each message is cut behind every octet, between pages that may not be touched. Each answer, and all of the buffer, is compared
 * with the rule of docs/FORMATS.md on length fields as it stands here. */
#define _GNU_SOURCE
#include <inttypes.h>
#include <string.h>

#include "fence.h"
#include "yinscarf.h"

enum { FIELD = 4, LONGEST = 160, ROOM = 24, FILL = 0xEE };

struct octets {
    size_t n;
    uint8_t at[20];
};

/* Where a length stands: what stands before the item, its identifier, its contents, what stands behind it; and the value. */
static const struct position {
    const char *name;
    struct octets table, before, identifier, contents, behind, value;
} positions[] = {
    {"a primitive item", {7, {0x54, 0x59, 1, 1, 0, 0, 1}}, {0, {0}}, {1, {0x01}}, {1, {0xFF}}, {0, {0}}, {4, {0x56, 0x41, 1, 1}}},
    {"a constructed item", {15, {0x54, 0x59, 0x30, 1, 0, 0, 0x10, 1, 0x54, 0x59, 1, 1, 0, 0, 1}}, {0, {0}}, {1, {0x30}}, {3, {1, 1, 0xFF}}, {0, {0}},
     {9, {0x56, 0x41, 0x30, 0, 1, 0x56, 0x41, 1, 1}}},
    {"an explicit tag", {10, {0x54, 0x59, 1, 2, 2, 0, 0, 0, 0, 1}}, {0, {0}}, {1, {0xA0}}, {3, {1, 1, 0xFF}}, {0, {0}}, {4, {0x56, 0x41, 1, 1}}},
    {"a tag of two octets", {7, {0x54, 0x59, 1, 1, 2, 0, 0x7F}}, {0, {0}}, {2, {0x9F, 0x7F}}, {1, {0xFF}}, {0, {0}}, {4, {0x56, 0x41, 1, 1}}},
    {"under a tag", {10, {0x54, 0x59, 1, 2, 2, 0, 0, 0, 0, 1}}, {2, {0xA0, 0x80}}, {1, {0x01}}, {1, {0xFF}}, {2, {0, 0}}, {4, {0x56, 0x41, 1, 1}}},
    {"an element", {15, {0x54, 0x59, 0x30, 1, 0, 0, 0x10, 1, 0x54, 0x59, 1, 1, 0, 0, 1}}, {2, {0x30, 0x80}}, {1, {0x01}}, {1, {0xFF}}, {2, {0, 0}},
     {9, {0x56, 0x41, 0x30, 0, 1, 0x56, 0x41, 1, 1}}},
    {"a string in segments", {7, {0x54, 0x59, 4, 1, 0, 0, 4}}, {0, {0}}, {1, {0x24}}, {3, {4, 1, 0xAA}}, {0, {0}}, {6, {0x56, 0x41, 4, 0, 1, 0xAA}}},
    {"a primitive segment", {7, {0x54, 0x59, 4, 1, 0, 0, 4}}, {2, {0x24, 0x80}}, {1, {0x04}}, {1, {0xAA}}, {2, {0, 0}}, {6, {0x56, 0x41, 4, 0, 1, 0xAA}}},
    {"a constructed segment", {7, {0x54, 0x59, 4, 1, 0, 0, 4}}, {2, {0x24, 0x80}}, {1, {0x24}}, {3, {4, 1, 0xAA}}, {2, {0, 0}},
     {6, {0x56, 0x41, 4, 0, 1, 0xAA}}},
};

static struct fenced messages, bufs;
static unsigned long calls, done;

static uint8_t *put(uint8_t *to, const struct octets *some)
{
    memcpy(to, some->at, some->n);
    return to + some->n;
}

/* The message with a first length octet, where the item begins, and where the octet behind that one, the contents and what is behind the item are. */
struct message {
    uint8_t octets[LONGEST];
    size_t item, field, contents, behind, n;
};

static struct message made(const struct position *p, unsigned first, int any)
{
    struct message m = {.item = p->before.n};
    uint8_t *to = put(put(m.octets, &p->before), &p->identifier);
    *to++ = (uint8_t)first;
    m.field = (size_t)(to - m.octets);
    if (first > 0x80) {
        for (unsigned k = first - 0x81; k; k--)
            *to++ = any && first > 0x80 + FIELD ? (uint8_t)next() : 0;
        *to++ = (uint8_t)p->contents.n;
    }
    m.contents = (size_t)(to - m.octets);
    to = put(to, &p->contents);
    if (first == 0x80)
        to = put(to, &(struct octets){2, {0, 0}});
    m.behind = (size_t)(to - m.octets);
    m.n = (size_t)(put(to, &p->behind) - m.octets);
    return m;
}

static uint64_t refused(unsigned number, size_t place)
{
    return (uint64_t)number << 16 | place;
}

/* The answer to the first n octets. */
static uint64_t ruled(const struct position *p, unsigned first, const struct message *m, size_t n)
{
    if (n < m->field)
        return refused(22, n < m->item ? 0 : m->item);
    if (first == 0xFF || (first == 0x80 && !(p->identifier.at[0] & 0x20)))
        return refused(23, m->item);
    if (first > 0x80 + FIELD)
        return refused(29, m->item);
    if (n < m->behind && first > 0x80)
        return refused(22, m->item);
    if (n < m->behind)
        return refused(22, n < m->contents + p->contents.n ? m->contents : m->contents + p->contents.n);
    return n < m->n ? refused(22, m->behind) : p->value.n;
}

static void compare(const struct position *p, unsigned first, const struct message *m, size_t n, int at_end)
{
    uint8_t *message = place(messages, n, at_end), *buf = place(bufs, ROOM, at_end), want[ROOM];
    memcpy(message, m->octets, n);
    memset(buf, FILL, ROOM);
    memset(want, FILL, ROOM);
    protect(messages, PROT_READ);
    uint64_t a = yinscarf_read(p->table.at, p->table.n, 0, message, n, buf, ROOM), rule = ruled(p, first, m, n);
    protect(messages, PROT_READ | PROT_WRITE);
    if (YINSCARF_NUMBER(rule) == YINSCARF_DONE)
        put(want, &p->value);
    if (a != rule || memcmp(buf, want, ROOM) != 0) {
        printf("FAILED: %s, first length octet %02X, %zu octets: %u at %u, not %u at %u\n", p->name, first, n, YINSCARF_NUMBER(a), YINSCARF_REST(a),
               YINSCARF_NUMBER(rule), YINSCARF_REST(rule));
        exit(1);
    }
    calls++;
    done += YINSCARF_NUMBER(a) == YINSCARF_DONE;
}

int main(void)
{
    messages = fence(LONGEST);
    bufs = fence(ROOM);
    for (size_t i = 0; i < sizeof positions / sizeof *positions; i++)
        for (unsigned first = 0x80; first <= 0xFF; first++)
            for (int any = 0; any < 2; any++) {
                struct message m = made(&positions[i], first, any);
                for (size_t n = 0; n <= m.n; n++) {
                    compare(&positions[i], first, &m, n, 0);
                    compare(&positions[i], first, &m, n, 1);
                }
            }
    printf("%lu messages with lengths from 80 on, cut behind every octet: %lu done, the rest refused as the rule says\n", calls, done);
    return 0;
}
