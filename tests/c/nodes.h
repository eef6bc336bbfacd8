/* Inputs that are the octets of one node, and the rules of docs/FORMATS.md on a time that is handed in so. */
#ifndef NODES_H
#define NODES_H

#include <string.h>

#include "fence.h"

enum { LONGEST = 16384, NODE = 10, UTC = 23, GENERALIZED = 24 };

struct input {
    const uint8_t *octets;
    size_t n;
};

static struct input node(uint8_t *to, unsigned kind, unsigned year, unsigned month, unsigned day, unsigned hour, unsigned minute, unsigned second)
{
    const unsigned octets[NODE] = {0x56, 0x41, kind, year >> 8, year & 255, month, day, hour, minute, second};
    for (size_t i = 0; i < NODE; i++)
        to[i] = (uint8_t)octets[i];
    return (struct input){to, NODE};
}

static unsigned two(const uint8_t *p)
{
    return (unsigned)p[0] << 8 | p[1];
}

static int sound(const uint8_t *p, unsigned years, int gregorian)
{
    static const unsigned days[] = {31, 28, 31, 30, 31, 30, 31, 31, 30, 31, 30, 31};
    unsigned year = two(p), month = p[2], day = p[3];
    if (year >= years || month < 1 || month > 12 || p[4] > 23 || p[5] > 59 || p[6] > 59)
        return 0;
    int leap = year % 4 == 0 && (!gregorian || year % 100 != 0 || year % 400 == 0);
    return day >= 1 && day <= days[month - 1] + (month == 2 && leap);
}

/* Whether the own part of a node is that of its kind, whole, without children and with nothing behind it. */
static int lone(unsigned kind, const uint8_t *p, size_t n)
{
    unsigned bits;
    switch (kind) {
    case 1:
        return n == 1 && p[0] < 2;
    case 2:
        return n == 8;
    case 3:
        bits = n < 2 ? 0 : two(p);
        return n >= 2 && n - 2 == (bits + 7) / 8 && (bits % 8 == 0 || (p[n - 1] & (0xFF >> bits % 8)) == 0);
    case 4:
        return n >= 2 && n - 2 == two(p);
    case 5:
        return n == 0;
    case 10:
        return n == 2;
    case 16:
    case 17:
        for (size_t i = 1; i < n; i++)
            if (p[i])
                return 0;
        return n >= 1 && n - 1 == p[0];
    case UTC:
        return n == 7 && sound(p, 100, 0);
    case GENERALIZED:
        return n == 7 && sound(p, 10000, 1);
    case 48:
    case 49:
        return n == 2 && two(p) == 0;
    default:
        return 0;
    }
}

/* 0 for a time of a kind alone, or the number of its refusal. */
static unsigned judged(struct input x, unsigned kind)
{
    const uint8_t *p = x.octets;
    if (x.n < 3 || x.n > LONGEST || p[0] != 0x56 || p[1] != 0x41 || !lone(p[2], p + 3, x.n - 3))
        return 11;
    return p[2] == kind ? 0 : 12;
}

/* Inputs that are no GeneralizedTime, with the number by which they are refused. */
static const struct {
    unsigned number;
    size_t n;
    uint8_t octets[24];
} refused[] = {
    /* nodes alone, of other kinds */
    {12, 4, {0x56, 0x41, 1, 1}},
    {12, 11, {0x56, 0x41, 2, 0, 0, 0, 0, 0, 0, 0, 5}},
    {12, 6, {0x56, 0x41, 3, 0, 3, 0xA0}},
    {12, 6, {0x56, 0x41, 4, 0, 1, 0xAA}},
    {12, 5, {0x56, 0x41, 4, 0, 0}},
    {12, 3, {0x56, 0x41, 5}},
    {12, 5, {0x56, 0x41, 10, 0xFF, 0xFF}},
    {12, 4, {0x56, 0x41, 16, 0}},
    {12, 6, {0x56, 0x41, 16, 2, 0, 0}},
    {12, 6, {0x56, 0x41, 17, 2, 0, 0}},
    {12, 5, {0x56, 0x41, 48, 0, 0}},
    {12, 5, {0x56, 0x41, 49, 0, 0}},
    {12, 10, {0x56, 0x41, 23, 0, 99, 1, 1, 0, 0, 0}},
    {12, 10, {0x56, 0x41, 23, 0, 0, 2, 29, 23, 59, 59}},
    /* with children, or where some should be */
    {11, 7, {0x56, 0x41, 50, 0, 0x56, 0x41, 5}},
    {11, 4, {0x56, 0x41, 50, 0}},
    {11, 14, {0x56, 0x41, 50, 0, 0x56, 0x41, 24, 0x07, 0xD0, 1, 1, 0, 0, 0}},
    {11, 8, {0x56, 0x41, 16, 1, 1, 0x56, 0x41, 5}},
    {11, 9, {0x56, 0x41, 16, 2, 0, 1, 0x56, 0x41, 5}},
    {11, 5, {0x56, 0x41, 16, 1, 1}},
    {11, 15, {0x56, 0x41, 17, 1, 1, 0x56, 0x41, 24, 0x07, 0xD0, 1, 1, 0, 0, 0}},
    {11, 8, {0x56, 0x41, 48, 0, 1, 0x56, 0x41, 5}},
    {11, 5, {0x56, 0x41, 48, 0, 1}},
    {11, 8, {0x56, 0x41, 49, 0, 1, 0x56, 0x41, 5}},
    /* not shaped: empty, marks, kinds, contents, cut, octets behind */
    {11, 0, {0}},
    {11, 1, {0x56}},
    {11, 2, {0x56, 0x41}},
    {11, 10, {0x56, 0x42, 24, 0x07, 0xD0, 1, 1, 0, 0, 0}},
    {11, 10, {0x54, 0x41, 24, 0x07, 0xD0, 1, 1, 0, 0, 0}},
    {11, 10, {0x56, 0x41, 22, 0x07, 0xD0, 1, 1, 0, 0, 0}},
    {11, 10, {0x56, 0x41, 25, 0x07, 0xD0, 1, 1, 0, 0, 0}},
    {11, 4, {0x56, 0x41, 1, 2}},
    {11, 6, {0x56, 0x41, 3, 0, 3, 0xA1}},
    {11, 5, {0x56, 0x41, 16, 1, 2}},
    {11, 9, {0x56, 0x41, 24, 0x07, 0xD0, 1, 1, 0, 0}},
    {11, 11, {0x56, 0x41, 24, 0x07, 0xD0, 1, 1, 0, 0, 0, 0}},
    {11, 20, {0x56, 0x41, 24, 0x07, 0xD0, 1, 1, 0, 0, 0, 0x56, 0x41, 24, 0x07, 0xD0, 1, 1, 0, 0, 0}},
    {11, 4, {0x56, 0x41, 5, 0}},
    {11, 6, {0x56, 0x41, 48, 0, 0, 0}},
    /* out of range */
    {11, 10, {0x56, 0x41, 24, 0x27, 0x10, 1, 1, 0, 0, 0}},
    {11, 10, {0x56, 0x41, 24, 0xFF, 0xFF, 1, 1, 0, 0, 0}},
    {11, 10, {0x56, 0x41, 24, 0x07, 0xD0, 0, 1, 0, 0, 0}},
    {11, 10, {0x56, 0x41, 24, 0x07, 0xD0, 13, 1, 0, 0, 0}},
    {11, 10, {0x56, 0x41, 24, 0x07, 0xD0, 1, 0, 0, 0, 0}},
    {11, 10, {0x56, 0x41, 24, 0x07, 0xD0, 1, 32, 0, 0, 0}},
    {11, 10, {0x56, 0x41, 24, 0x07, 0xD0, 2, 30, 0, 0, 0}},
    {11, 10, {0x56, 0x41, 24, 0x07, 0x6C, 2, 29, 0, 0, 0}},
    {11, 10, {0x56, 0x41, 24, 0x08, 0x34, 2, 29, 0, 0, 0}},
    {11, 10, {0x56, 0x41, 24, 0x07, 0xD0, 1, 1, 24, 0, 0}},
    {11, 10, {0x56, 0x41, 24, 0x07, 0xD0, 1, 1, 0, 60, 0}},
    {11, 10, {0x56, 0x41, 24, 0x07, 0xD0, 1, 1, 0, 0, 60}},
    {11, 10, {0x56, 0x41, 23, 0, 100, 1, 1, 0, 0, 0}},
    {11, 10, {0x56, 0x41, 23, 0, 99, 2, 29, 0, 0, 0}},
};
enum { REFUSED = sizeof refused / sizeof *refused };

/* The octets in fenced memory, which is then read alone. */
static const uint8_t *lent(struct fenced f, struct input x, int at_end)
{
    uint8_t *p = place(f, x.n, at_end);
    if (x.n)
        memcpy(p, x.octets, x.n);
    protect(f, PROT_READ);
    return p;
}

/* Small faults: octets changed, left out, put in, cut. At most three octets more. */
static size_t damage(uint8_t *v, size_t n)
{
    static const uint8_t likely[] = {0, 1, 2, 12, 13, 23, 24, 28, 29, 30, 31, 32, 59, 60, 99, 100, 0x27, 0x10, 0x0F, 0xFF, 48, 50};
    for (unsigned k = (unsigned)(next() % 4); k; k--) {
        size_t at = n ? next() % n : 0;
        uint8_t x = next() & 1 ? likely[next() % sizeof likely] : (uint8_t)next();
        unsigned way = (unsigned)(next() % 8);
        if (way == 0) {
            n = at;
        } else if (way == 1) {
            memmove(v + at + 1, v + at, n - at);
            v[at] = x;
            n++;
        } else if (way == 2 && n) {
            memmove(v + at, v + at + 1, n - at - 1);
            n--;
        } else if (n) {
            v[at] = x;
        }
    }
    return n;
}

/* From standard input a length of two octets, and as many octets; SIZE_MAX at its end. */
static size_t taken(uint8_t *to)
{
    int high = getchar(), low = getchar();
    if (high == EOF)
        return SIZE_MAX;
    size_t n = (size_t)high << 8 | (size_t)low;
    if (low == EOF || fread(to, 1, n, stdin) != n)
        exit(2);
    return n;
}

#endif
