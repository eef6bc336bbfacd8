/* Measures the engine beside the peers, on the inputs that inputs.py made.
 *   bench time FOLDER     nanoseconds of the batch by each coder, of the batches of other lengths, and of the dearest inputs
 *   bench count FOLDER    the same calls but the dearest, once each, for callgrind: each is a dump named after it
 *   bench stack FOLDER    octets of stack that a call touches
 * Each line has fields between tabs, for report.py. */
#define _GNU_SOURCE
#include <pthread.h>
#include <stdio.h>
#include <stdlib.h>
#include <string.h>
#include <sys/mman.h>
#include <time.h>
#include <valgrind/callgrind.h>

#include "peers.h"
#include "yinscarf.h"

/* Order and seconds have the first time in place of the table, the second in that of the data. Conversions have the link version in place of
 * the type, the time in that of the data. */
enum { CHECK, WRITE, READ, ORDER = 16, SECONDS, TO_GENERALIZED, TO_UTC };
enum { ROOM = 16384, MOST = 200, ROUNDS = 61, CALLS = 40, STACK = 1 << 20, PAINT = 0xA5 };

struct input {
    char group[16], name[32];
    unsigned op, type;
    uint8_t *octets, *table, *data;
    size_t table_len, data_len;
};

static struct input inputs[MOST];
static size_t count;
static uint8_t buf[ROOM];

static void stop(const char *why, const char *what)
{
    fprintf(stderr, "%s: %s\n", what, why);
    exit(1);
}

static void load(const char *folder)
{
    char path[4096];
    snprintf(path, sizeof path, "%s/list", folder);
    FILE *f = fopen(path, "r");
    if (!f)
        stop("not there", path);
    for (struct input *x = inputs; count < MOST && fscanf(f, "%15s %31s%*[^\n]", x->group, x->name) == 2; x++, count++) {
        snprintf(path, sizeof path, "%s/%s", folder, x->name);
        FILE *g = fopen(path, "rb");
        x->octets = calloc(1, 65536);
        if (!g || !x->octets || fread(x->octets, 1, 65536, g) < 8)
            stop("not there", path);
        fclose(g);
        x->op = x->octets[2];
        x->type = x->octets[3];
        x->table_len = (size_t)x->octets[4] << 8 | x->octets[5];
        x->table = x->octets + 6;
        x->data_len = (size_t)x->table[x->table_len] << 8 | x->table[x->table_len + 1];
        x->data = x->table + x->table_len + 2;
    }
    fclose(f);
}

static const struct input *named(const char *name)
{
    for (size_t i = 0; i < count; i++)
        if (strcmp(inputs[i].name, name) == 0)
            return &inputs[i];
    stop("no such input", name);
    return NULL;
}

static uint64_t engine(const struct input *x)
{
    if (x->op == CHECK)
        return yinscarf_check(x->table, x->table_len);
    if (x->op == ORDER || x->op == SECONDS) {
        int64_t a = (x->op == ORDER ? yinscarf_order : yinscarf_seconds)(x->table, x->table_len, x->data, x->data_len);
        return (uint64_t)YINSCARF_TIME_NUMBER(a) << 16;
    }
    if (x->op == TO_GENERALIZED || x->op == TO_UTC)
        return (x->op == TO_UTC ? yinscarf_to_utc : yinscarf_to_generalized)(x->type, x->data, x->data_len, buf, ROOM);
    return (x->op == WRITE ? yinscarf_write : yinscarf_read)(x->table, x->table_len, x->type, x->data, x->data_len, buf, ROOM);
}

/* The engine as one of the coders: a value is the octets of a value. */
static const struct input *our_table;
static size_t our_length;

static void *our_read(const uint8_t *message, size_t n)
{
    uint64_t a = yinscarf_read(our_table->table, our_table->table_len, 0, message, n, buf, ROOM);
    our_length = YINSCARF_REST(a);
    return YINSCARF_NUMBER(a) == YINSCARF_DONE ? buf : NULL;
}

static size_t our_write(const void *value, uint8_t *to, size_t room)
{
    uint64_t a = yinscarf_write(our_table->table, our_table->table_len, 0, value, our_length, to, room);
    return YINSCARF_NUMBER(a) == YINSCARF_DONE ? YINSCARF_REST(a) : 0;
}

static void our_drop(void *value)
{
    (void)value;
}

static const struct peer our_peer = {"this engine, with its table check", our_read, our_write, our_drop};
static const struct peer *const peers[] = {&our_peer, &asn1c_peer, &openssl_peer, &floor_peer};
enum { PEERS = sizeof peers / sizeof *peers };

/* Each coder reads both forms and writes the definite one again, octet for octet. */
static void agree(const struct input *definite, const struct input *indefinite)
{
    static uint8_t out[ROOM];
    for (size_t i = 0; i < PEERS; i++)
        for (int form = 0; form < 2; form++) {
            const struct input *x = form ? indefinite : definite;
            void *v = peers[i]->read(x->data, x->data_len);
            if (!v)
                stop("does not read", peers[i]->name);
            size_t n = peers[i]->write(v, out, ROOM);
            if (n != definite->data_len || memcmp(out, definite->data, n) != 0)
                stop("writes other octets", peers[i]->name);
            peers[i]->drop(v);
        }
}

static double now(void)
{
    struct timespec t;
    clock_gettime(CLOCK_MONOTONIC, &t);
    return (double)t.tv_sec * 1e9 + (double)t.tv_nsec;
}

static int ascending(const void *a, const void *b)
{
    double x = *(const double *)a, y = *(const double *)b;
    return (x > y) - (x < y);
}

static void say(const char *what, const char *coder, const char *op, double *ns, size_t n)
{
    qsort(ns, n, sizeof *ns, ascending);
    printf("%s\t%s\t%s\t%.0f\t%.0f\n", what, coder, op, ns[0], ns[n / 2]);
}

/* Each is done twice and timed the second time, so that the coder before it leaves no trace; dropping values is not timed. */
static double time_read(const struct peer *p, const struct input *x)
{
    void *kept[CALLS];
    double t = 0;
    for (int twice = 0; twice < 2; twice++) {
        t = now();
        for (int i = 0; i < CALLS; i++)
            kept[i] = p->read(x->data, x->data_len);
        t = now() - t;
        for (int i = 0; i < CALLS; i++)
            p->drop(kept[i]);
    }
    return t / CALLS;
}

static double time_write(const struct peer *p, const void *value)
{
    static uint8_t out[ROOM];
    double t = 0;
    for (int twice = 0; twice < 2; twice++) {
        t = now();
        for (int i = 0; i < CALLS; i++)
            p->write(value, out, ROOM);
        t = now() - t;
    }
    return t / CALLS;
}

static double time_engine(const struct input *x, int calls)
{
    double t = now();
    for (int i = 0; i < calls; i++)
        engine(x);
    return (now() - t) / calls;
}

/* All coders take turns, so that what else the machine does meets them alike. */
static void time_batch(const struct input *definite, const struct input *indefinite, const struct input *check)
{
    static double ns[PEERS][3][ROUNDS], checks[ROUNDS];
    void *values[PEERS];
    for (size_t i = 0; i < PEERS; i++)
        values[i] = peers[i]->read(definite->data, definite->data_len);
    for (int r = 0; r < ROUNDS; r++) {
        checks[r] = time_engine(check, CALLS);
        for (size_t i = 0; i < PEERS; i++) {
            ns[i][0][r] = time_read(peers[i], definite);
            ns[i][1][r] = time_read(peers[i], indefinite);
            ns[i][2][r] = time_write(peers[i], values[i]);
        }
    }
    say("batch", our_peer.name, "check", checks, ROUNDS);
    for (size_t i = 0; i < PEERS; i++) {
        say("batch", peers[i]->name, "read", ns[i][0], ROUNDS);
        say("batch", peers[i]->name, "indefinite", ns[i][1], ROUNDS);
        say("batch", peers[i]->name, "write", ns[i][2], ROUNDS);
        peers[i]->drop(values[i]);
    }
}

/* An input of the engine alone: as many calls as take some 50 ms, five at the least. */
static void time_one(const struct input *x)
{
    static double ns[ROUNDS];
    int rounds = 0;
    uint64_t a = engine(x);
    for (double all = 0; rounds < ROUNDS && (all < 5e7 || rounds < 5); all += ns[rounds++])
        ns[rounds] = time_engine(x, 1);
    qsort(ns, (size_t)rounds, sizeof *ns, ascending);
    printf("%s\t%s\t%u\t%.0f\t%.0f\t%u\t%u\t%zu\t%zu\n", x->group, x->name, x->op, ns[0], ns[rounds / 2], YINSCARF_NUMBER(a), YINSCARF_REST(a),
           x->table_len, x->data_len);
}

/* Counts one call, made once before so that nothing is linked or touched for the first time. */
#define COUNT(name, call)                                                                                                                  \
    do {                                                                                                                                   \
        call;                                                                                                                              \
        CALLGRIND_TOGGLE_COLLECT;                                                                                                          \
        call;                                                                                                                              \
        CALLGRIND_TOGGLE_COLLECT;                                                                                                          \
        CALLGRIND_DUMP_STATS_AT(name);                                                                                                     \
    } while (0)

static void count_all(const struct input *definite, const struct input *indefinite, const struct input *check)
{
    static uint8_t out[ROOM];
    char name[128];
    void *v = NULL;
    snprintf(name, sizeof name, "batch/%s/check", our_peer.name);
    COUNT(name, engine(check));
    for (size_t i = 0; i < PEERS; i++) {
        const struct peer *p = peers[i];
        snprintf(name, sizeof name, "batch/%s/indefinite", p->name);
        COUNT(name, v = p->read(indefinite->data, indefinite->data_len));
        snprintf(name, sizeof name, "batch/%s/read", p->name);
        COUNT(name, v = p->read(definite->data, definite->data_len));
        snprintf(name, sizeof name, "batch/%s/write", p->name);
        COUNT(name, p->write(v, out, ROOM));
    }
    for (size_t i = 0; i < count; i++)
        if (strcmp(inputs[i].group, "growth") == 0 || strcmp(inputs[i].group, "pairs") == 0 || strcmp(inputs[i].group, "centuries") == 0) {
            snprintf(name, sizeof name, "%.15s/%.31s", inputs[i].group, inputs[i].name);
            COUNT(name, engine(&inputs[i]));
        }
}

/* Calls the engine on a painted stack; the lowest octet that lost its paint says how deep the call went. */
static const struct input *on_stack;
static uint8_t *stack;

static void *painted(void *used)
{
    uint8_t *here = __builtin_frame_address(0), *top = here - 512;
    for (uint8_t *p = stack; p < top; p++)
        *(volatile uint8_t *)p = PAINT;
    if (on_stack)
        engine(on_stack);
    uint8_t *p = stack;
    while (p < top && *(volatile uint8_t *)p == PAINT)
        p++;
    *(size_t *)used = (size_t)(here - p);
    return NULL;
}

static size_t stack_of(const struct input *x)
{
    pthread_t thread;
    pthread_attr_t how;
    size_t used = 0;
    on_stack = x;
    pthread_attr_init(&how);
    if (pthread_attr_setstack(&how, stack, STACK) != 0 || pthread_create(&thread, &how, painted, &used) != 0)
        stop("cannot be started", "thread");
    pthread_join(thread, NULL);
    pthread_attr_destroy(&how);
    return used;
}

int main(int argc, char **argv)
{
    if (argc != 3)
        return 2;
    load(argv[2]);
    const struct input *definite = named("definite"), *indefinite = named("indefinite"), *check = named("check");
    our_table = definite;
    agree(definite, indefinite);
    if (strcmp(argv[1], "time") == 0) {
        time_batch(definite, indefinite, check);
        for (size_t i = 0; i < count; i++)
            if (strcmp(inputs[i].group, "batch") != 0)
                time_one(&inputs[i]);
    } else if (strcmp(argv[1], "count") == 0) {
        count_all(definite, indefinite, check);
    } else if (strcmp(argv[1], "stack") == 0) {
        stack = mmap(NULL, STACK, PROT_READ | PROT_WRITE, MAP_PRIVATE | MAP_ANONYMOUS, -1, 0);
        if (stack == MAP_FAILED)
            stop("no memory", "stack");
        for (size_t i = 0; i < count; i++)
            printf("stack\t%s\t%zu\n", inputs[i].name, stack_of(&inputs[i]));
    } else {
        return 2;
    }
    return 0;
}
