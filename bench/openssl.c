/* The batch by OpenSSL's templates; an INTEGER becomes a number of 64 bits, as ours does. */
#include <openssl/asn1t.h>

#include "peers.h"

typedef struct {
    int64_t line;
    ASN1_OCTET_STRING *route;
} TRUNK;

typedef struct {
    int64_t number;
    ASN1_OCTET_STRING *caller;
    int64_t seconds;
    ASN1_BOOLEAN answered;
    ASN1_ENUMERATED *state;
    ASN1_BIT_STRING *lines;
} CALL;

DEFINE_STACK_OF(CALL)

typedef struct {
    int64_t version, serial;
    ASN1_BOOLEAN urgent;
    ASN1_OCTET_STRING *origin;
    ASN1_ENUMERATED *state;
    ASN1_BIT_STRING *lines;
    TRUNK *trunk;
    ASN1_OCTET_STRING *note;
    ASN1_NULL *mark;
    STACK_OF(CALL) *calls;
} BATCH;

enum { IMPLICIT_APPLICATION = ASN1_TFLG_IMPTAG | ASN1_TFLG_APPLICATION | ASN1_TFLG_EMBED };

ASN1_SEQUENCE(TRUNK) = {
    ASN1_EMBED(TRUNK, line, INT64),
    ASN1_SIMPLE(TRUNK, route, ASN1_OCTET_STRING),
} static_ASN1_SEQUENCE_END(TRUNK)

ASN1_SEQUENCE(CALL) = {
    ASN1_EMBED(CALL, number, INT64),
    ASN1_SIMPLE(CALL, caller, ASN1_OCTET_STRING),
    ASN1_EX_TYPE(IMPLICIT_APPLICATION, 2, CALL, seconds, INT64),
    ASN1_SIMPLE(CALL, answered, ASN1_BOOLEAN),
    ASN1_SIMPLE(CALL, state, ASN1_ENUMERATED),
    ASN1_OPT(CALL, lines, ASN1_BIT_STRING),
} static_ASN1_SEQUENCE_END(CALL)

ASN1_SEQUENCE(BATCH) = {
    ASN1_EMBED(BATCH, version, INT64),
    ASN1_EX_TYPE(IMPLICIT_APPLICATION, 1, BATCH, serial, INT64),
    ASN1_SIMPLE(BATCH, urgent, ASN1_BOOLEAN),
    ASN1_SIMPLE(BATCH, origin, ASN1_OCTET_STRING),
    ASN1_SIMPLE(BATCH, state, ASN1_ENUMERATED),
    ASN1_SIMPLE(BATCH, lines, ASN1_BIT_STRING),
    ASN1_IMP(BATCH, trunk, TRUNK, 0),
    ASN1_IMP_OPT(BATCH, note, ASN1_OCTET_STRING, 1),
    ASN1_SIMPLE(BATCH, mark, ASN1_NULL),
    ASN1_SEQUENCE_OF(BATCH, calls, CALL),
} static_ASN1_SEQUENCE_END(BATCH)

static void *read_batch(const uint8_t *message, size_t n)
{
    const unsigned char *p = message;
    void *v = ASN1_item_d2i(NULL, &p, (long)n, ASN1_ITEM_rptr(BATCH));
    return p == message + n ? v : NULL;
}

static size_t write_batch(const void *value, uint8_t *buf, size_t room)
{
    unsigned char *p = buf;
    int n = ASN1_item_i2d(value, NULL, ASN1_ITEM_rptr(BATCH));
    if (n <= 0 || (size_t)n > room)
        return 0;
    return (size_t)ASN1_item_i2d(value, &p, ASN1_ITEM_rptr(BATCH));
}

static void drop(void *value)
{
    ASN1_item_free(value, ASN1_ITEM_rptr(BATCH));
}

const struct peer openssl_peer = {"OpenSSL, templates", read_batch, write_batch, drop};
