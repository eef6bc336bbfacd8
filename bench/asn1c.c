/* The batch by the code that asn1c makes of batch.asn1. */
#include "Batch.h"
#include "peers.h"

static void *read_batch(const uint8_t *message, size_t n)
{
    void *v = NULL;
    asn_dec_rval_t r = ber_decode(NULL, &asn_DEF_Batch, &v, message, n);
    return r.code == RC_OK && r.consumed == n ? v : NULL;
}

static size_t write_batch(const void *value, uint8_t *buf, size_t room)
{
    asn_enc_rval_t r = der_encode_to_buffer(&asn_DEF_Batch, (void *)(uintptr_t)value, buf, room);
    return r.encoded > 0 ? (size_t)r.encoded : 0;
}

static void drop(void *value)
{
    asn_DEF_Batch.free_struct(&asn_DEF_Batch, value, 0);
}

const struct peer asn1c_peer = {"asn1c, generated", read_batch, write_batch, drop};
