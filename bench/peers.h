/* What the benchmark asks of a coder of the batch. */
#ifndef PEERS_H
#define PEERS_H

#include <stddef.h>
#include <stdint.h>

struct peer {
    const char *name;
    /* A value from a message; NULL if it is refused. */
    void *(*read)(const uint8_t *message, size_t n);
    /* The length of a value's message; 0 if it is refused. */
    size_t (*write)(const void *value, uint8_t *buf, size_t room);
    void (*drop)(void *value);
};

extern const struct peer floor_peer, asn1c_peer, openssl_peer;

#endif
