/*
 * Datagrams between the hosts of the soak, and the network's mischief, which the sender does on purpose.
 * A datagram is its kind (1), the site of its sender (1) and a body: a patch, or sixteen counts.
 */
#ifndef SOAK_WIRE_H
#define SOAK_WIRE_H

#include "exercise.h"

enum {
    WIRE_PATCH = 1,  /* the body is a patch */
    WIRE_ASK = 2,    /* the body is the sender's counts: send what it lacks, and ask back where you lack some */
    WIRE_ANSWER = 3, /* the same, but nothing is asked back, so that two hosts don't ask each other for ever */
    WIRE_HEAD = 2,
    WIRE_MOST = WIRE_HEAD + REPLICA_PATCH,
    HELD = 64
};

struct datagram {
    uint8_t bytes[WIRE_MOST];
    size_t len;
};

/* A datagram that is held back, so that later ones overtake it. */
struct held {
    struct datagram datagram;
    uint32_t to;
    uint64_t due;
};

struct wire {
    int socket;
    uint32_t site, dice;
    const struct sockaddr_in *addresses;
    struct tally *tally;
    struct held held[HELD];
    size_t held_count;
};

void wire_open(struct wire *wire, const struct orders *orders, struct tally *tally);

/* Sends a body to a site; or loses it, repeats it, or holds it back. */
void wire_send(struct wire *wire, uint32_t to, uint8_t kind, const uint8_t *body, size_t len);

/* Sends what was held back and is due now. */
void wire_release(struct wire *wire);

/* Gives the next datagram that came from another host and has a possible length; false if there is none. */
bool wire_next(struct wire *wire, struct datagram *datagram);

#endif
