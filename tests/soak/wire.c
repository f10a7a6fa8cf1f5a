/* Datagrams between the hosts of the soak, and the network's mischief. See wire.h. */
#define _DEFAULT_SOURCE
#include "wire.h"

#include <string.h>
#include <sys/socket.h>

/* One datagram of so many is lost, repeated, held back; and for how long one is held back, in milliseconds. */
enum { LOSE = 5, REPEAT = 8, HOLD = 6, HOLD_LEAST = 5, HOLD_RANGE = 200 };

void wire_open(struct wire *wire, const struct orders *orders, struct tally *tally)
{
    wire->socket = orders->socket;
    wire->site = orders->site;
    wire->dice = dice_of(orders->seed, 2 * orders->site);
    wire->addresses = orders->addresses;
    wire->tally = tally;
    wire->held_count = 0;
}

/* A datagram that the kernel does not take is one more that is lost. */
static void put(struct wire *wire, uint32_t to, const struct datagram *datagram)
{
    const struct sockaddr_in *address = &wire->addresses[to - 1];
    if (sendto(wire->socket, datagram->bytes, datagram->len, MSG_DONTWAIT, (const struct sockaddr *)address,
               sizeof *address) < 0)
        wire->tally->lost++;
    else
        wire->tally->sent++;
}

/* Where no more can be held, one that is held goes out now and leaves its room to this one. */
static void hold(struct wire *wire, uint32_t to, const struct datagram *datagram)
{
    size_t at = wire->held_count;
    if (at == HELD) {
        at = roll(&wire->dice, HELD);
        put(wire, wire->held[at].to, &wire->held[at].datagram);
    } else {
        wire->held_count++;
    }
    wire->held[at].datagram = *datagram;
    wire->held[at].to = to;
    wire->held[at].due = now() + HOLD_LEAST + roll(&wire->dice, HOLD_RANGE);
}

void wire_send(struct wire *wire, uint32_t to, uint8_t kind, const uint8_t *body, size_t len)
{
    struct datagram datagram = {.len = WIRE_HEAD + len};
    datagram.bytes[0] = kind;
    datagram.bytes[1] = (uint8_t)wire->site;
    memcpy(datagram.bytes + WIRE_HEAD, body, len);
    if (roll(&wire->dice, LOSE) == 0) {
        wire->tally->lost++;
        return;
    }
    if (roll(&wire->dice, HOLD) == 0) {
        wire->tally->held++;
        hold(wire, to, &datagram);
    } else {
        put(wire, to, &datagram);
    }
    if (roll(&wire->dice, REPEAT) == 0) {
        wire->tally->repeated++;
        hold(wire, to, &datagram);
    }
}

void wire_release(struct wire *wire)
{
    uint64_t time = now();
    size_t left = 0;
    for (size_t i = 0; i < wire->held_count; i++) {
        if (wire->held[i].due <= time)
            put(wire, wire->held[i].to, &wire->held[i].datagram);
        else
            wire->held[left++] = wire->held[i];
    }
    wire->held_count = left;
}

/* Anyone on this machine can send to a port of the loopback: only what another host's socket sent is heard. */
static bool from_host(const struct wire *wire, const struct datagram *datagram, const struct sockaddr_in *from)
{
    if (datagram->len < WIRE_HEAD)
        return false;
    uint8_t site = datagram->bytes[1];
    if (site < 1 || site > HOSTS || site == wire->site)
        return false;
    const struct sockaddr_in *known = &wire->addresses[site - 1];
    return from->sin_port == known->sin_port && from->sin_addr.s_addr == known->sin_addr.s_addr;
}

/* Any length may be that of a patch, whose bytes the replica itself checks; counts have one length. */
static bool possible_length(const struct datagram *datagram)
{
    if (datagram->bytes[0] == WIRE_PATCH)
        return datagram->len <= WIRE_MOST;
    return (datagram->bytes[0] == WIRE_ASK || datagram->bytes[0] == WIRE_ANSWER) &&
           datagram->len == WIRE_HEAD + REPLICA_COUNTS;
}

bool wire_next(struct wire *wire, struct datagram *datagram)
{
    for (;;) {
        struct sockaddr_in from = {0};
        socklen_t from_len = sizeof from;
        ssize_t len = recvfrom(wire->socket, datagram->bytes, sizeof datagram->bytes, MSG_DONTWAIT | MSG_TRUNC,
                               (struct sockaddr *)&from, &from_len);
        if (len < 0)
            return false;
        datagram->len = (size_t)len;
        if (from_host(wire, datagram, &from) && possible_length(datagram))
            return true;
        wire->tally->strays++;
    }
}
