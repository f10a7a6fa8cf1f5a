/*
 * What the parent and the hosts of the soak share: the phases, what a host counts, what it hands in at the end,
 * and three small tools.
 */
#ifndef SOAK_EXERCISE_H
#define SOAK_EXERCISE_H

#include <netinet/in.h>
#include <stdatomic.h>
#include <stdbool.h>
#include <stdint.h>
#include <time.h>

#include "script_replica.h"

enum { HOSTS = REPLICA_SITES, ANSWERS = 16, ROW = REPLICA_TABLE / REPLICA_ROWS, ROW_NUMBER = 25 };

/* Hosts edit; then they only bring each other up to date; then they hand in what they hold, and end. */
enum phase { EDITING, SETTLING, OVER };

struct tally {
    uint64_t inserts, deletes;  /* own edits that were done */
    uint64_t refused[ANSWERS];  /* own edits that were refused, by answer */
    uint64_t received[ANSWERS]; /* patches offered to the replica, by answer */
    uint64_t added, struck;     /* rows put in and taken out, by own and received patches */
    uint64_t dropped;           /* refused patches for which no room was left to wait */
    uint64_t asked, resent;     /* counts sent to a peer, patches sent again because a peer lacked them */
    uint64_t sent, lost, repeated, held, strays; /* datagrams */
};

/* What a host hands in at its end. The parent reads it only after the host has exited. */
struct outcome {
    uint8_t record[REPLICA_RECORD];
    uint8_t table[REPLICA_TABLE];
    struct tally tally;
};

/* The memory that all processes share. */
struct exercise {
    atomic_int phase;
    struct outcome outcomes[HOSTS];
};

/* What a host tells the parent now and then, in one write to a pipe. */
struct report {
    uint32_t site;
    uint32_t quiet; /* 1: it edits no more, unless a patch that it lacks still comes; else 0 */
    uint8_t counts[REPLICA_COUNTS];
};

/* What a host is told before it starts. */
struct orders {
    uint32_t site, seed;
    int socket, reports;
    const struct sockaddr_in *addresses; /* of all hosts, that of site 1 first */
    struct exercise *exercise;
};

/* Plays one host until the parent says that the exercise is over. Does not return where an answer is wrong. */
void host_play(const struct orders *orders);

/* A generator is one number that is never 0. Different seeds and users give different ones. */
static inline uint32_t dice_of(uint32_t seed, uint32_t user)
{
    uint32_t dice = (seed * 64 + user + 1) * 2654435761u;
    return dice == 0 ? 1 : dice;
}

static inline uint32_t roll(uint32_t *dice, uint32_t sides)
{
    *dice ^= *dice << 13;
    *dice ^= *dice >> 17;
    *dice ^= *dice << 5;
    return *dice % sides;
}

/* A number in a record, a patch or a result: four bytes, the high one first. */
static inline uint32_t number_at(const uint8_t *bytes)
{
    return (uint32_t)bytes[0] << 24 | (uint32_t)bytes[1] << 16 | (uint32_t)bytes[2] << 8 | bytes[3];
}

/* The author of a row's line: the last site in its position, whose length comes first in the row. */
static inline uint32_t author_of(const uint8_t *row)
{
    return row[3 * row[0]];
}

/* Milliseconds on a clock that is never set back. */
static inline uint64_t now(void)
{
    struct timespec t;
    clock_gettime(CLOCK_MONOTONIC, &t);
    return (uint64_t)t.tv_sec * 1000 + (uint64_t)t.tv_nsec / 1000000;
}

#endif
