/*
 * One host of the soak: a replica, the patches that it has, and the rules by which it edits, sends, asks and
 * answers. An answer of the library that honest play can never give ends the host at once, as failed.
 */
#define _DEFAULT_SOURCE
#include <poll.h>
#include <stdio.h>
#include <stdlib.h>
#include <string.h>
#include <unistd.h>

#include "wire.h"

enum {
    WINDOW = 32,     /* a refused patch waits if its author's count is so near below; else it is dropped */
    OWN_LINES = 40,  /* a host adds a line only while fewer of its own stand in its table; see edit */
    EBB_TO = 300,    /* once full, a host strikes more than it adds until it holds so many rows */
    HEARD = 64,      /* datagrams heard in one turn */
    RESENT = 8,      /* patches of one site that are sent again in one answer */
    SMALL_DRAW = 16, /* an appended line takes one of the next places, so that appends don't run out of them */
    TURN_MS = 5,     /* the longest wait for a datagram */
    EDIT_MS = 40,    /* the longest time between two edits */
    ASK_MS = 60,     /* the longest time between two askings */
    REPORT_MS = 20
};

struct kept {
    size_t len;
    uint8_t bytes[REPLICA_PATCH];
};

/* All patches of one site that a host has, number 1 first. */
struct shelf {
    struct kept *patches;
    size_t count, room;
};

struct host {
    uint32_t site, dice;
    uint8_t *record, *table;
    struct shelf shelves[REPLICA_SITES];
    struct kept waiting[REPLICA_SITES][WINDOW]; /* by author, and by number modulo WINDOW */
    bool ebbing;  /* strikes more than it adds */
    bool crowded; /* a patch was answered 7, and nothing was done since */
    bool moved;   /* something was done, so a patch that waits may be taken now */
    struct wire wire;
    struct tally tally;
    uint64_t next_edit, next_ask, next_report;
};

static void fail(const struct host *h, const char *what, uint32_t answer)
{
    fprintf(stderr, "soak: site %u: %s: answer %u\n", (unsigned)h->site, what, (unsigned)answer);
    exit(EXIT_FAILURE);
}

static void *memory(const struct host *h, void *old, size_t len)
{
    void *bytes = realloc(old, len);
    if (bytes == NULL)
        fail(h, "no memory", 0);
    return bytes;
}

static size_t rows_of(const struct host *h)
{
    return (size_t)h->record[REPLICA_RECORD_ROWS] << 8 | h->record[REPLICA_RECORD_ROWS + 1];
}

static uint32_t count_of(const struct host *h, uint32_t site)
{
    return number_at(h->record + REPLICA_RECORD_COUNTS + 4 * (site - 1));
}

/* Keeps a patch that was done, own or received. An author's patches are done in the order of their numbers. */
static void keep(struct host *h, const struct kept *patch)
{
    struct shelf *shelf = &h->shelves[patch->bytes[REPLICA_PATCH_AUTHOR] - 1];
    if (shelf->count == shelf->room) {
        shelf->room = 2 * shelf->room + 64;
        shelf->patches = memory(h, shelf->patches, shelf->room * sizeof *shelf->patches);
    }
    shelf->patches[shelf->count++] = *patch;
    if (number_at(patch->bytes + REPLICA_PATCH_NUMBER) != shelf->count)
        fail(h, "a patch done out of order", 0);
    h->crowded = false;
    h->moved = true;
}

static void send_to_others(struct host *h, const struct kept *patch)
{
    for (uint32_t to = 1; to <= HOSTS; to++)
        if (to != h->site)
            wire_send(&h->wire, to, WIRE_PATCH, patch->bytes, patch->len);
}

/* A line's text tells its site and number, and is filled up with dots to some length. */
static size_t write_text(struct host *h, char *text)
{
    unsigned number = (unsigned)count_of(h, h->site) + 1;
    int told = snprintf(text, REPLICA_TEXT + 1, "%u.%u ", (unsigned)h->site, number);
    size_t len = (size_t)told + roll(&h->dice, (uint32_t)(REPLICA_TEXT - told + 1));
    memset(text + told, '.', len - (size_t)told);
    return len;
}

/* Adds a line: three of four at the end and near its neighbour, the others anywhere. */
static void add_line(struct host *h)
{
    struct kept patch;
    char text[REPLICA_TEXT + 1];
    size_t text_len = write_text(h, text), row = rows_of(h);
    uint32_t draw = roll(&h->dice, SMALL_DRAW);
    if (roll(&h->dice, 4) == 0) {
        row = roll(&h->dice, (uint32_t)row + 1);
        draw = roll(&h->dice, UINT32_MAX);
    }
    uint32_t answer = replica_insert(h->record, REPLICA_RECORD, h->table, REPLICA_TABLE, row,
                                     (const uint8_t *)text, text_len, draw, patch.bytes, sizeof patch.bytes,
                                     &patch.len);
    if (answer == REPLICA_FULL || answer == REPLICA_NO_PLACE) {
        h->tally.refused[answer]++;
        h->ebbing = true;
        return;
    }
    if (answer != REPLICA_DONE)
        fail(h, "insert", answer);
    h->tally.inserts++;
    h->tally.added++;
    keep(h, &patch);
    send_to_others(h, &patch);
}

static void strike_line(struct host *h)
{
    struct kept patch;
    size_t row = roll(&h->dice, (uint32_t)rows_of(h));
    uint32_t answer = replica_delete(h->record, REPLICA_RECORD, h->table, REPLICA_TABLE, row, patch.bytes,
                                     sizeof patch.bytes, &patch.len);
    if (answer != REPLICA_DONE)
        fail(h, "delete", answer);
    h->tally.deletes++;
    h->tally.struck++;
    keep(h, &patch);
    send_to_others(h, &patch);
}

static size_t own_lines(const struct host *h)
{
    size_t own = 0;
    for (size_t row = 0; row < rows_of(h); row++)
        own += author_of(h->table + ROW * row) == h->site;
    return own;
}

/*
 * One edit. Why sixteen hosts that edit at once cannot stick for ever at 512 rows, though patches are then
 * refused with 7 and all that follow them are early:
 *
 * - Whoever has received an author's patch has received all strikes that the author knew of. So of this
 *   author's lines it holds no more than stood at the author itself, which are at most OWN_LINES. All hosts'
 *   lines together are at most 16 * OWN_LINES = 640: no host ever has more than 128 too many to take.
 * - A crowded host strikes a line, while hosts settle too, and so has room for the patch that was refused.
 *   Nobody adds a line then, so each host strikes at most once for each line that it lacks, and that ends.
 */
static void edit(struct host *h, enum phase phase)
{
    if (rows_of(h) < EBB_TO)
        h->ebbing = false;
    if (h->crowded)
        strike_line(h);
    else if (phase != EDITING)
        return;
    else if (own_lines(h) >= OWN_LINES || (rows_of(h) > 0 && roll(&h->dice, 4) < (h->ebbing ? 3u : 1u)))
        strike_line(h);
    else
        add_line(h);
}

static void count_row(struct host *h, const struct kept *patch, uint32_t answer)
{
    if (patch->bytes[REPLICA_PATCH_KIND] == 1)
        h->tally.added++;
    else if (answer == REPLICA_DONE)
        h->tally.struck++;
}

/* Offers a patch to the replica, and keeps it if that is done. */
static uint32_t offer(struct host *h, const struct kept *patch)
{
    uint32_t answer =
        replica_receive(h->record, REPLICA_RECORD, h->table, REPLICA_TABLE, patch->bytes, patch->len);
    switch (answer) {
    case REPLICA_DONE:
    case REPLICA_GONE:
        count_row(h, patch, answer);
        keep(h, patch);
        break;
    case REPLICA_RECEIVED:
    case REPLICA_EARLY:
        break;
    case REPLICA_FULL:
        h->ebbing = true;
        h->crowded = true;
        break;
    default:
        fail(h, "receive", answer);
    }
    h->tally.received[answer]++;
    return answer;
}

/* Offers again the next patch of each author, if it waits. The ones behind it could only be early. */
static void offer_waiting(struct host *h)
{
    for (uint32_t site = 1; site <= REPLICA_SITES; site++) {
        uint32_t next = count_of(h, site) + 1;
        const struct kept *patch = &h->waiting[site - 1][next % WINDOW];
        if (number_at(patch->bytes + REPLICA_PATCH_NUMBER) == next)
            offer(h, patch);
    }
}

/* Lets a patch wait that was refused for now; or drops it, and it has to be asked for again. */
static void let_wait(struct host *h, const struct kept *patch)
{
    uint8_t author = patch->bytes[REPLICA_PATCH_AUTHOR];
    uint32_t number = number_at(patch->bytes + REPLICA_PATCH_NUMBER);
    if (number - count_of(h, author) <= WINDOW)
        h->waiting[author - 1][number % WINDOW] = *patch;
    else
        h->tally.dropped++;
}

static void hear_patch(struct host *h, const uint8_t *bytes, size_t len)
{
    struct kept patch = {.len = len};
    memcpy(patch.bytes, bytes, len);
    uint32_t answer = offer(h, &patch);
    if (answer == REPLICA_EARLY || answer == REPLICA_FULL)
        let_wait(h, &patch);
}

/* Sends again the first few of those patches of a site that a host lacks. */
static void send_again(struct host *h, uint32_t to, uint32_t site, uint32_t first, uint32_t last)
{
    const struct shelf *shelf = &h->shelves[site - 1];
    if (last > shelf->count)
        fail(h, "a patch that was counted but not kept", 0);
    for (uint32_t number = first; number <= last && number < first + RESENT; number++) {
        const struct kept *patch = &shelf->patches[number - 1];
        h->tally.resent++;
        wire_send(&h->wire, to, WIRE_PATCH, patch->bytes, patch->len);
    }
}

static void send_counts(struct host *h, uint32_t to, uint8_t kind)
{
    h->tally.asked++;
    wire_send(&h->wire, to, kind, h->record + REPLICA_RECORD_COUNTS, REPLICA_COUNTS);
}

/* A peer tells its counts: it gets what it lacks, and is asked back if it has what this host lacks. */
static void hear_counts(struct host *h, uint32_t from, uint8_t kind, const uint8_t *counts)
{
    uint8_t result[REPLICA_COMPARED];
    bool behind = false;
    uint32_t answer = replica_compare(h->record + REPLICA_RECORD_COUNTS, REPLICA_COUNTS, counts, REPLICA_COUNTS,
                                      result, sizeof result);
    if (answer != REPLICA_DONE)
        fail(h, "compare", answer);
    for (uint32_t site = 1; site <= REPLICA_SITES; site++) {
        const uint8_t *lack = result + 9 * (site - 1);
        if (lack[0] == REPLICA_FIRST)
            send_again(h, from, site, number_at(lack + 1), number_at(lack + 5));
        behind = behind || lack[0] == REPLICA_SECOND;
    }
    if (behind && kind == WIRE_ASK)
        send_counts(h, from, WIRE_ANSWER);
}

static void hear(struct host *h)
{
    struct datagram d;
    for (int heard = 0; heard < HEARD && wire_next(&h->wire, &d); heard++) {
        if (d.bytes[0] == WIRE_PATCH)
            hear_patch(h, d.bytes + WIRE_HEAD, d.len - WIRE_HEAD);
        else
            hear_counts(h, d.bytes[1], d.bytes[0], d.bytes + WIRE_HEAD);
    }
    while (h->moved) {
        h->moved = false;
        offer_waiting(h);
    }
}

static void ask_someone(struct host *h)
{
    uint32_t other = 1 + roll(&h->dice, HOSTS - 1);
    send_counts(h, other < h->site ? other : other + 1, WIRE_ASK);
}

/* A write of at most PIPE_BUF bytes is whole or not at all. If the pipe is full, the next report will do. */
static void report(const struct host *h, int pipe, enum phase phase)
{
    struct report r = {.site = h->site, .quiet = phase != EDITING && !h->crowded};
    memcpy(r.counts, h->record + REPLICA_RECORD_COUNTS, sizeof r.counts);
    ssize_t written = write(pipe, &r, sizeof r);
    (void)written;
}

/* Says whether a time has come, and if so puts it off by 1 to so many milliseconds. */
static bool is_due(struct host *h, uint64_t *next, uint32_t most)
{
    uint64_t time = now();
    if (time < *next)
        return false;
    *next = time + 1 + roll(&h->dice, most);
    return true;
}

static void take_turn(struct host *h, int reports, enum phase phase)
{
    struct pollfd heard = {.fd = h->wire.socket, .events = POLLIN};
    poll(&heard, 1, TURN_MS);
    hear(h);
    if (is_due(h, &h->next_edit, EDIT_MS))
        edit(h, phase);
    if (is_due(h, &h->next_ask, ASK_MS))
        ask_someone(h);
    if (is_due(h, &h->next_report, REPORT_MS))
        report(h, reports, phase);
    wire_release(&h->wire);
}

static void begin(struct host *h, const struct orders *orders)
{
    h->site = orders->site;
    h->dice = dice_of(orders->seed, 2 * orders->site + 1);
    h->record = memory(h, NULL, REPLICA_RECORD);
    h->table = memory(h, NULL, REPLICA_TABLE);
    wire_open(&h->wire, orders, &h->tally);
    uint32_t answer = replica_start(h->record, REPLICA_RECORD, h->table, REPLICA_TABLE, h->site);
    if (answer != REPLICA_DONE)
        fail(h, "start", answer);
}

static void hand_in(struct host *h, struct outcome *outcome)
{
    memcpy(outcome->record, h->record, sizeof outcome->record);
    memcpy(outcome->table, h->table, sizeof outcome->table);
    outcome->tally = h->tally;
    for (int i = 0; i < REPLICA_SITES; i++)
        free(h->shelves[i].patches);
    free(h->record);
    free(h->table);
}

void host_play(const struct orders *orders)
{
    static struct host h;
    enum phase phase;
    begin(&h, orders);
    while ((phase = (enum phase)atomic_load(&orders->exercise->phase)) != OVER)
        take_turn(&h, orders->reports, phase);
    hand_in(&h, &orders->exercise->outcomes[orders->site - 1]);
}
