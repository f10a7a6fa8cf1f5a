/*
 * The script replica: one host's copy of the event script.
 *
 * A host keeps three things: a record of 67 bytes, a table of 39,936 bytes, and patches, those of its own
 * edits at least, so that it can send them again. It lends record and table to each call. A call does all that it
 * says or nothing: where it refuses, every byte lent is as it was and every number given is 0.
 *
 * Each function is proved, in the language it is written in, to give exactly one answer and one content of
 * every buffer, for all bytes and numbers whatever; nothing has to be checked before a call.
 *
 * Pointers. A slice is a pointer and then its length in bytes. A length of 0 may go with any pointer, NULL
 * too. Otherwise a pointer is to as many bytes as its length says; one to a size_t is to a size_t.
 *
 * Overlap. What a call may write to (a parameter without const) overlaps nothing else that is lent to the same
 * call. Parameters with const may overlap each other.
 *
 * Threads. The library has no state of its own, takes no lock and allocates nothing. Calls on different
 * replicas may run at the same time. Calls that share a replica may too where all of them only read it
 * (replica_row_text, replica_compare, replica_patch_first); any other call has its record and table alone.
 *
 * Numbers in a record, a table, a patch or a result have the high byte first.
 */
#ifndef SCRIPT_REPLICA_H
#define SCRIPT_REPLICA_H

#include <stddef.h>
#include <stdint.h>

#ifdef __cplusplus
extern "C" {
#endif

/* Sizes in bytes, and what bounds the rest. */
enum {
    REPLICA_RECORD = 67,      /* site (1), rows in use (2), sixteen counts (4 each) */
    REPLICA_TABLE = 39936,    /* 512 rows of 78 */
    REPLICA_PATCH = 161,      /* the longest patch, and the least buffer for one; the shortest has 12 */
    REPLICA_COUNTS = 64,      /* sixteen counts (4 each), that of site 1 first */
    REPLICA_COMPARED = 144,   /* sixteen times side (1), first (4), last (4) */
    REPLICA_SITES = 16,       /* sites are 1 to 16 */
    REPLICA_ROWS = 512,       /* rows are 0 to 512 */
    REPLICA_TEXT = 48,        /* a line has 0 to 48 bytes, of any value */
    REPLICA_NUMBERS = 1000000 /* patches of a site are numbered 1 to 1,000,000 */
};

/* Where things stand in a record. The counts are what replica_compare takes. */
enum {
    REPLICA_RECORD_SITE = 0,
    REPLICA_RECORD_ROWS = 1,
    REPLICA_RECORD_COUNTS = 3
};

/*
 * Where things stand at the head of a patch. A host resends by them: what another host lacks is a site and
 * numbers, and author and number say which patch this is.
 */
enum {
    REPLICA_PATCH_KIND = 0,   /* 1 byte: 1 an insert, 2 a delete */
    REPLICA_PATCH_AUTHOR = 1, /* 1 byte: the site that made it */
    REPLICA_PATCH_NUMBER = 2  /* 4 bytes: which of that site's patches it is, from 1 */
};

/*
 * Answers. 0 and 15 say that the call is done; every other number is a refusal. A call that several
 * grounds would refuse answers by the first in the order that stands beside it below.
 */
enum {
    REPLICA_DONE = 0,
    REPLICA_UNSOUND = 1,         /* record or table not sound, or a wrong length */
    REPLICA_MALFORMED = 2,       /* the patch is malformed */
    REPLICA_OWN_AHEAD = 3,       /* the author is this site, and the number is above its count */
    REPLICA_RECEIVED = 4,        /* received already */
    REPLICA_EARLY = 5,           /* early: its author knew patches that have not come yet; offer it again later */
    REPLICA_POSITION_TAKEN = 6,  /* insert: a row has this position already */
    REPLICA_FULL = 7,            /* insert, own or received: 512 rows are in use */
    REPLICA_NO_ROW = 8,          /* no such row */
    REPLICA_LONG_TEXT = 9,       /* the text is over 48 bytes */
    REPLICA_SHORT_BUFFER = 10,   /* the patch buffer is under 161 bytes, whether or not the patch would fit */
    REPLICA_NUMBERS_SPENT = 11,  /* this site has made 1,000,000 patches */
    REPLICA_NO_PLACE = 12,       /* no place of at most 8 identifiers between the neighbours */
    REPLICA_PLACE_TAKEN = 13,    /* the place made is a row already */
    REPLICA_NO_SITE = 14,        /* the site is not 1 to 16 */
    REPLICA_GONE = 15            /* done: the struck line had gone before */
};

/* Which side of a comparison has more. */
enum {
    REPLICA_NEITHER = 0,
    REPLICA_FIRST = 1,
    REPLICA_SECOND = 2
};

/*
 * Starts a replica: sets the own site, and zeroes rows in use, counts and table, whatever stood there. No two
 * hosts of an exercise have the same site, and a host is started once in it.
 * Refuses with 14, then with 1 where record or table has a wrong length.
 */
uint32_t replica_start(uint8_t *record, size_t record_len, uint8_t *table, size_t table_len, uint32_t site);

/*
 * Inserts a line with this text before a row, from 0; a row equal to the number in use puts it last. The draw is
 * any number and picks among the free places between the neighbours, from the lowest. Best is a random one, and
 * for a line put last a small one, 0 to 63, say: each such line takes its part of the places that are left, and
 * draws over all numbers use them up (answer 12) after about a hundred. Done, the patch to send to every
 * other host stands at the front of `patch`, its length is in `written`, and the bytes behind it are as they
 * were.
 * Refuses with 1, 10, 8, 9, 7, 11, 12, 13, in this order.
 */
uint32_t replica_insert(uint8_t *record, size_t record_len, uint8_t *table, size_t table_len, size_t row,
                        const uint8_t *text, size_t text_len, uint32_t draw, uint8_t *patch, size_t patch_len,
                        size_t *written);

/*
 * Deletes the line of a row, from 0. The patch is handed over as by replica_insert; it names the line by its
 * position and its number, so it strikes this line everywhere and no other.
 * Refuses with 1, 10, 8, 11, in this order.
 */
uint32_t replica_delete(uint8_t *record, size_t record_len, uint8_t *table, size_t table_len, size_t row,
                        uint8_t *patch, size_t patch_len, size_t *written);

/*
 * Receives exactly one patch. Patches may come in any order and any number of times: one that is early is refused
 * with 5 and is to be offered again, one that came before is refused with 4 and changes nothing. 0 and
 * 15 count it as received.
 * Refuses with 1, 2, 3, 4, 5, 6, 7, in this order.
 */
uint32_t replica_receive(uint8_t *record, size_t record_len, uint8_t *table, size_t table_len,
                         const uint8_t *patch, size_t patch_len);

/*
 * Says where in the table the text of a row stands: table + *start, *len bytes. The text is valid until the
 * next call that is lent this table to write to.
 * Refuses with 1, then 8; then both numbers are 0.
 */
uint32_t replica_row_text(const uint8_t *record, size_t record_len, const uint8_t *table, size_t table_len,
                          size_t row, size_t *start, size_t *len);

/*
 * Compares two sets of sixteen counts, 64 bytes each, as they stand in records from byte 3 on. For each site, the
 * first at byte 0, the second at byte 9 and so on, it writes which side has received more of its
 * patches (0 neither, 1 the first, 2 the second), and the first and the last number that the other side
 * lacks, or two zeros. Refuses with 1 where a length is wrong or a count is above 1,000,000; the bytes of the
 * result are then as they were.
 */
uint32_t replica_compare(const uint8_t *first, size_t first_len, const uint8_t *second, size_t second_len,
                         uint8_t *result, size_t result_len);

/*
 * Says how many bytes the first patch of a run of patches takes, so that a host can keep patches one behind the
 * other. Refuses with 2, and 0 bytes, where the run does not begin with a well-formed patch.
 */
uint32_t replica_patch_first(const uint8_t *bytes, size_t bytes_len, size_t *used);

#ifdef __cplusplus
}
#endif

#endif
