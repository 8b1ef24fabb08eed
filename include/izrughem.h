/*
 * Izrughem: a bitcoin fee estimator over memory that the caller lends. C11.
 *
 * Version. izr_version() is the version of this interface that the library has, IZR_VERSION the one that this header describes; where they differ, call
 * nothing else. It moves by one where the words of the state, the bytes of a record, the parameters of a function or its answers change. A function that
 * is only added does not move it.
 *
 * Slices. Every slice is a pointer and the number of its elements. The pointer is aligned for its elements and has that many of them behind it; where the
 * number is 0 it may be null. The slices of one call do not overlap.
 *
 * An estimator is its state (four words) and its four lent slices. Nothing is kept between calls: a call is given all that the call before left. No call
 * allocates, fails or waits.
 *
 *   confirmed, resolved   counts, IZR_COUNTS doubles each: bucket b, from 0 to 141, and target t, from 1 to 25, at b * 25 + t - 1
 *   pending               the table of pending transactions, IZR_PENDING_SIZE bytes a record, at most IZR_MOST_PENDING records
 *   recent                the table of confirmed transactions of recent blocks, IZR_RECENT_SIZE bytes a record, at most IZR_MOST_RECENT records
 *   state                 IZR_STATE_WORDS words: [0] 1 or 0 for whether there is a last height, [1] the last height (0 where there is none), [2] how many
 *                         pending and [3] how many confirmed records are used
 *
 * The records, numbers little-endian and of 32 bits, no byte between them:
 *
 *   pending, 44 bytes     at 0 the id, 32 bytes; at 32 the bucket; at 36 the height of entry; at 40 the targets, from the first, that are counted as
 *                         resolved already (0 to 25)
 *   recent, 36 bytes      at 0 the id, 32 bytes; at 32 the height of the block that confirmed it
 *
 * Used records stand first, their ids rising strictly (as unsigned bytes from the first); the places after them are zero. A table has room for as many
 * records as its slice holds, up to its most. What is lent beyond all that is neither read nor written.
 *
 * Boards. An estimator is of the base board, which looks 25 blocks ahead, or of the wide board, which looks 150 blocks ahead and forgets more slowly. The
 * functions izr_wide_* are for the wide board: what stands here holds for them too, with the differences that stand before them. Only a history tells of
 * which board it is, and memory does not: an estimator is lent to the functions of one board alone. A caller may keep one of each side by side.
 *
 * Threads. The library has no memory of its own, so calls on different estimators may run at the same time. On one estimator the calls that estimate and
 * those that write a history only read: any number of them may run at the same time, each with a carried and an out of its own. Every other call that is
 * lent an estimator, or a part of it, changes it, and runs while no other call does on that estimator. izr_version and izr_bucket_index_for_rate are lent
 * nothing.
 *
 * Each call answers one of the numbers below, and its comment says which: IZR_DONE, or a refusal. A refused call changes nothing that it was lent, but for
 * carried[0] on IZR_UNKNOWN_VERSION and IZR_SHORT_OUTPUT. Where more than one refusal would be right, the one that is named first is answered.
 *
 * IZR_DAMAGED tells that the memory is not an estimator's. Each call judges what it uses: a count slice shorter than IZR_COUNTS; a count that is not finite
 * or is below 0; more records used than there is room for; ids that do not rise strictly; a bucket above 141; a resolved-through above 25; an unused place
 * that is not zero; a state of fewer than four words, with a first word above 1, with a height above 32 bits, or with a height though the first word is 0; an
 * id that is not IZR_ID_SIZE bytes; a carried of no words.
 */
#ifndef IZRUGHEM_H
#define IZRUGHEM_H

#include <stddef.h>
#include <stdint.h>

#ifdef __cplusplus
extern "C" {
#endif

enum {
    IZR_VERSION = 3,
    IZR_COUNTS = 3550,
    IZR_PENDING_SIZE = 44,
    IZR_RECENT_SIZE = 36,
    IZR_MOST_PENDING = 10000,
    IZR_MOST_RECENT = 1000000,
    IZR_STATE_WORDS = 4,
    IZR_ID_SIZE = 32,
    IZR_WIDEST_GAP = 4096,
    /* The lowest rate that a transaction may enter with, in satoshi per kvB. */
    IZR_FLOOR = 1000,
    /* What izr_bucket_index_for_rate answers below it: the first number that is no bucket's. */
    IZR_NO_BUCKET = 142,
    IZR_MOST_TARGET = 25,
    /* The length of a history is this, plus 4 with a last height, plus IZR_PENDING_SIZE and IZR_RECENT_SIZE for each record. */
    IZR_HISTORY_SIZE = 57961
};

/* The wide board's: how many blocks a column is wide, and what it has in the place of IZR_MOST_TARGET and IZR_HISTORY_SIZE. */
enum {
    IZR_WIDE_WIDTH = 6,
    IZR_WIDE_MOST_TARGET = 150,
    IZR_WIDE_HISTORY_SIZE = 57965
};

/* The answers. */
enum {
    IZR_DONE = 0,
    IZR_DAMAGED = 1,
    IZR_ALREADY_PENDING = 2,
    IZR_PENDING_FULL = 3,
    IZR_ABSENT = 4,
    IZR_BAD_LIST = 5,
    IZR_GAP_TOO_WIDE = 6,
    IZR_CONFIRMED_FULL = 7,
    IZR_BAD_MAGIC = 8,
    IZR_UNKNOWN_VERSION = 9,
    IZR_CORRUPT = 10,
    IZR_NO_ROOM = 11,
    IZR_SHORT_OUTPUT = 12,
    IZR_BELOW_FLOOR = 16
};

/* The version of this interface that the library has. */
uint32_t izr_version(void);

/*
 * A fresh start: counts become 0.0, both tables are cleared, and there is no last height. The memory may hold anything before.
 *
 *   IZR_DONE
 *   IZR_DAMAGED          a count slice is too short, or the state has fewer than four words
 */
uint32_t izr_new(double *confirmed, size_t confirmed_len, double *resolved, size_t resolved_len, uint8_t *pending, size_t pending_len,
                 uint8_t *recent, size_t recent_len, uint64_t *state, size_t state_len);

/*
 * A transaction enters the mempool at a height, with a fee rate in satoshi per kvB. It judges the state, the id and the pending table.
 *
 *   IZR_DONE
 *   IZR_DAMAGED
 *   IZR_BELOW_FLOOR      the rate is below IZR_FLOOR
 *   IZR_ALREADY_PENDING  the id is pending
 *   IZR_PENDING_FULL     the pending table has no unused place
 */
uint32_t izr_tx_entered(uint64_t *state, size_t state_len, uint8_t *pending, size_t pending_len, const uint8_t *id, size_t id_len,
                        uint64_t rate, uint32_t height);

/*
 * A transaction leaves the mempool unconfirmed. It judges the state, the id and the pending table.
 *
 *   IZR_DONE
 *   IZR_DAMAGED
 *   IZR_ABSENT           the id is not pending
 */
uint32_t izr_tx_left(uint64_t *state, size_t state_len, uint8_t *pending, size_t pending_len, const uint8_t *id, size_t id_len);

/*
 * A block is connected, with the ids that it confirms, IZR_ID_SIZE bytes each, one after the other. It judges the state and all memory. Its heights do not
 * store to a row of counts (25 of one kind, of one bucket) that holds only zeros. So pages that have only such rows are not written, where the block counts
 * nothing in their buckets.
 *
 *   IZR_DONE             state[1] is the last height: the height of this block, or, where that is not above the last one, the last one as it was
 *   IZR_DAMAGED
 *   IZR_BAD_LIST         the length of ids is not a multiple of IZR_ID_SIZE
 *   IZR_GAP_TOO_WIDE     the height is more than IZR_WIDEST_GAP above the last one. Blocks of no ids, at most that far apart, lead over a wider gap with
 *                        the same result. They are calls of their own: what they have done stays, also where the block itself is then refused
 *   IZR_CONFIRMED_FULL   the table of confirmed records would hold more than it has room for, after the skipped heights have let go of old records and
 *                        once the list is in. An id that is listed twice counts once; one that is not pending, that still has a record after the skipped
 *                        heights, or that is let go of in them, needs no further room. The block's own height makes none: it comes after the list. Lend a
 *                        longer table, with zeros behind the old bytes, and call again: with a place for each used record, and one for each id that is both
 *                        listed and pending, it is long enough, up to IZR_MOST_RECENT places
 */
uint32_t izr_block_connected(uint64_t *state, size_t state_len, double *confirmed, size_t confirmed_len, double *resolved, size_t resolved_len,
                             uint8_t *pending, size_t pending_len, uint8_t *recent, size_t recent_len, const uint8_t *ids, size_t ids_len,
                             uint32_t height);

/*
 * The lowest rate at which a transaction is confirmed within so many blocks. Target 0 has none; above IZR_MOST_TARGET means IZR_MOST_TARGET. It judges the
 * state, the counts and carried.
 *
 *   IZR_DONE             carried[0] is the rate in satoshi per kvB, or 0 where there is none (a rate is never 0)
 *   IZR_DAMAGED
 */
uint32_t izr_estimate(const uint64_t *state, size_t state_len, const double *confirmed, size_t confirmed_len, const double *resolved,
                      size_t resolved_len, uint32_t target, uint64_t *carried, size_t carried_len);

/* The bucket, from 0 to 141, that a rate belongs to, on either board: it answers the bucket's number, or IZR_NO_BUCKET for a rate below IZR_FLOOR. */
uint64_t izr_bucket_index_for_rate(uint64_t rate);

/*
 * Writes the history file, of version 1, into out; out past its length is untouched. It judges the state, all memory and carried.
 *
 *   IZR_DONE             carried[0] is how many bytes were written
 *   IZR_DAMAGED
 *   IZR_SHORT_OUTPUT     carried[0] is how many bytes out must have
 */
uint32_t izr_to_history_bytes(const uint64_t *state, size_t state_len, const double *confirmed, size_t confirmed_len, const double *resolved,
                              size_t resolved_len, const uint8_t *pending, size_t pending_len, const uint8_t *recent, size_t recent_len,
                              uint8_t *out, size_t out_len, uint64_t *carried, size_t carried_len);

/*
 * Reads a history file, of version 1. The memory may hold anything before; refused, it is left as it is.
 *
 *   IZR_DONE
 *   IZR_DAMAGED          a count slice is too short, the state has fewer than four words, or carried has none
 *   IZR_BAD_MAGIC        the first eight bytes are there, and are not a history's
 *   IZR_UNKNOWN_VERSION  carried[0] is the version: 3 for a history of the wide board
 *   IZR_CORRUPT          the bytes are no history file
 *   IZR_NO_ROOM          a table of the file has more records, repeats counted, than there is room for
 */
uint32_t izr_from_history_bytes(const uint8_t *bytes, size_t bytes_len, double *confirmed, size_t confirmed_len, double *resolved,
                                size_t resolved_len, uint8_t *pending, size_t pending_len, uint8_t *recent, size_t recent_len, uint64_t *state,
                                size_t state_len, uint64_t *carried, size_t carried_len);

/*
 * The wide board. Each function has the parameters of its namesake above, judges the same in the same order, and is lent an estimator of its own, of the
 * same sizes. What differs:
 *
 *   columns   There are 25 of IZR_WIDE_WIDTH blocks each in the place of 25 targets: the counts of bucket b and column c, from 1 to 25, stand at
 *             b * 25 + c - 1, and column c is for waits of up to IZR_WIDE_WIDTH * c blocks. A pending record has at 40 how many columns, from the first,
 *             are counted as resolved already (0 to 25).
 *   decay     At each height every count is multiplied by 0.9995, and not by 0.998.
 *   records   A pending record lasts until 150 blocks after its entry, and not 25. A confirmed record stays 25 blocks, as on the base board.
 *   history   It is of version 3: directly after the version stands IZR_WIDE_WIDTH, in four bytes. So it is IZR_WIDE_HISTORY_SIZE bytes long, plus 4 with a
 *             last height, plus IZR_PENDING_SIZE and IZR_RECENT_SIZE for each record. Each board refuses the history of the other.
 */

/* A fresh start. Its answers are those of izr_new. */
uint32_t izr_wide_new(double *confirmed, size_t confirmed_len, double *resolved, size_t resolved_len, uint8_t *pending, size_t pending_len,
                      uint8_t *recent, size_t recent_len, uint64_t *state, size_t state_len);

/* A transaction enters the mempool at a height, with a fee rate in satoshi per kvB. Its answers are those of izr_tx_entered. */
uint32_t izr_wide_tx_entered(uint64_t *state, size_t state_len, uint8_t *pending, size_t pending_len, const uint8_t *id, size_t id_len,
                             uint64_t rate, uint32_t height);

/* A transaction leaves the mempool unconfirmed. Its answers are those of izr_tx_left. */
uint32_t izr_wide_tx_left(uint64_t *state, size_t state_len, uint8_t *pending, size_t pending_len, const uint8_t *id, size_t id_len);

/*
 * A block is connected, with the ids that it confirms. Its answers are those of izr_block_connected; the blocks of no ids that lead over a wider gap are
 * blocks of this function.
 */
uint32_t izr_wide_block_connected(uint64_t *state, size_t state_len, double *confirmed, size_t confirmed_len, double *resolved,
                                  size_t resolved_len, uint8_t *pending, size_t pending_len, uint8_t *recent, size_t recent_len,
                                  const uint8_t *ids, size_t ids_len, uint32_t height);

/*
 * The lowest rate at which a transaction is confirmed within so many blocks, from the first column that is for as many or more: column 1 for targets 1 to
 * IZR_WIDE_WIDTH. Target 0 has none; above IZR_WIDE_MOST_TARGET means IZR_WIDE_MOST_TARGET. It judges the state, the counts and carried.
 *
 *   IZR_DONE             carried[0] is the rate in satoshi per kvB, or 0 where there is none (a rate is never 0)
 *   IZR_DAMAGED
 */
uint32_t izr_wide_estimate(const uint64_t *state, size_t state_len, const double *confirmed, size_t confirmed_len, const double *resolved,
                           size_t resolved_len, uint32_t target, uint64_t *carried, size_t carried_len);

/* Writes the history file, of version 3, into out; out past its length is untouched. Its answers are those of izr_to_history_bytes. */
uint32_t izr_wide_to_history_bytes(const uint64_t *state, size_t state_len, const double *confirmed, size_t confirmed_len, const double *resolved,
                                   size_t resolved_len, const uint8_t *pending, size_t pending_len, const uint8_t *recent, size_t recent_len,
                                   uint8_t *out, size_t out_len, uint64_t *carried, size_t carried_len);

/*
 * Reads a history file, of version 3. The memory may hold anything before; refused, it is left as it is.
 *
 *   IZR_DONE
 *   IZR_DAMAGED          a count slice is too short, the state has fewer than four words, or carried has none
 *   IZR_BAD_MAGIC        the first eight bytes are there, and are not a history's
 *   IZR_UNKNOWN_VERSION  carried[0] is the version: 1 for a history of the base board
 *   IZR_CORRUPT          the bytes are no history file, or the width in it is not IZR_WIDE_WIDTH
 *   IZR_NO_ROOM          a table of the file has more records, repeats counted, than there is room for
 */
uint32_t izr_wide_from_history_bytes(const uint8_t *bytes, size_t bytes_len, double *confirmed, size_t confirmed_len, double *resolved,
                                     size_t resolved_len, uint8_t *pending, size_t pending_len, uint8_t *recent, size_t recent_len,
                                     uint64_t *state, size_t state_len, uint64_t *carried, size_t carried_len);

#ifdef __cplusplus
}
#endif

#endif
