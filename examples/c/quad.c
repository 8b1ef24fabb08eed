/*
 * The fee estimator from C: a fresh start, four transactions that enter, a block that confirms two of them, a history written and read back into other
 * memory, and the estimates from there. It prints what the program `show` prints of that history.
 */
#include <inttypes.h>
#include <stdbool.h>
#include <stdio.h>
#include <stdlib.h>
#include <string.h>

#include "izrughem.h"

/* Room for 172 pending and 210 confirmed records. */
enum { PENDING = 172 * IZR_PENDING_SIZE, RECENT = 210 * IZR_RECENT_SIZE, FILE_SIZE = 65536 };

struct estimator {
    uint64_t state[IZR_STATE_WORDS];
    double confirmed[IZR_COUNTS];
    double resolved[IZR_COUNTS];
    uint8_t pending[PENDING];
    uint8_t recent[RECENT];
};

static void check(bool holds, const char *what)
{
    if (!holds) {
        fprintf(stderr, "not as it should be: %s\n", what);
        exit(EXIT_FAILURE);
    }
}

static void expect(uint32_t answer, uint32_t expected, const char *call)
{
    check(answer == expected, call);
}

static void start(struct estimator *e)
{
    expect(izr_new(e->confirmed, IZR_COUNTS, e->resolved, IZR_COUNTS, e->pending, PENDING, e->recent, RECENT, e->state, IZR_STATE_WORDS), IZR_DONE, "izr_new");
}

static uint32_t enter(struct estimator *e, const uint8_t *id, uint64_t rate, uint32_t height)
{
    return izr_tx_entered(e->state, IZR_STATE_WORDS, e->pending, PENDING, id, IZR_ID_SIZE, rate, height);
}

static uint32_t leave(struct estimator *e, const uint8_t *id)
{
    return izr_tx_left(e->state, IZR_STATE_WORDS, e->pending, PENDING, id, IZR_ID_SIZE);
}

static uint32_t block(struct estimator *e, const uint8_t *ids, size_t len, uint32_t height)
{
    return izr_block_connected(e->state, IZR_STATE_WORDS, e->confirmed, IZR_COUNTS, e->resolved, IZR_COUNTS, e->pending, PENDING, e->recent, RECENT, ids, len, height);
}

/* The rate for a target, or 0. */
static uint64_t estimate(const struct estimator *e, uint32_t target)
{
    uint64_t rate[1];
    expect(izr_estimate(e->state, IZR_STATE_WORDS, e->confirmed, IZR_COUNTS, e->resolved, IZR_COUNTS, target, rate, 1), IZR_DONE, "izr_estimate");
    return rate[0];
}

/* Writes the history, and returns its length. An output of no bytes is refused, and tells the length. */
static size_t save(const struct estimator *e, uint8_t *file, size_t len)
{
    uint64_t carried[1];
    expect(izr_to_history_bytes(e->state, IZR_STATE_WORDS, e->confirmed, IZR_COUNTS, e->resolved, IZR_COUNTS, e->pending, PENDING, e->recent, RECENT, file, 0, carried, 1),
           IZR_SHORT_OUTPUT, "izr_to_history_bytes into no bytes");
    uint64_t needed = carried[0];
    expect(izr_to_history_bytes(e->state, IZR_STATE_WORDS, e->confirmed, IZR_COUNTS, e->resolved, IZR_COUNTS, e->pending, PENDING, e->recent, RECENT, file, len, carried, 1),
           IZR_DONE, "izr_to_history_bytes");
    check(carried[0] == needed, "the written length");
    return (size_t)needed;
}

static uint32_t load(struct estimator *e, const uint8_t *file, size_t len, uint64_t *carried)
{
    return izr_from_history_bytes(file, len, e->confirmed, IZR_COUNTS, e->resolved, IZR_COUNTS, e->pending, PENDING, e->recent, RECENT, e->state, IZR_STATE_WORDS, carried, 1);
}

static void show(const struct estimator *e)
{
    if (e->state[0] == 1)
        printf("height %" PRIu64 "\n", e->state[1]);
    else
        printf("height -\n");
    printf("pending %" PRIu64 "\nconfirmed %" PRIu64 "\n", e->state[2], e->state[3]);
    for (uint32_t target = 1; target <= IZR_MOST_TARGET; target++) {
        uint64_t rate = estimate(e, target);
        if (rate != 0)
            printf("%" PRIu32 " %" PRIu64 "\n", target, rate);
        else
            printf("%" PRIu32 " -\n", target);
    }
}

int main(void)
{
    static struct estimator first, second;
    static uint8_t file[FILE_SIZE];
    uint8_t ids[5][IZR_ID_SIZE];
    uint64_t carried[1] = {0};

    check(izr_version() == IZR_VERSION, "the library has the header's version");
    for (size_t i = 0; i < 5; i++)
        memset(ids[i], (int)i + 1, IZR_ID_SIZE);

    start(&first);
    expect(enter(&first, ids[0], 5000, 100), IZR_DONE, "the first enters");
    expect(enter(&first, ids[1], 5000, 100), IZR_DONE, "the second enters");
    expect(enter(&first, ids[2], 1000, 100), IZR_DONE, "the third enters");
    expect(enter(&first, ids[3], 1000, 100), IZR_DONE, "the fourth enters");
    expect(enter(&first, ids[3], IZR_FLOOR, 100), IZR_ALREADY_PENDING, "the fourth enters again");
    expect(enter(&first, ids[3], IZR_FLOOR - 1, 100), IZR_BELOW_FLOOR, "the fourth enters again, below the floor");
    expect(enter(&first, ids[4], 0, 100), IZR_BELOW_FLOOR, "the fifth enters below the floor");
    check(izr_bucket_index_for_rate(IZR_FLOOR) == 0, "the floor's bucket");
    check(izr_bucket_index_for_rate(IZR_FLOOR - 1) == IZR_NO_BUCKET, "no bucket below the floor");
    expect(enter(&first, ids[4], 2000, 100), IZR_DONE, "the fifth enters");
    expect(leave(&first, ids[4]), IZR_DONE, "the fifth leaves");
    expect(leave(&first, ids[4]), IZR_ABSENT, "the fifth leaves again");
    expect(block(&first, ids[0], 2 * IZR_ID_SIZE + 1, 101), IZR_BAD_LIST, "a block with a byte too many");
    expect(block(&first, ids[0], 2 * IZR_ID_SIZE, 101), IZR_DONE, "a block with the first and the second");
    check(first.state[0] == 1 && first.state[1] == 101, "the last height is the block's");
    expect(block(&first, ids[0], 0, 101 + IZR_WIDEST_GAP + 1), IZR_GAP_TOO_WIDE, "a block too far above");

    size_t len = save(&first, file, FILE_SIZE);
    expect(load(&second, file, len - 1, carried), IZR_CORRUPT, "a history with a byte too few");
    file[8] = 2;
    expect(load(&second, file, len, carried), IZR_UNKNOWN_VERSION, "a history of version 2");
    check(carried[0] == 2, "the version");
    file[8] = 1;
    expect(load(&second, file, len, carried), IZR_DONE, "the history");
    check(memcmp(&first, &second, sizeof first) == 0, "what was read back is what was written");

    second.state[0] = 2;
    expect(enter(&second, ids[4], 2000, 101), IZR_DAMAGED, "a state that is none");
    second.state[0] = 1;
    show(&second);
    return EXIT_SUCCESS;
}
