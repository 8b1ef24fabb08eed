/*
 * A slice of no elements may be a null pointer, in every place of every call of either board: an estimator without tables, a block without ids, a history of
 * no bytes, an output of no bytes; and state, counts, id and carried, which are refused. Prints nothing, and ends with status 0, where all is as the header
 * says.
 */
#include <stdio.h>
#include <stdlib.h>
#include <string.h>

#include "boards.h"

static const struct board *on;
static double confirmed[IZR_COUNTS], resolved[IZR_COUNTS];
static uint64_t state[IZR_STATE_WORDS], carried[1];
static uint8_t file[IZR_WIDE_HISTORY_SIZE + 4];
static const uint8_t id[IZR_ID_SIZE] = {7};

static void expect(uint32_t answer, uint32_t expected, const char *call)
{
    if (answer != expected) {
        fprintf(stderr, "%s, on the %s board: answers %u, not %u\n", call, on->name, (unsigned)answer, (unsigned)expected);
        exit(EXIT_FAILURE);
    }
}

/* An estimator without tables takes every call, and no transaction. */
static void no_tables(void)
{
    size_t len = on->history_size + 4;
    expect(on->new(confirmed, IZR_COUNTS, resolved, IZR_COUNTS, NULL, 0, NULL, 0, state, IZR_STATE_WORDS), IZR_DONE, "a start without tables");
    expect(on->tx_entered(state, IZR_STATE_WORDS, NULL, 0, id, IZR_ID_SIZE, 5000, 100), IZR_PENDING_FULL, "an entry without a table");
    expect(on->tx_entered(state, IZR_STATE_WORDS, NULL, 0, id, IZR_ID_SIZE, 999, 100), IZR_BELOW_FLOOR, "an entry below the floor without a table");
    expect(on->tx_left(state, IZR_STATE_WORDS, NULL, 0, id, IZR_ID_SIZE), IZR_ABSENT, "a leave without a table");
    expect(on->block_connected(state, IZR_STATE_WORDS, confirmed, IZR_COUNTS, resolved, IZR_COUNTS, NULL, 0, NULL, 0, id, IZR_ID_SIZE, 101), IZR_DONE,
           "a block without tables");
    expect(on->block_connected(state, IZR_STATE_WORDS, confirmed, IZR_COUNTS, resolved, IZR_COUNTS, NULL, 0, NULL, 0, NULL, 0, 102), IZR_DONE,
           "a block without tables and ids");
    expect(on->estimate(state, IZR_STATE_WORDS, confirmed, IZR_COUNTS, resolved, IZR_COUNTS, 1, carried, 1), IZR_DONE, "an estimate");
    expect(on->to_history_bytes(state, IZR_STATE_WORDS, confirmed, IZR_COUNTS, resolved, IZR_COUNTS, NULL, 0, NULL, 0, NULL, 0, carried, 1), IZR_SHORT_OUTPUT,
           "a write without tables into no bytes");
    expect((uint32_t)carried[0], (uint32_t)len, "the length of a history without records");
    expect(on->to_history_bytes(state, IZR_STATE_WORDS, confirmed, IZR_COUNTS, resolved, IZR_COUNTS, NULL, 0, NULL, 0, file, len, carried, 1), IZR_DONE,
           "a write without tables");
    expect(on->from_history_bytes(file, len, confirmed, IZR_COUNTS, resolved, IZR_COUNTS, NULL, 0, NULL, 0, state, IZR_STATE_WORDS, carried, 1), IZR_DONE,
           "a reading without tables");
    expect(on->from_history_bytes(NULL, 0, confirmed, IZR_COUNTS, resolved, IZR_COUNTS, NULL, 0, NULL, 0, state, IZR_STATE_WORDS, carried, 1), IZR_CORRUPT,
           "a reading of no bytes");
}

/* What must be there is refused where it is not, and so is nothing at all. */
static void nothing(void)
{
    expect(on->new(NULL, 0, NULL, 0, NULL, 0, NULL, 0, state, IZR_STATE_WORDS), IZR_DAMAGED, "a start without counts");
    expect(on->new(NULL, 0, NULL, 0, NULL, 0, NULL, 0, NULL, 0), IZR_DAMAGED, "a start with nothing");
    expect(on->tx_entered(state, IZR_STATE_WORDS, NULL, 0, NULL, 0, 5000, 100), IZR_DAMAGED, "an entry without an id");
    expect(on->tx_entered(NULL, 0, NULL, 0, NULL, 0, 5000, 100), IZR_DAMAGED, "an entry with nothing");
    expect(on->tx_left(state, IZR_STATE_WORDS, NULL, 0, NULL, 0), IZR_DAMAGED, "a leave without an id");
    expect(on->tx_left(NULL, 0, NULL, 0, NULL, 0), IZR_DAMAGED, "a leave with nothing");
    expect(on->block_connected(state, IZR_STATE_WORDS, NULL, 0, NULL, 0, NULL, 0, NULL, 0, NULL, 0, 103), IZR_DAMAGED, "a block without counts");
    expect(on->block_connected(NULL, 0, NULL, 0, NULL, 0, NULL, 0, NULL, 0, NULL, 0, 103), IZR_DAMAGED, "a block with nothing");
    expect(on->estimate(state, IZR_STATE_WORDS, NULL, 0, NULL, 0, 1, carried, 1), IZR_DAMAGED, "an estimate without counts");
    expect(on->estimate(state, IZR_STATE_WORDS, confirmed, IZR_COUNTS, resolved, IZR_COUNTS, 1, NULL, 0), IZR_DAMAGED, "an estimate that can carry nothing");
    expect(on->estimate(NULL, 0, NULL, 0, NULL, 0, 1, NULL, 0), IZR_DAMAGED, "an estimate with nothing");
    expect(on->to_history_bytes(NULL, 0, NULL, 0, NULL, 0, NULL, 0, NULL, 0, NULL, 0, NULL, 0), IZR_DAMAGED, "a write with nothing");
    expect(on->from_history_bytes(NULL, 0, NULL, 0, NULL, 0, NULL, 0, NULL, 0, NULL, 0, NULL, 0), IZR_DAMAGED, "a reading with nothing");
}

static void try_all(const struct board *board)
{
    on = board;
    expect(izr_version(), IZR_VERSION, "the version");
    no_tables();
    nothing();
    if (state[0] != 1 || state[1] != 102) {
        fprintf(stderr, "a refused call has changed the state, on the %s board\n", on->name);
        exit(EXIT_FAILURE);
    }
}

int main(void)
{
    try_all(&base);
    try_all(&wide);
    return EXIT_SUCCESS;
}
