/*
 * Both boards over one feed: the base board is asked for the next blocks, and the wide one for a batch that may wait a day, which is further than the base
 * board looks. Prints the rates, the histories of both, and how each board refuses the history of the other.
 */
#include <inttypes.h>
#include <stdbool.h>
#include <stdio.h>
#include <stdlib.h>
#include <string.h>

#include "boards.h"

/* Room for 300 pending and 100 confirmed records, and for the longest history of so many; the blocks of a day; kinds of transactions. */
enum { PENDING = 300 * IZR_PENDING_SIZE, RECENT = 100 * IZR_RECENT_SIZE, FILE_SIZE = IZR_WIDE_HISTORY_SIZE + 4 + PENDING + RECENT, DAY = 144, KINDS = 4 };

/* At each height one transaction of each kind enters, and it is confirmed so many blocks later; the last kind never is. */
static const struct {
    uint64_t rate;
    uint32_t wait;
} kinds[KINDS] = {{30000, 1}, {8000, 10}, {2000, 100}, {1000, UINT32_MAX}};

/* An estimator, and the board that it is of. */
struct estimator {
    const struct board *on;
    uint64_t state[IZR_STATE_WORDS];
    double confirmed[IZR_COUNTS];
    double resolved[IZR_COUNTS];
    uint8_t pending[PENDING];
    uint8_t recent[RECENT];
};

static void check(bool holds, const char *what)
{
    if (!holds) {
        fprintf(stderr, "not as it should be: %s\n", what);
        exit(EXIT_FAILURE);
    }
}

static void start(struct estimator *e, const struct board *on)
{
    e->on = on;
    check(on->new(e->confirmed, IZR_COUNTS, e->resolved, IZR_COUNTS, e->pending, PENDING, e->recent, RECENT, e->state, IZR_STATE_WORDS) == IZR_DONE, "a start");
}

static void enter(struct estimator *e, const uint8_t *id, uint64_t rate, uint32_t height)
{
    check(e->on->tx_entered(e->state, IZR_STATE_WORDS, e->pending, PENDING, id, IZR_ID_SIZE, rate, height) == IZR_DONE, "an entry");
}

static void leave(struct estimator *e, const uint8_t *id)
{
    check(e->on->tx_left(e->state, IZR_STATE_WORDS, e->pending, PENDING, id, IZR_ID_SIZE) == IZR_DONE, "a leave");
}

static void block(struct estimator *e, const uint8_t *ids, size_t len, uint32_t height)
{
    uint32_t answer = e->on->block_connected(e->state, IZR_STATE_WORDS, e->confirmed, IZR_COUNTS, e->resolved, IZR_COUNTS, e->pending, PENDING, e->recent, RECENT,
                                             ids, len, height);
    check(answer == IZR_DONE, "a block");
}

/* Prints the rate for a target. */
static void ask(const struct estimator *e, uint32_t target)
{
    uint64_t rate[1];
    check(e->on->estimate(e->state, IZR_STATE_WORDS, e->confirmed, IZR_COUNTS, e->resolved, IZR_COUNTS, target, rate, 1) == IZR_DONE, "an estimate");
    printf("%s: %" PRIu64 " sat/kvB within %" PRIu32 "\n", e->on->name, rate[0], target);
}

/* Writes the history, prints what it is, and returns its length. */
static size_t save(const struct estimator *e, uint8_t *file)
{
    uint64_t len[1];
    uint32_t answer = e->on->to_history_bytes(e->state, IZR_STATE_WORDS, e->confirmed, IZR_COUNTS, e->resolved, IZR_COUNTS, e->pending, PENDING, e->recent, RECENT,
                                              file, FILE_SIZE, len, 1);
    check(answer == IZR_DONE, "a write");
    check(len[0] == e->on->history_size + 4 + IZR_PENDING_SIZE * e->state[2] + IZR_RECENT_SIZE * e->state[3], "the length of a history");
    printf("%s: %" PRIu64 " pending, %" PRIu64 " confirmed, %" PRIu64 " bytes of version %d\n", e->on->name, e->state[2], e->state[3], len[0], file[8]);
    return (size_t)len[0];
}

static uint32_t load(struct estimator *e, const uint8_t *file, size_t len, uint64_t *carried)
{
    return e->on->from_history_bytes(file, len, e->confirmed, IZR_COUNTS, e->resolved, IZR_COUNTS, e->pending, PENDING, e->recent, RECENT, e->state,
                                     IZR_STATE_WORDS, carried, 1);
}

/* The history is read into other memory, which is then as the memory that it was written from. */
static void read_back(const struct estimator *e, const uint8_t *file, size_t len)
{
    static struct estimator other;
    uint64_t carried[1];
    start(&other, e->on);
    check(load(&other, file, len, carried) == IZR_DONE, "a reading");
    check(memcmp(&other, e, sizeof other) == 0, "what was read back is what was written");
}

/* The history of the other board is refused, and changes nothing. */
static void refuse(struct estimator *e, const uint8_t *file, size_t len)
{
    static struct estimator kept;
    uint64_t carried[1];
    kept = *e;
    uint32_t answer = load(e, file, len, carried);
    check(memcmp(&kept, e, sizeof kept) == 0, "a refused reading changes nothing");
    printf("%s: answers %" PRIu32 " to a history of version %" PRIu64 "\n", e->on->name, answer, carried[0]);
}

/* The id of the transaction of a kind that has entered at a height. */
static void put_id(uint8_t *id, uint32_t kind, uint32_t height)
{
    memset(id, 0, IZR_ID_SIZE);
    id[0] = (uint8_t)kind;
    id[1] = (uint8_t)(height >> 8);
    id[2] = (uint8_t)height;
}

/* Three days, block by block, told to both boards. */
static void feed(struct estimator *next, struct estimator *day)
{
    uint8_t ids[KINDS][IZR_ID_SIZE];
    for (uint32_t height = 1; height <= 3 * DAY; height++) {
        size_t listed = 0;
        for (uint32_t kind = 0; kind < KINDS; kind++)
            if (kinds[kind].wait < height)
                put_id(ids[listed++], kind, height - kinds[kind].wait);
        block(next, ids[0], listed * IZR_ID_SIZE, height);
        block(day, ids[0], listed * IZR_ID_SIZE, height);
        for (uint32_t kind = 0; kind < KINDS; kind++) {
            put_id(ids[kind], kind, height);
            enter(next, ids[kind], kinds[kind].rate, height);
            enter(day, ids[kind], kinds[kind].rate, height);
        }
    }
    leave(next, ids[0]);
    leave(day, ids[0]);
}

int main(void)
{
    static struct estimator next, day;
    static uint8_t next_file[FILE_SIZE], day_file[FILE_SIZE];
    uint64_t carried[1];

    check(izr_version() == IZR_VERSION, "the library has the header's version");
    start(&next, &base);
    start(&day, &wide);
    feed(&next, &day);

    ask(&next, 1);
    ask(&next, 10);
    ask(&next, DAY); /* means IZR_MOST_TARGET: the base board looks no further */
    ask(&day, DAY);

    size_t next_len = save(&next, next_file);
    size_t day_len = save(&day, day_file);
    read_back(&next, next_file, next_len);
    read_back(&day, day_file, day_len);
    refuse(&next, day_file, day_len);
    refuse(&day, next_file, next_len);
    day_file[12] = IZR_WIDE_WIDTH + 1;
    check(load(&day, day_file, day_len, carried) == IZR_CORRUPT, "a history of another width");
    return EXIT_SUCCESS;
}
