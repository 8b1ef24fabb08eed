/*
 * The functions of each board, as one table: those of both boards have the same parameters, so that a caller writes its calls once. Only names and numbers
 * differ.
 */
#ifndef BOARDS_H
#define BOARDS_H

#include "izrughem.h"

struct board {
    const char *name;
    size_t history_size; /* of a history without a last height and records */
    uint32_t (*new)(double *, size_t, double *, size_t, uint8_t *, size_t, uint8_t *, size_t, uint64_t *, size_t);
    uint32_t (*tx_entered)(uint64_t *, size_t, uint8_t *, size_t, const uint8_t *, size_t, uint64_t, uint32_t);
    uint32_t (*tx_left)(uint64_t *, size_t, uint8_t *, size_t, const uint8_t *, size_t);
    uint32_t (*block_connected)(uint64_t *, size_t, double *, size_t, double *, size_t, uint8_t *, size_t, uint8_t *, size_t, const uint8_t *, size_t,
                                uint32_t);
    uint32_t (*estimate)(const uint64_t *, size_t, const double *, size_t, const double *, size_t, uint32_t, uint64_t *, size_t);
    uint32_t (*to_history_bytes)(const uint64_t *, size_t, const double *, size_t, const double *, size_t, const uint8_t *, size_t, const uint8_t *, size_t,
                                 uint8_t *, size_t, uint64_t *, size_t);
    uint32_t (*from_history_bytes)(const uint8_t *, size_t, double *, size_t, double *, size_t, uint8_t *, size_t, uint8_t *, size_t, uint64_t *, size_t,
                                   uint64_t *, size_t);
};

static const struct board base = {
    .name = "base",
    .history_size = IZR_HISTORY_SIZE,
    .new = izr_new,
    .tx_entered = izr_tx_entered,
    .tx_left = izr_tx_left,
    .block_connected = izr_block_connected,
    .estimate = izr_estimate,
    .to_history_bytes = izr_to_history_bytes,
    .from_history_bytes = izr_from_history_bytes,
};

static const struct board wide = {
    .name = "wide",
    .history_size = IZR_WIDE_HISTORY_SIZE,
    .new = izr_wide_new,
    .tx_entered = izr_wide_tx_entered,
    .tx_left = izr_wide_tx_left,
    .block_connected = izr_wide_block_connected,
    .estimate = izr_wide_estimate,
    .to_history_bytes = izr_wide_to_history_bytes,
    .from_history_bytes = izr_wide_from_history_bytes,
};

#endif
