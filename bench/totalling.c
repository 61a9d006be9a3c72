/* The totalling call as an agent beside the call: each call begins with 0 and 0, and its three numbers are dropped. */
#include "cavernlull.h"

uint16_t totalling(uint8_t *table, size_t table_length, struct cavernlull_tally *tally, size_t start, const uint8_t *frame,
                   size_t frame_length, uint8_t *reply, size_t reply_length) {
    int32_t total = 0, change;
    uint16_t returns = 0;
    return cavernlull_call_totalling(table, table_length, tally, start, frame, frame_length, reply, reply_length, &total, &returns,
                                     &change);
}
