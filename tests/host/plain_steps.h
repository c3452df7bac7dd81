/* The steps of plain.c that plain_closed.c takes too, and what the other parts have for its table of calls. */
#ifndef HOST_PLAIN_STEPS_H
#define HOST_PLAIN_STEPS_H

#include "plain.h"

enum { SLOTS = LEPSARVU_SLOTS, MOST_SIDE = 129 };

/* One level: a value for each node, at[row][column]. Of several, slot l is level l. */
struct plain_level {
    int64_t columns;
    int64_t rows;
    int64_t at[MOST_SIDE][MOST_SIDE];
};

int64_t plain_side(int64_t side, int64_t level);
uint16_t plain_coding_refusal(const lepsarvu_settings *s, const uint8_t *picture, size_t picture_length,
                              size_t levels_length, size_t work_length);
void plain_size_levels(struct plain_level *of, const lepsarvu_settings *s);
void plain_average_levels(struct plain_level *of, const lepsarvu_settings *s, const uint8_t *picture);
int64_t plain_predicted(const struct plain_level *of, const lepsarvu_settings *s, int64_t level, int64_t i, int64_t j);
int64_t plain_index_of(int64_t value, int64_t bin);

coding_call plain_closed_loop_coding;
uint16_t plain_rebuild_pixel(const lepsarvu_settings *s, const int16_t *levels, size_t levels_length, uint16_t column,
                             uint16_t row, uint8_t *pixel, uint16_t *read);
bounds_call plain_level_bounds, plain_closed_loop_bounds;
uint16_t plain_deepest_depth(uint16_t columns, uint16_t rows, uint16_t *depth);
uint16_t plain_total_nodes(const lepsarvu_settings *s, uint16_t *nodes);

#endif
