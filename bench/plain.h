/* Plain C for the comparison of speed: the calls of include/lepsarvu.h with the same checks of arguments. */
#ifndef BENCH_PLAIN_H
#define BENCH_PLAIN_H

#include "../tests/host/functions.h"

enum { MOST_SIDE = 129, MOST_VALUE = 4096 };

extern const struct pyramid_calls fast_pyramid;
extern const struct file_calls fast_file;
extern const struct pgm_calls fast_pgm;
uint16_t fast_rebuild_pixel(const lepsarvu_settings *s, const int16_t *levels, size_t levels_length, uint16_t column,
                            uint16_t row, uint8_t *pixel, uint16_t *read);

/* Shared by the parts. What the shape section of a file says: all but the bins. */
uint16_t fast_shape_refusal(const lepsarvu_settings *s);
uint16_t fast_settings_refusal(const lepsarvu_settings *s);
size_t fast_level_nodes(const lepsarvu_settings *s, unsigned level);
size_t fast_nodes(const lepsarvu_settings *s);

/* Every pixel lies between black and white. */
int fast_pixels_ok(const lepsarvu_settings *s, const uint8_t *picture, size_t length);

/* Every index of every level times its bin is within 4,096 either way. */
int fast_values_ok(const lepsarvu_settings *s, const int16_t *levels);

#endif
