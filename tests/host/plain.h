/* The calls of include/lepsarvu.h in plain C, written from document 01, P1, P2, P4, P5 and P6 of document 02 and Burt
 * and Adelson (1983): slow, 64-bit, the 25 products of each node added up one by one, one pixel taken from the whole
 * picture, a PGM file's header taken byte by byte. */
#ifndef HOST_PLAIN_H
#define HOST_PLAIN_H

#include "functions.h"

extern const struct pyramid_calls plain_pyramid;
extern const struct file_calls plain_file;
extern const struct pgm_calls plain_pgm;

enum { MOST_VALUE = 4096 };

/* Shared by the parts. The nodes of a level, and of all. */
int64_t plain_nodes(const lepsarvu_settings *s, int64_t level);
int64_t plain_total(const lepsarvu_settings *s);

/* The first refusal of the size and depth, of all but the bins, and of all settings. */
uint16_t plain_size_refusal(const lepsarvu_settings *s);
uint16_t plain_shape_refusal(const lepsarvu_settings *s);
uint16_t plain_settings_refusal(const lepsarvu_settings *s);
int plain_greys_ok(const lepsarvu_settings *s);
int plain_bin_ok(int64_t bin);

/* Of the indices of lawful settings. */
uint16_t plain_values_refusal(const lepsarvu_settings *s, const int16_t *levels);
int plain_value_ok(int64_t index, int64_t bin);

/* The windows of a pixel inside the picture, of lawful settings: copies the indices that lie in them, with 0 for the
 * others, and answers how many they were; how many nodes the windows have, from their sides. */
uint16_t plain_keep_windows(const lepsarvu_settings *s, uint16_t column, uint16_t row, const int16_t *levels,
                            int16_t *kept);
uint16_t plain_count_windows(const lepsarvu_settings *s, uint16_t column, uint16_t row);

#endif
