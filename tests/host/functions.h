/* The calls of include/lepsarvu.h as tables, so that one test can drive several implementations. */
#ifndef HOST_FUNCTIONS_H
#define HOST_FUNCTIONS_H

#include "../../include/lepsarvu.h"

/* Both codings are called alike, and both bounds. */
typedef uint16_t coding_call(const lepsarvu_settings *settings, const uint8_t *picture, size_t picture_length,
                             int16_t *levels, size_t levels_length, int32_t *work, size_t work_length);
typedef uint16_t bounds_call(const lepsarvu_settings *settings, uint16_t bounds[7]);

struct pyramid_calls {
    coding_call *coding, *closed_loop_coding;
    uint16_t (*rebuilding)(const lepsarvu_settings *settings, const int16_t *levels, size_t levels_length,
                           uint8_t *picture, size_t picture_length, int32_t *work, size_t work_length);
    uint16_t (*rebuild_pixel)(const lepsarvu_settings *settings, const int16_t *levels, size_t levels_length,
                              uint16_t column, uint16_t row, uint8_t *pixel, uint16_t *read);
    bounds_call *level_bounds, *closed_loop_bounds;
    uint16_t (*deepest_depth)(uint16_t columns, uint16_t rows, uint16_t *depth);
    uint16_t (*total_nodes)(const lepsarvu_settings *settings, uint16_t *nodes);
};

/* The two manners of coding a picture. */
enum manner { OPEN_LOOP, CLOSED_LOOP, MANNERS };

static inline coding_call *coding_in(enum manner manner, const struct pyramid_calls *of)
{
    return manner == CLOSED_LOOP ? of->closed_loop_coding : of->coding;
}

static inline bounds_call *bounds_in(enum manner manner, const struct pyramid_calls *of)
{
    return manner == CLOSED_LOOP ? of->closed_loop_bounds : of->level_bounds;
}

struct file_calls {
    uint16_t (*file_size)(const lepsarvu_settings *settings, size_t *size);
    uint16_t (*write_file)(const lepsarvu_settings *settings, const lepsarvu_note *note, const int16_t *levels,
                           size_t levels_length, uint8_t *file, size_t file_length, size_t *size);
    uint16_t (*read_file)(const uint8_t *file, size_t file_length, int16_t *levels, size_t levels_length,
                          lepsarvu_settings *settings, lepsarvu_note *note);
    uint16_t (*check_file)(const uint8_t *file, size_t file_length, lepsarvu_settings *settings, lepsarvu_note *note);
};

struct pgm_calls {
    uint16_t (*pgm_size)(uint16_t columns, uint16_t rows, size_t *size);
    uint16_t (*write_pgm)(uint16_t columns, uint16_t rows, const uint8_t *picture, size_t picture_length,
                          uint8_t *file, size_t file_length, size_t *size);
    uint16_t (*read_pgm)(const uint8_t *file, size_t file_length, uint8_t *picture, size_t picture_length,
                         uint16_t *columns, uint16_t *rows);
    uint16_t (*check_pgm)(const uint8_t *file, size_t file_length, uint16_t *columns, uint16_t *rows);
};

/* The archive's functions; only functions.c names them. */
extern const struct pyramid_calls library_pyramid;
extern const struct file_calls library_file;
extern const struct pgm_calls library_pgm;

#endif
