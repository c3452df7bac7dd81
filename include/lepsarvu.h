/* Lepsarvu: the lint picture pyramid, its bale file and PGM pictures, for controllers that link target/staticlib/liblepsarvu.a.
 *
 * Every function is proved for all arguments: it stays inside what it is lent, it ends, and it answers and leaves
 * exactly what docs/CLAIMS.md says. What a caller owes is only what C asks anyway: each pointer points to as many
 * elements as the length beside it (or its type) says, aligned, and no two of them overlap if one is written.
 * A length may be any number; a wrong one is refused. Where a length is 0 the pointer still must not be null.
 *
 * Every function answers 0, or a refusal; a refused call has changed nothing that it was lent.
 *
 *    1  columns or rows are outside 2 to 129
 *    2  the kernel is not 3 to 6
 *    3  a bin slot breaks its rule
 *    4  a reading breaks its rule, or its kind is above 2
 *    5  the picture's length is not columns times rows
 *    6  the level buffer's length is not the number of nodes
 *    7  the work buffer is shorter than the number of nodes
 *    8  the writer's file buffer is shorter than the file
 *    9  the file ends before a count or a section that it must have is whole
 *   10  a count is not the one that it must be
 *   11  an index times its bin is outside -4,096 to 4,096
 *   12  bytes follow the last section
 *   13  the depth is above 6
 *   14  2 to the depth does not divide columns - 1
 *   15  2 to the depth does not divide rows - 1
 *   16  the header of the PGM file is bad
 *   17  the greatest grey of the PGM file is not 255
 *   18  the PGM file has fewer or more pixels than columns times rows
 *   19  black is not below white, or white is above 255
 *   20  a pixel is below black or above white
 *   21  the pixel that is asked for lies outside the picture
 *
 * Where several apply, the first in the order that is said beside the function is the answer.
 *
 * Settings: 2 to 129 columns and rows; a depth of 0 to 6 such that 2 to the depth divides columns - 1 and rows - 1; a
 * kernel of 3 to 6; the black and the white of the camera, black below white and white at most 255; and seven bins,
 * slot l for level l: 1 to 255 in slots 0 to the depth, 0 in the slots above it. Every pixel that is coded lies between
 * black and white, both ends allowed, and so does every pixel that is shown.
 * Level l has (columns - 1) / 2^l + 1 columns and (rows - 1) / 2^l + 1 rows; the number of nodes is that of levels 0
 * to the depth together, at most 22,359.
 *
 * A reading is a kind and a number: not fitted, with number 0; a percentage, with the bits of a 32-bit float whose sign
 * bit is clear and which is at most 100; or a fault code of 1 to 255.
 *
 * A PGM file is Netpbm's raw form: P5, then columns, rows and the greatest grey in decimal, one to five digits each,
 * with white space before each and one white space byte before the pixels, which are bytes, row after row. White space
 * is space, tab, newline or carriage return; a comment from # up to and with the next newline counts as white space
 * before a number. It is written in a single form: P5, newline, columns, space, rows, newline, 255, newline, pixels.
 */
#ifndef LEPSARVU_H
#define LEPSARVU_H

#include <stddef.h>
#include <stdint.h>

#ifdef __cplusplus
extern "C" {
#endif

enum {
    LEPSARVU_SLOTS = 7,
    LEPSARVU_MOST_NODES = 22359,
    LEPSARVU_MOST_PIXELS = 16641,
    LEPSARVU_MOST_FILE_BYTES = 44774,
    LEPSARVU_MOST_PGM_BYTES = 16656
};

/* The kinds of a reading. */
enum { LEPSARVU_NOT_FITTED = 0, LEPSARVU_PERCENTAGE = 1, LEPSARVU_FAULT = 2 };

typedef struct lepsarvu_settings {
    uint16_t columns;
    uint16_t rows;
    uint16_t depth;
    uint16_t kernel;
    uint16_t black;
    uint16_t white;
    uint16_t bins[LEPSARVU_SLOTS];
} lepsarvu_settings;

typedef struct lepsarvu_reading {
    uint32_t kind;
    uint32_t number;
} lepsarvu_reading;

/* The two readings of a bale. */
typedef struct lepsarvu_note {
    lepsarvu_reading before_drier;
    lepsarvu_reading at_press;
} lepsarvu_note;

/* The functions take settings as 13 numbers of 16 bits, one after the other, and a note as 4 of 32 bits. */
#ifdef __cplusplus
static_assert(sizeof(lepsarvu_settings) == 13 * sizeof(uint16_t), "settings have no padding");
static_assert(sizeof(lepsarvu_note) == 4 * sizeof(uint32_t), "a note has no padding");
#else
_Static_assert(sizeof(lepsarvu_settings) == 13 * sizeof(uint16_t), "settings have no padding");
_Static_assert(sizeof(lepsarvu_note) == 4 * sizeof(uint32_t), "a note has no padding");
#endif

/* Codes a picture, row after row. Leaves the indices of all levels, the deepest first, in levels, and the averages of
 * all levels, in the same order, in the first places of work; places of work after them keep their contents.
 * Refused: 1, 13, 14, 15, 2, 19, 3, 5, 6, 7, 20. */
uint16_t lepsarvu_coding(const lepsarvu_settings *settings, const uint8_t *picture, size_t picture_length,
                         int16_t *levels, size_t levels_length, int32_t *work, size_t work_length);

/* The same closed-loop: the top is coded as above, and each lower level is predicted from the rebuilt values of the
 * level above, which its reader will have, and not from the averages. The file and the rebuilding are the same for
 * both. Leaves in the first places of work, instead of the averages, the unclamped rebuilt values of all levels, which
 * are those that lepsarvu_rebuilding leaves there. Refused: 1, 13, 14, 15, 2, 19, 3, 5, 6, 7, 20. */
uint16_t lepsarvu_closed_loop_coding(const lepsarvu_settings *settings, const uint8_t *picture, size_t picture_length,
                                     int16_t *levels, size_t levels_length, int32_t *work, size_t work_length);

/* Rebuilds a picture from the indices of all levels. Leaves the picture, clamped to black and white, in picture, and
 * the unclamped values of all levels in the first places of work; places of work after them keep their contents.
 * Refused: 1, 13, 14, 15, 2, 19, 3, 5, 6, 7, 11. */
uint16_t lepsarvu_rebuilding(const lepsarvu_settings *settings, const int16_t *levels, size_t levels_length,
                             uint8_t *picture, size_t picture_length, int32_t *work, size_t work_length);

/* Rebuilds one pixel from the indices of all levels: leaves in pixel what lepsarvu_rebuilding leaves at that column and
 * row, and in read how many indices it read: one at depth 0, else at most 10 + 16 * (depth - 1). Of each level it reads
 * the indices of a few columns and rows around the pixel, and no others are looked at: they may be unlawful.
 * Refused: 1, 13, 14, 15, 2, 19, 3, 6, 21, and 11 for an index that is read. */
uint16_t lepsarvu_rebuild_pixel(const lepsarvu_settings *settings, const int16_t *levels, size_t levels_length,
                                uint16_t column, uint16_t row, uint8_t *pixel, uint16_t *read);

/* Leaves in bounds, slot l for level l, how far a rebuilt value of a level can lie from its average; 0 in the slots
 * above the depth. Slot 0 is how many grey levels a shown pixel can differ from the picture that was coded. They hold
 * of a file whichever coding made it: those of closed-loop coding, below, are never above them.
 * Refused: 1, 13, 14, 15, 2, 19, 3. */
uint16_t lepsarvu_level_bounds(const lepsarvu_settings *settings, uint16_t bounds[7]);

/* The same where the picture was coded by lepsarvu_closed_loop_coding: half the level's own bin, rounded down. A file
 * does not tell which coding made it. Refused: 1, 13, 14, 15, 2, 19, 3. */
uint16_t lepsarvu_closed_loop_bounds(const lepsarvu_settings *settings, uint16_t bounds[7]);

/* Leaves in depth the deepest depth that a size allows. Refused: 1. */
uint16_t lepsarvu_deepest_depth(uint16_t columns, uint16_t rows, uint16_t *depth);

/* Leaves in nodes the number of nodes of all levels: the length of the level buffer.
 * Refused: 1, 13, 14, 15, 2, 19, 3. */
uint16_t lepsarvu_total_nodes(const lepsarvu_settings *settings, uint16_t *nodes);

/* Leaves in size the bytes of a bale file of these settings. Refused: 1, 13, 14, 15, 2, 19, 3. */
uint16_t lepsarvu_file_size(const lepsarvu_settings *settings, size_t *size);

/* Writes a bale file of settings, two readings and the indices of all levels at the start of file, and leaves its
 * bytes in size; bytes of file after it keep their contents. A file with a black or a white other than 0 and 255 has
 * 4 bytes more than one without, and a reader that knows no black and white refuses it with 10.
 * Refused: 1, 13, 14, 15, 2, 19, 3, 4, 6, 8, 11. */
uint16_t lepsarvu_write_file(const lepsarvu_settings *settings, const lepsarvu_note *note, const int16_t *levels,
                             size_t levels_length, uint8_t *file, size_t file_length, size_t *size);

/* Reads a bale file. Leaves its settings, its readings, and the indices of all levels in levels.
 * Refused, in file order: 9, 10, 9, 10, 1, 13, 14, 15, 2, 19 of the shape, the second 10 where its six numbers say
 * black 0 and white 255; then 6; 9, 10, 9, 3 of the bins; 9, 10, 9, 4 of the readings; 9, 10, 9, 11 of each level; 12. */
uint16_t lepsarvu_read_file(const uint8_t *file, size_t file_length, int16_t *levels, size_t levels_length,
                            lepsarvu_settings *settings, lepsarvu_note *note);

/* The same of a file whose indices nobody asks for: no level buffer is lent, and 6 is not given. */
uint16_t lepsarvu_check_file(const uint8_t *file, size_t file_length, lepsarvu_settings *settings,
                             lepsarvu_note *note);

/* Leaves in size the bytes of a PGM file, as it is written here, of a picture of this size. Refused: 1. */
uint16_t lepsarvu_pgm_size(uint16_t columns, uint16_t rows, size_t *size);

/* Writes a picture as a PGM file at the start of file, and leaves its bytes in size; bytes of file after it keep their
 * contents. Refused: 1, 5, 8. */
uint16_t lepsarvu_write_pgm(uint16_t columns, uint16_t rows, const uint8_t *picture, size_t picture_length,
                            uint8_t *file, size_t file_length, size_t *size);

/* Reads a PGM file. Leaves its columns and rows in columns and rows, and its pixels in picture, whose length must be
 * columns times rows of the file. Refused: 16, 1, 17, 18, 5. */
uint16_t lepsarvu_read_pgm(const uint8_t *file, size_t file_length, uint8_t *picture, size_t picture_length,
                           uint16_t *columns, uint16_t *rows);

/* The same of a file whose pixels nobody asks for yet: no picture is lent, and 5 is not given.
 * Refused: 16, 1, 17, 18. */
uint16_t lepsarvu_check_pgm(const uint8_t *file, size_t file_length, uint16_t *columns, uint16_t *rows);

#ifdef __cplusplus
}
#endif

#endif
