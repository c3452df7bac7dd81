/* Codes a picture, writes its bale file to memory, reads the file back, rebuilds the picture, and prints the bound and
 * the largest difference found; then the last two of the same picture coded closed-loop, and one pixel of the file,
 * rebuilt without the others. examples/README.md has the commands that build and run it. */
#include <stdio.h>
#include <stdlib.h>

#include "lepsarvu.h"

/* The picture's size, and the place of the pixel that is looked at alone. */
enum { COLUMNS = 97, ROWS = 65, PIXELS = COLUMNS * ROWS, COLUMN = 40, ROW = 30 };

/* Of a camera that delivers grey from 16 to 235. Slot l of the bins is of level l; a slot above the depth holds 0. */
static const lepsarvu_settings settings = {
    .columns = COLUMNS,
    .rows = ROWS,
    .depth = 5,
    .kernel = 4,
    .black = 16,
    .white = 235,
    .bins = {12, 8, 6, 4, 3, 2, 0},
};

/* 6.5 percent before the drier, as the bits of a float; not fitted at the press. */
static const lepsarvu_note note = {
    .before_drier = {.kind = LEPSARVU_PERCENTAGE, .number = 0x40D00000},
    .at_press = {.kind = LEPSARVU_NOT_FITTED, .number = 0},
};

static uint8_t picture[PIXELS], shown[PIXELS], file[LEPSARVU_MOST_FILE_BYTES];
static int16_t levels[LEPSARVU_MOST_NODES];
static int32_t work[LEPSARVU_MOST_NODES];

/* Ends the program where a call was refused. */
static void must(const char *call, uint16_t answer)
{
    if (answer != 0) {
        fprintf(stderr, "%s: refused %u\n", call, answer);
        exit(1);
    }
}

/* Every pixel must lie between black and white. */
static void make_picture(void)
{
    int greys = settings.white - settings.black + 1;
    for (int at = 0; at < PIXELS; at++) {
        int column = at % COLUMNS, row = at / COLUMNS;
        picture[at] = (uint8_t)(settings.black + (column * row / 16 + 3 * row + 37 * (column % 5)) % greys);
    }
}

/* Of the picture and what is shown of it. */
static int largest_difference(void)
{
    int largest = 0;
    for (int at = 0; at < PIXELS; at++)
        if (abs(picture[at] - shown[at]) > largest)
            largest = abs(picture[at] - shown[at]);
    return largest;
}

/* The calls for the bounds and the coding are others; a file is as long, and is written, read and rebuilt alike. */
static int code_closed_loop(uint16_t nodes)
{
    uint16_t bounds[LEPSARVU_SLOTS];
    must("bounds", lepsarvu_closed_loop_bounds(&settings, bounds));
    must("coding", lepsarvu_closed_loop_coding(&settings, picture, PIXELS, levels, nodes, work, nodes));
    must("rebuilding", lepsarvu_rebuilding(&settings, levels, nodes, shown, PIXELS, work, nodes));
    printf("closed-loop: bound %u, largest difference %d\n", bounds[0], largest_difference());
    return largest_difference() > bounds[0];
}

/* No picture and no work buffer is lent. Answers whether the pixel is not the one of the picture rebuilt whole. */
static int look_at_pixel(size_t size, uint16_t nodes, uint8_t whole)
{
    lepsarvu_settings read_settings;
    lepsarvu_note read_note;
    uint16_t read;
    uint8_t pixel;
    must("reading", lepsarvu_read_file(file, size, levels, nodes, &read_settings, &read_note));
    must("one pixel", lepsarvu_rebuild_pixel(&read_settings, levels, nodes, COLUMN, ROW, &pixel, &read));
    printf("pixel at column %d, row %d: %u, %u indices read\n", COLUMN, ROW, pixel, read);
    return pixel != whole;
}

int main(void)
{
    lepsarvu_settings read_settings;
    lepsarvu_note read_note;
    uint16_t nodes, bounds[LEPSARVU_SLOTS];
    size_t size;
    make_picture();
    must("total nodes", lepsarvu_total_nodes(&settings, &nodes));
    must("bounds", lepsarvu_level_bounds(&settings, bounds));
    must("coding", lepsarvu_coding(&settings, picture, PIXELS, levels, nodes, work, nodes));
    must("writing", lepsarvu_write_file(&settings, &note, levels, nodes, file, sizeof file, &size));
    must("reading", lepsarvu_read_file(file, size, levels, nodes, &read_settings, &read_note));
    must("rebuilding", lepsarvu_rebuilding(&read_settings, levels, nodes, shown, PIXELS, work, nodes));
    printf("picture %u by %u in a file of %zu bytes\n", read_settings.columns, read_settings.rows, size);
    printf("black %u, white %u\n", read_settings.black, read_settings.white);
    printf("bound %u, largest difference %d\n", bounds[0], largest_difference());
    uint8_t whole = shown[ROW * COLUMNS + COLUMN];
    return largest_difference() > bounds[0] || code_closed_loop(nodes) || look_at_pixel(size, nodes, whole);
}
