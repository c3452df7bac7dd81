/* Codes a PGM picture into a bale file, and shows what the file holds as a PGM picture: pgm IN.pgm OUT.bale BACK.pgm
 * The depth is the deepest that the size allows. examples/README.md has the commands that build and run it. */
#include <stdio.h>
#include <stdlib.h>

#include "lepsarvu.h"

enum { KERNEL = 4, BIN = 8, MOST_BYTES = 1 << 17 };

struct picture {
    uint16_t columns, rows;
    size_t length;
    uint8_t pixels[LEPSARVU_MOST_PIXELS];
};

static struct picture coded, shown;
static uint8_t file[MOST_BYTES];
static int16_t levels[LEPSARVU_MOST_NODES];
static int32_t work[LEPSARVU_MOST_NODES];

/* Ends the program where a call was refused. */
static void must(uint16_t answer)
{
    if (answer != 0) {
        fprintf(stderr, "refused %u\n", answer);
        exit(1);
    }
}

static void fail(const char *path, const char *what)
{
    fprintf(stderr, "%s: %s\n", path, what);
    exit(1);
}

/* Leaves what a path holds in `file`, and answers its bytes. */
static size_t load(const char *path)
{
    FILE *from = fopen(path, "rb");
    if (from == NULL)
        fail(path, "can't be read");
    size_t length = fread(file, 1, MOST_BYTES, from);
    if (ferror(from) || (length == MOST_BYTES && getc(from) != EOF))
        fail(path, "can't be read, or is too long");
    fclose(from);
    return length;
}

/* Puts the first bytes of `file` to a path. */
static void store(const char *path, size_t length)
{
    FILE *to = fopen(path, "wb");
    if (to == NULL || fwrite(file, 1, length, to) != length || fclose(to) != 0)
        fail(path, "can't be written");
}

static void read_picture(const char *path, struct picture *it)
{
    size_t length = load(path);
    must(lepsarvu_check_pgm(file, length, &it->columns, &it->rows));
    it->length = (size_t)it->columns * it->rows;
    must(lepsarvu_read_pgm(file, length, it->pixels, it->length, &it->columns, &it->rows));
}

/* The deepest pyramid of the picture's size, with the same bin at each level. A PGM picture may hold any grey: black is
 * 0 and white 255. */
static lepsarvu_settings settings_of(const struct picture *it)
{
    lepsarvu_settings settings = {
        .columns = it->columns, .rows = it->rows, .kernel = KERNEL, .black = 0, .white = 255};
    must(lepsarvu_deepest_depth(it->columns, it->rows, &settings.depth));
    for (int level = 0; level <= settings.depth; level++)
        settings.bins[level] = BIN;
    return settings;
}

/* Writes the picture's bale file, neither probe being fitted, and answers its bytes. */
static size_t write_bale(const lepsarvu_settings *settings, const struct picture *it, const char *path)
{
    const lepsarvu_note note = {
        .before_drier = {.kind = LEPSARVU_NOT_FITTED}, .at_press = {.kind = LEPSARVU_NOT_FITTED}};
    uint16_t nodes;
    size_t size;
    must(lepsarvu_total_nodes(settings, &nodes));
    must(lepsarvu_coding(settings, it->pixels, it->length, levels, nodes, work, nodes));
    must(lepsarvu_write_file(settings, &note, levels, nodes, file, sizeof file, &size));
    store(path, size);
    return size;
}

static void read_bale(const char *path, struct picture *it)
{
    lepsarvu_settings settings;
    lepsarvu_note note;
    uint16_t nodes;
    size_t length = load(path);
    must(lepsarvu_check_file(file, length, &settings, &note));
    must(lepsarvu_total_nodes(&settings, &nodes));
    must(lepsarvu_read_file(file, length, levels, nodes, &settings, &note));
    it->columns = settings.columns;
    it->rows = settings.rows;
    it->length = (size_t)settings.columns * settings.rows;
    must(lepsarvu_rebuilding(&settings, levels, nodes, it->pixels, it->length, work, nodes));
}

static void write_picture(const struct picture *it, const char *path)
{
    size_t size;
    must(lepsarvu_write_pgm(it->columns, it->rows, it->pixels, it->length, file, sizeof file, &size));
    store(path, size);
}

static int largest_difference(const struct picture *first, const struct picture *second)
{
    int largest = 0;
    for (size_t at = 0; at < first->length; at++)
        if (abs(first->pixels[at] - second->pixels[at]) > largest)
            largest = abs(first->pixels[at] - second->pixels[at]);
    return largest;
}

int main(int words, char **word)
{
    uint16_t bounds[LEPSARVU_SLOTS];
    if (words != 4)
        fail("usage", "pgm IN.pgm OUT.bale BACK.pgm");
    read_picture(word[1], &coded);
    lepsarvu_settings settings = settings_of(&coded);
    must(lepsarvu_level_bounds(&settings, bounds));
    size_t size = write_bale(&settings, &coded, word[2]);
    read_bale(word[2], &shown);
    write_picture(&shown, word[3]);
    int largest = largest_difference(&coded, &shown);
    printf("picture %u %u\nbale file of %zu bytes\n", coded.columns, coded.rows, size);
    printf("no pixel differs by more than %u grey levels\nlargest difference %d\n", bounds[0], largest);
    return largest > bounds[0];
}
