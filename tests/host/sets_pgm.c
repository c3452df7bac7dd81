/* Every set of the rules of PGM files is broken, and the first in the order of the function must be the answer. What is
 * expected here comes from the set itself, and not from plain C, which is compared too. */
#include "compare.h"

enum { HEADERS_OK = 4, HEADERS = 24, SIZES_OK = 4, SIZES = 10, GREYS_OK = 1, GREYS = 8, OFFSETS = 3 };

/* Headers with columns, rows and greatest grey; the first are lawful. The pixels that follow are no white space. */
static const char *const HEADER[HEADERS] = {
    "P5\n%d %d\n%d\n",     "P5\t%03d\r%05d %05d\r", "P5#\n%d# 2\n%d#\n#\n%d ", "P5 \t\r\n#\r #\n%d\n%d\n%d\t",
    "P4\n%d %d\n%d\n",     "p5\n%d %d\n%d\n",       " P5\n%d %d\n%d\n",        "P5%d %d\n%d\n",
    "P5\n%06d %d\n%d\n",   "P5\n%d %06d\n%d\n",     "P5\n%d %d\n%06d\n",       "P5\n+%d %d\n%d\n",
    "P5\n%d,%d\n%d\n",     "P5\n%d %d\n-%d\n",      "P5\v%d %d\n%d\n",         "P5\n%d %d\f%d\n",
    "P5\n%d %d\n%d",       "P5\n%d %d\n%d\v",       "P5\n%d %d\n%d#\n",        "P5\n%d %d\n%d# %%\n\n",
    "P5\n%d #%d\r%d\r",    "P5#%d %d %d ",          "P5\n%d %d %d.\n",         "P5\n0x%d %d\n%d\n",
};

static const uint16_t SIZE_OF[SIZES][2] = {{2, 2},   {3, 2},   {129, 2}, {2, 129}, {1, 3},
                                           {3, 1},   {0, 3},   {130, 2}, {2, 130}, {131, 131}};
static const int GREY[GREYS] = {255, 0, 1, 254, 256, 511, 65535, 65791};

/* How many more than is right. */
static const int OFFSET[OFFSETS] = {0, -1, 1};

/* What a case breaks: an index into each list above. */
struct broken {
    int header, size, grey, pixels, picture;
};

static size_t product(int size)
{
    return (size_t)SIZE_OF[size][0] * SIZE_OF[size][1];
}

/* The number that is due in the reader's order; 5 is only for the one that is lent a picture. */
static uint16_t first_of(const struct broken *it)
{
    return it->header >= HEADERS_OK ? 16
           : it->size >= SIZES_OK   ? 1
           : it->grey >= GREYS_OK   ? 17
           : it->pixels > 0         ? 18
           : it->picture > 0        ? 5
                                    : 0;
}

static void expect(struct run *run, enum function function, uint16_t answer, uint16_t expected)
{
    if (answer != expected)
        fprintf(stderr, "case %" PRIu64 ": %s should answer %u\n", run->tally.number, FUNCTION_NAMES[function],
                expected);
    count(&run->tally, function, answer, answer == expected);
}

static void read_set(struct run *run, const struct broken *it)
{
    static uint8_t file[MOST_DRAWN_PGM];
    size_t right = product(it->size);
    if (right == 0 && (OFFSET[it->pixels] < 0 || OFFSET[it->picture] < 0))
        return;
    int start = snprintf((char *)file, sizeof file, HEADER[it->header], SIZE_OF[it->size][0], SIZE_OF[it->size][1],
                         GREY[it->grey]);
    size_t pixels = right + (size_t)OFFSET[it->pixels], length = (size_t)start + pixels;
    memset(file + start, 'p', pixels);
    struct broken without_picture = *it;
    without_picture.picture = 0;
    run->tally.number++;
    expect(run, CHECK_PGM, compare_check_pgm(run, file, length), first_of(&without_picture));
    uint16_t answer = compare_read_pgm(run, file, length, right + (size_t)OFFSET[it->picture], NULL);
    expect(run, READ_PGM, answer, first_of(it));
}

/* A file buffer of the file's length, of one less, which is broken, or of one more, which is not. */
static void write_set(struct run *run, int size, int picture, int file)
{
    static const uint8_t PIXELS[MOST_DRAWN_PIXELS + 1];
    uint16_t columns = SIZE_OF[size][0], rows = SIZE_OF[size][1];
    if (product(size) == 0 && OFFSET[picture] < 0)
        return;
    size_t header = (size_t)snprintf(NULL, 0, "P5\n%d %d\n255\n", columns, rows);
    size_t length = product(size) + (size_t)OFFSET[picture], bytes = header + product(size) + (size_t)OFFSET[file];
    uint16_t expected = size >= SIZES_OK ? 1 : picture > 0 ? 5 : OFFSET[file] < 0 ? 8 : 0;
    run->tally.number++;
    expect(run, WRITE_PGM, compare_write_pgm(run, columns, rows, PIXELS, length, bytes), expected);
}

void every_set_pgm(struct run *run)
{
    struct broken it;
    for (it.header = 0; it.header < HEADERS; it.header++)
        for (it.size = 0; it.size < SIZES; it.size++)
            for (it.grey = 0; it.grey < GREYS; it.grey++)
                for (it.pixels = 0; it.pixels < OFFSETS; it.pixels++)
                    for (it.picture = 0; it.picture < OFFSETS; it.picture++)
                        read_set(run, &it);
    for (int size = 0; size < SIZES; size++)
        for (int picture = 0; picture < OFFSETS; picture++)
            for (int file = 0; file < OFFSETS; file++)
                write_set(run, size, picture, file);
}
