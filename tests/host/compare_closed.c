/* What closed-loop coding left, through the library's own file and rebuilding. */
#include "compare.h"

/* A file and its length, what its reader fills, and what its rebuilding fills. */
static struct lent file, size, settings, note, levels, picture, work;

static void lend_all(struct run *run, const lepsarvu_settings *s, size_t whole)
{
    const struct {
        struct lent *it;
        size_t bytes;
    } PARTS[] = {
        {&file, whole},
        {&size, sizeof(size_t)},
        {&settings, sizeof(lepsarvu_settings)},
        {&note, sizeof(lepsarvu_note)},
        {&levels, nodes_of(s) * sizeof(int16_t)},
        {&picture, pixels_of(s)},
        {&work, nodes_of(s) * sizeof(int32_t)},
    };
    for (size_t at = 0; at < sizeof PARTS / sizeof *PARTS; at++)
        lend(PARTS[at].it, PARTS[at].bytes, &run->draw);
}

/* The writer accepts the indices, and the reader finds them, the settings and the readings. */
static int files(const lepsarvu_settings *s, const int16_t *coded, size_t whole)
{
    static const lepsarvu_note NOTE = {{LEPSARVU_PERCENTAGE, 0x40D00000}, {LEPSARVU_FAULT, 255}};
    size_t nodes = nodes_of(s);
    return library_file.write_file(s, &NOTE, coded, nodes, start_of(&file), whole, start_of(&size)) == 0 &&
           memcmp(start_of(&size), &whole, sizeof whole) == 0 &&
           library_file.read_file(start_of(&file), whole, start_of(&levels), nodes, start_of(&settings),
                                  start_of(&note)) == 0 &&
           memcmp(start_of(&settings), s, sizeof *s) == 0 && memcmp(start_of(&note), &NOTE, sizeof NOTE) == 0 &&
           memcmp(start_of(&levels), coded, nodes * sizeof *coded) == 0;
}

/* The rebuilding accepts what was read, and leaves the values that the coder left. */
static int rebuilds(const lepsarvu_settings *s, const int32_t *values)
{
    size_t nodes = nodes_of(s);
    return library_pyramid.rebuilding(start_of(&settings), start_of(&levels), nodes, start_of(&picture), pixels_of(s),
                                      start_of(&work), nodes) == 0 &&
           memcmp(start_of(&work), values, nodes * sizeof *values) == 0;
}

int files_and_rebuilds(struct run *run, const lepsarvu_settings *s, const int16_t *coded, const int32_t *values)
{
    size_t whole = 0;
    plain_file.file_size(s, &whole);
    lend_all(run, s, whole);
    return files(s, coded, whole) && rebuilds(s, values) && guards_kept(&file) && guards_kept(&settings) &&
           guards_kept(&note) && guards_kept(&levels) && guards_kept(&picture) && guards_kept(&work);
}
