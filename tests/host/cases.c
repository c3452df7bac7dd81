/* Cases of jobs: see job.h. */
#include <string.h>

#include "job.h"

/* The calls that need settings and nothing else. */
static void settings_case(struct seeded *draw, lepsarvu_settings s, each_job *each)
{
    provide_settings(draw, s);
    each(DEEPEST_DEPTH);
    each(LEVEL_BOUNDS);
    provide(draw, BOUNDS, LEPSARVU_SLOTS);
    each(CLOSED_LOOP_BOUNDS);
    each(TOTAL_NODES);
    each(FILE_SIZE);
    each(PGM_SIZE);
}

/* Both codings of the picture, lent buffers that hold anything; what the last one leaves is rebuilt and written. */
static void code_case(struct seeded *draw, each_job *each)
{
    static const enum function CODERS[] = {CODING, CLOSED_LOOP_CODING, CODING};
    size_t indices = elements(LEVELS), places = elements(WORK);
    uint32_t first = below(draw, 2);
    for (uint32_t which = first; which < first + 2; which++) {
        provide(draw, LEVELS, indices);
        provide(draw, WORK, places);
        each(CODERS[which]);
    }
    provide(draw, WORK, places);
}

/* The file that was written becomes the one to read. */
static void shorten_file(void)
{
    size_t size;
    memcpy(&size, job.held[SIZE], sizeof size);
    lengthen(FILE_PART, size);
}

/* Both readers, each lent numbers that hold anything, so that what one leaves doesn't hide what the other does. */
static void read_pgm_case(struct seeded *draw, each_job *each)
{
    static const enum function READERS[] = {CHECK_PGM, READ_PGM};
    for (int which = 0; which < 2; which++) {
        provide(draw, COLUMNS, 1);
        provide(draw, ROWS, 1);
        each(READERS[which]);
    }
}

void lawful_case(struct seeded *draw, lepsarvu_settings s, each_job *each)
{
    settings_case(draw, s, each);
    provide(draw, PICTURE, pixels_of(&s));
    lengthen(LEVELS, nodes_of(&s));
    lengthen(WORK, nodes_of(&s));
    provide(draw, FILE_PART, LEPSARVU_MOST_FILE_BYTES);
    provide_note((lepsarvu_note){{LEPSARVU_PERCENTAGE, 0x40D00000}, {LEPSARVU_FAULT, 255}});
    draw_picture(draw, &s, job.held[PICTURE], pixels_of(&s));
    code_case(draw, each);
    each(REBUILDING);
    ask_pixel(draw, draw_inside(draw, s.columns), draw_inside(draw, s.rows));
    each(REBUILD_PIXEL);
    each(WRITE_FILE);
    shorten_file();
    each(CHECK_FILE);
    each(READ_FILE);
    provide(draw, FILE_PART, LEPSARVU_MOST_PGM_BYTES);
    each(WRITE_PGM);
    shorten_file();
    read_pgm_case(draw, each);
}

/* A file buffer's length: the file's, one that may be wrong, a small one or the largest. */
static size_t draw_file_length(struct seeded *draw, const lepsarvu_settings *s)
{
    size_t whole = 0;
    if (once_in(draw, 8))
        return below(draw, 60);
    if (plain_file.file_size(s, &whole) != 0 || once_in(draw, 3))
        return LEPSARVU_MOST_FILE_BYTES;
    return draw_length(draw, whole);
}

/* Writing the picture that is held, and reading a file that is drawn. */
static void drawn_pgm(struct seeded *draw, uint32_t most_side, each_job *each)
{
    size_t whole, pixels;
    if (plain_pgm.pgm_size(job.s.columns, job.s.rows, &whole) != 0 || once_in(draw, 3))
        whole = LEPSARVU_MOST_PGM_BYTES;
    provide(draw, FILE_PART, draw_length(draw, whole));
    each(WRITE_PGM);
    lengthen(FILE_PART, draw_pgm(draw, most_side, job.held[FILE_PART], &pixels));
    provide(draw, PICTURE, draw_length(draw, pixels));
    read_pgm_case(draw, each);
}

void drawn_case(struct seeded *draw, uint32_t most_side, each_job *each)
{
    lepsarvu_settings s = draw_settings(draw, most_side);
    size_t nodes = nodes_of(&s);
    settings_case(draw, s, each);
    provide(draw, PICTURE, draw_length(draw, pixels_of(&s)));
    lengthen(LEVELS, draw_length(draw, nodes));
    lengthen(WORK, draw_length(draw, nodes) + below(draw, 3));
    provide(draw, FILE_PART, draw_file_length(draw, &s));
    provide_note(draw_note(draw));
    draw_pixels(draw, &s, job.held[PICTURE], elements(PICTURE));
    code_case(draw, each);
    if (job.answer != 0 || once_in(draw, 2))
        draw_levels(draw, &s, (int16_t *)(void *)job.held[LEVELS], elements(LEVELS));
    each(REBUILDING);
    ask_pixel(draw, draw_along(draw, s.columns), draw_along(draw, s.rows));
    each(REBUILD_PIXEL);
    each(WRITE_FILE);
    lengthen(FILE_PART, draw_file(draw, most_side, job.held[FILE_PART]));
    provide(draw, LEVELS, draw_length(draw, shape_nodes(job.held[FILE_PART], elements(FILE_PART))));
    each(CHECK_FILE);
    each(READ_FILE);
    drawn_pgm(draw, most_side, each);
}
