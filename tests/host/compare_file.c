/* The file's functions, library beside plain C. */
#include "compare.h"

/* P5: a file with a black or a white other than 0 and 255 begins with the count 6, which readers that know neither
 * refuse; any other with 4. */
static int begins_right(const uint8_t *file, const lepsarvu_settings *s)
{
    int is_short = s->black == 0 && s->white == 255;
    return file[0] == (is_short ? 4 : 6) && file[1] == 0;
}

void compare_writing(struct run *run, const lepsarvu_settings *s)
{
    static struct lent settings, note, levels, file[2], size[2];
    uint16_t answers[2];
    size_t whole = 0, indices = draw_length(&run->draw, nodes_of(s));
    if (plain_file.file_size(s, &whole) != 0)
        whole = 28 + 2 * indices;
    size_t bytes = draw_length(&run->draw, whole) + (once_in(&run->draw, 3) ? below(&run->draw, 9) : 0);
    lepsarvu_note drawn = draw_note(&run->draw);
    const lepsarvu_settings *lent = lend_copy(&settings, s, sizeof *s, &run->draw);
    const lepsarvu_note *lent_note = lend_copy(&note, &drawn, sizeof drawn, &run->draw);
    const int16_t *lent_levels = lend_levels(run, s, &levels, indices);
    lend_pair(file, bytes, &run->draw);
    lend_pair(size, sizeof(size_t), &run->draw);
    for (int which = 0; which < 2; which++)
        answers[which] = FILES[which]->write_file(lent, lent_note, lent_levels, indices, start_of(&file[which]), bytes,
                                                  start_of(&size[which]));
    int passed = answers[0] == answers[1] && kept(&settings) && kept(&note) && kept(&levels) &&
                 same_pair(file, answers[0], whole) && same_pair(size, answers[0], sizeof(size_t)) &&
                 (answers[0] != 0 || begins_right(start_of(&file[0]), s));
    count(&run->tally, WRITE_FILE, answers[0], passed);
}

/* What a reader fills beside the level buffer, twice. */
struct filled {
    struct lent settings[2], note[2];
};

static void lend_filled(struct run *run, struct filled *it)
{
    lend_pair(it->settings, sizeof(lepsarvu_settings), &run->draw);
    lend_pair(it->note, sizeof(lepsarvu_note), &run->draw);
}

static int same_filled(const struct filled *it, uint16_t answer)
{
    return same_pair(it->settings, answer, it->settings[0].bytes) && same_pair(it->note, answer, it->note[0].bytes);
}

static void compare_check(struct run *run, struct lent *file)
{
    static struct filled it;
    uint16_t answers[2];
    lend_filled(run, &it);
    for (int w = 0; w < 2; w++)
        answers[w] =
            FILES[w]->check_file(start_of(file), file->bytes, start_of(&it.settings[w]), start_of(&it.note[w]));
    int passed = answers[0] == answers[1] && kept(file) && same_filled(&it, answers[0]);
    count(&run->tally, CHECK_FILE, answers[0], passed);
}

static void compare_read(struct run *run, struct lent *file, size_t indices)
{
    static struct filled it;
    static struct lent levels[2];
    uint16_t answers[2];
    lend_filled(run, &it);
    lend_pair(levels, indices * sizeof(int16_t), &run->draw);
    for (int w = 0; w < 2; w++)
        answers[w] = FILES[w]->read_file(start_of(file), file->bytes, start_of(&levels[w]), indices,
                                         start_of(&it.settings[w]), start_of(&it.note[w]));
    int passed = answers[0] == answers[1] && kept(file) && same_filled(&it, answers[0]) &&
                 same_pair(levels, answers[0], levels[0].bytes);
    count(&run->tally, READ_FILE, answers[0], passed);
}

static void compare_both(struct run *run, const uint8_t *drawn, size_t length)
{
    static struct lent file;
    lend_copy(&file, drawn, length, &run->draw);
    compare_check(run, &file);
    compare_read(run, &file, draw_length(&run->draw, shape_nodes(drawn, length)));
}

void compare_reading(struct run *run)
{
    static uint8_t drawn[MOST_DRAWN_FILE];
    compare_both(run, drawn, draw_file(&run->draw, run->most_side, drawn));
}

void compare_reading_shape(struct run *run, const lepsarvu_settings *s)
{
    static uint8_t drawn[MOST_DRAWN_FILE];
    compare_both(run, drawn, draw_file_of_shape(&run->draw, run->most_side, s, drawn));
}
