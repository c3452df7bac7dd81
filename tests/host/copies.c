/* Lists of archive copies: a copy reads the file at hand, rebuilds its picture, codes that with settings of its own and
 * writes it with the readings that it read. See lists.h. */
#include "lists.h"

/* Two file buffers, one of which holds the file at hand in its first bytes, and what was coded for each. */
static struct lent file[2];
static size_t file_bytes[2];
static struct coded coded[2];
static int at_hand;

/* What is read of a file, and what is lent besides; `own` are a copy's own settings. */
static struct lent settings, note, own, levels, picture, work, size;

/* The readings of the first file, as its writer was given them. */
static lepsarvu_note readings;

/* The steps of a copy answer 0, a refusal, or BROKEN where something was changed that may not be. */
enum { BROKEN = 0xFFFF };

/* The settings that are read are those of the file's coding. */
static uint16_t read_at_hand(int careless, size_t nodes)
{
    size_t indices = step_length(careless, nodes);
    lend_sealed(&settings, sizeof(lepsarvu_settings));
    lend_sealed(&note, sizeof(lepsarvu_note));
    lend_sealed(&levels, indices * sizeof(int16_t));
    uint16_t answer = library_file.read_file(start_of(&file[at_hand]), file_bytes[at_hand], start_of(&levels), indices,
                                             start_of(&settings), start_of(&note));
    int guards = guards_kept(&settings) && guards_kept(&note) && guards_kept(&levels) && kept(&file[at_hand]);
    int same = kept(&settings) && kept(&note) && kept(&levels);
    int right = answer != 0 ? same : memcmp(start_of(&settings), &coded[at_hand].s, sizeof(lepsarvu_settings)) == 0;
    return guards && right ? answer : BROKEN;
}

/* The work buffer's guards, and what a call on it may not write. */
static int work_kept(const lepsarvu_settings *s, uint16_t answer)
{
    return kept_from(&work, answer == 0 ? nodes_of(s) * sizeof(int32_t) : 0);
}

/* What is rebuilt is held to what was coded for the file. */
static uint16_t rebuild(struct seen *seen, int careless)
{
    const lepsarvu_settings *s = &coded[at_hand].s;
    size_t pixels = step_length(careless, pixels_of(s)), places = step_length(careless, nodes_of(s));
    seal(&settings);
    seal(&levels);
    lend_sealed(&picture, pixels);
    lend_sealed(&work, places * sizeof(int32_t));
    uint16_t answer = library_pyramid.rebuilding(start_of(&settings), start_of(&levels), levels.bytes / sizeof(int16_t),
                                                 start_of(&picture), pixels, start_of(&work), places);
    int guards = kept(&settings) && kept(&levels) && guards_kept(&picture) && work_kept(s, answer);
    int right = answer == 0 ? rebuilt_right(seen, &coded[at_hand], start_of(&work), start_of(&picture))
                            : kept(&picture);
    return guards && right ? answer : BROKEN;
}

/* Codes the picture that was rebuilt, or the first one, open-loop or closed-loop. */
static uint16_t code(struct seen *seen, const lepsarvu_settings *s, int careless)
{
    enum manner manner = draw_manner();
    size_t indices = step_length(careless, nodes_of(s)), places = step_length(careless, nodes_of(s));
    lend_copy(&own, s, sizeof *s, &draw);
    seal(&picture);
    lend_sealed(&levels, indices * sizeof(int16_t));
    lend_sealed(&work, places * sizeof(int32_t));
    uint16_t answer = coding_in(manner, &library_pyramid)(start_of(&own), start_of(&picture), picture.bytes,
                                                          start_of(&levels), indices, start_of(&work), places);
    int guards = kept(&own) && kept(&picture) && guards_kept(&levels) && work_kept(s, answer);
    int right = answer == 0 ? take_coded(&coded[1 - at_hand], manner, s, start_of(&picture), start_of(&work))
                            : kept(&levels);
    seen->turned_down += answer == 20;
    if (answer == 20 && pixels_inside(s, start_of(&picture), picture.bytes))
        return BROKEN;
    return guards && right ? answer : BROKEN;
}

/* Writes what was coded, with the readings that were read, to the file buffer that is not at hand. */
static uint16_t write(const lepsarvu_settings *s, int careless)
{
    struct lent *to = &file[1 - at_hand];
    size_t whole = 0;
    plain_file.file_size(s, &whole);
    size_t bytes = step_length(careless, whole) + (once_in(&draw, 3) ? below(&draw, 4) : 0);
    seal(&note);
    seal(&levels);
    lend_sealed(to, bytes);
    lend_sealed(&size, sizeof whole);
    uint16_t answer = library_file.write_file(start_of(&own), start_of(&note), start_of(&levels),
                                              levels.bytes / sizeof(int16_t), start_of(to), bytes, start_of(&size));
    int guards = kept(&own) && kept(&note) && kept(&levels) && kept_from(to, answer == 0 ? whole : 0) &&
                 guards_kept(&size);
    memcpy(&file_bytes[1 - at_hand], start_of(&size), sizeof whole);
    return guards && (answer != 0 ? kept(&size) : file_bytes[1 - at_hand] == whole) ? answer : BROKEN;
}

/* The file that was written is now at hand. */
static void take_file(void)
{
    at_hand = 1 - at_hand;
    seal(&file[at_hand]);
}

/* One copy: the answer of its first call that was refused, which `call` names, or of its last. */
static uint16_t copy(struct seen *seen, struct list *list, size_t *nodes, int *call)
{
    lepsarvu_settings s = draw_step(list);
    int careless = (int)below(&draw, 10); /* in which call, if any */
    uint16_t answer;
    if ((answer = read_at_hand(careless == (*call = 0), *nodes)) != 0 ||
        (answer = rebuild(seen, careless == (*call = 1))) != 0 ||
        (answer = code(seen, &s, careless == (*call = 2))) != 0 || (answer = write(&s, careless == (*call = 3))) != 0)
        return answer;
    take_file();
    *nodes = nodes_of(&s);
    seen->other_greys += s.black != list->black || s.white != list->white;
    return take_bounds(list, &coded[at_hand]) ? 0 : BROKEN;
}

/* The first picture's file. */
static int make_first(struct seen *seen, struct list *list, const lepsarvu_settings *s, const uint8_t *first)
{
    readings = draw_lawful_note(&draw);
    at_hand = 0;
    lend_copy(&picture, first, pixels_of(s), &draw);
    lend_copy(&note, &readings, sizeof readings, &draw);
    if (code(seen, s, 0) != 0 || write(s, 0) != 0)
        return 0;
    take_file();
    return take_bounds(list, &coded[at_hand]);
}

/* What the file at hand shows after the list: a picture close to the first one, and the first readings. */
static int shows(struct seen *seen, const struct list *list, size_t nodes, const uint8_t *first, size_t pixels)
{
    if (read_at_hand(0, nodes) != 0 || rebuild(seen, 0) != 0)
        return 0;
    return memcmp(start_of(&note), &readings, sizeof readings) == 0 && picture.bytes == pixels &&
           close_enough(seen, list, first, start_of(&picture), pixels);
}

int run_copies(struct seen *seen, struct list *list)
{
    static uint8_t first[LEPSARVU_MOST_PIXELS];
    lepsarvu_settings s = draw_for_size(&draw, list->columns, list->rows, list->most_bin);
    size_t nodes = nodes_of(&s);
    int call = 0;
    s.black = list->black;
    s.white = list->white;
    draw_picture(&draw, &s, first, pixels_of(&s));
    if (!make_first(seen, list, &s, first))
        return 0;
    for (uint32_t step = 0; step < list->steps; step++) {
        uint16_t answer = copy(seen, list, &nodes, &call);
        if (answer == BROKEN || !kept(&file[at_hand]))
            return 0;
        seen->accepted += answer == 0;
        seen->refused += answer != 0;
        seen->refused_call[call] += answer != 0;
    }
    seen->all_accepted += list->accepted == MOST_LIST + 1;
    return shows(seen, list, nodes, first, pixels_of(&s));
}
