/* Times of both codings and of rebuilding, the library beside plain C, of the codings beside each other, and of the
 * test of the pixels. */
#include "bench.h"

static uint16_t code(struct job *it)
{
    return PYRAMIDS[it->which]->coding(&it->settings, it->picture, it->pixels, it->levels, it->nodes, it->work,
                                       it->nodes);
}

static void coding(struct job *it)
{
    it->answer |= code(it);
}

static void closed_loop_coding(struct job *it)
{
    it->answer |= PYRAMIDS[it->which]->closed_loop_coding(&it->settings, it->picture, it->pixels, it->levels, it->nodes,
                                                          it->work, it->nodes);
}

static void rebuilding(struct job *it)
{
    it->answer |= PYRAMIDS[it->which]->rebuilding(&it->settings, it->levels, it->nodes, it->rebuilt, it->pixels,
                                                  it->work, it->nodes);
}

static void set_greys(struct job *it, uint16_t black, uint16_t white)
{
    it->settings.black = black;
    it->settings.white = white;
}

static void coding_all_greys(struct job *it)
{
    set_greys(it, 0, 255);
    coding(it);
}

static void coding_camera_greys(struct job *it)
{
    set_greys(it, CAMERA_BLACK, CAMERA_WHITE);
    coding(it);
}

/* Refused with 20, when all pixels have been looked at: only the last one is above white. */
static void refused_coding(struct job *it)
{
    uint8_t *last = &it->picture[it->pixels - 1], pixel = *last;
    set_greys(it, CAMERA_BLACK, CAMERA_WHITE);
    *last = CAMERA_WHITE + 1;
    it->answer |= code(it) != 20;
    *last = pixel;
}

static void must_agree_on_all(struct job *it)
{
    must_agree(it, coding);
    must_agree(it, rebuilding);
    must_agree(it, closed_loop_coding);
    must_agree(it, rebuilding);
    must_agree(it, refused_coding);
}

static void compare_sizes(struct job *it)
{
    print_heading("node");
    for (int size = 0; size < SIZES; size++) {
        for (uint16_t kernel = 3; kernel <= 6; kernel++) {
            prepare(it, size, kernel);
            must_agree_on_all(it);
            set_greys(it, CAMERA_BLACK, CAMERA_WHITE);
            must_agree_on_all(it);
        }
        prepare(it, size, 4);
        compare_times("coding", it, coding);
        compare_times("rebuilding", it, rebuilding);
        compare_times("closed-loop coding", it, closed_loop_coding);
    }
}

/* How many times as long as the second call the first takes one implementation. */
static double times_as_long(struct job *it, call *first, call *second, int which)
{
    double best[2];
    best_times(it, (const struct timed[2]){{first, which}, {second, which}}, best);
    return best[0] / best[1];
}

static void compare_manners(struct job *it)
{
    puts("\nHow many times as long as coding closed-loop coding takes:\n");
    puts("| size | library | plain C |\n|---|---|---|");
    for (int size = 0; size < SIZES; size++) {
        prepare(it, size, 4);
        double library = times_as_long(it, closed_loop_coding, coding, 0);
        double plain = times_as_long(it, closed_loop_coding, coding, 1);
        printf("| %3u by %3u | %7.2f | %7.2f |\n", it->settings.columns, it->settings.rows, library, plain);
    }
}

/* An implementation may test the pixels of any picture: its first ratio is 1 then, and the second tells the cost. */
static void compare_greys(struct job *it)
{
    puts("\nThe test of the pixels: how many times as long as coding with black 0 and white 255 it takes to code the");
    puts("same picture with 16 and 235; and to refuse one for its last pixel: the test and all checks before it:\n");
    puts("| size | library 16 to 235 | plain C 16 to 235 | library refuses | plain C refuses |");
    puts("|---|---|---|---|---|");
    for (int size = 0; size < SIZES; size++) {
        double ratios[4];
        prepare(it, size, 4);
        for (int which = 0; which < 2; which++) {
            ratios[which] = times_as_long(it, coding_camera_greys, coding_all_greys, which);
            ratios[2 + which] = times_as_long(it, refused_coding, coding_all_greys, which);
        }
        printf("| %3u by %3u | %17.3f | %17.3f | %15.3f | %15.3f |\n", it->settings.columns, it->settings.rows,
               ratios[0], ratios[1], ratios[2], ratios[3]);
    }
}

int main(void)
{
    static struct job it;
    compare_sizes(&it);
    compare_manners(&it);
    compare_greys(&it);
    return it.answer != 0;
}
