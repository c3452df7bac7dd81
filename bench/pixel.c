/* Times of rebuilding single pixels, the library beside plain C, and of the same pictures rebuilt whole. */
#include "bench.h"

/* The shapes at one depth, of all sides that it divides. */
struct shapes {
    const char *name;
    uint16_t depth, smallest_side;
};

static const struct shapes SHAPES[] = {{"drawn, depth 2", 2, 5}, {"drawn, depth 4", 4, 17}};

static void rebuilding_pixels(struct job *it)
{
    for (int at = 0; at < ASKED; at++) {
        struct asked_pixel *one = &it->asked[at];
        it->answer |= PYRAMIDS[it->which]->rebuild_pixel(&it->settings, it->levels, it->nodes, one->column, one->row,
                                                         &one->pixel, &one->read);
    }
}

static void rebuilding(struct job *it)
{
    it->answer |= PYRAMIDS[it->which]->rebuilding(&it->settings, it->levels, it->nodes, it->rebuilt, it->pixels,
                                                  it->work, it->nodes);
}

/* One pixel out of each part, always the same ones of a size. */
static void draw_pixels(struct job *it)
{
    unsigned side = it->settings.columns;
    uint32_t noise = 2024;
    for (unsigned at = 0; at < ASKED; at++) {
        noise = noise * 1664525u + 1013904223u;
        it->asked[at] = (struct asked_pixel){
            .column = (uint16_t)((at % PARTS_A_SIDE * side + (noise >> 16 & 255) * side / 256) / PARTS_A_SIDE),
            .row = (uint16_t)((at / PARTS_A_SIDE * side + (noise >> 24) * side / 256) / PARTS_A_SIDE),
        };
    }
}

static void repeat_one(struct job *it)
{
    for (int at = 0; at < ASKED; at++)
        it->asked[at] = it->asked[ASKED / 2];
}

/* Ends the program where a single pixel is not the one of the picture that was rebuilt whole. */
static void must_be_of_picture(struct job *it)
{
    must_agree(it, rebuilding);
    must_agree(it, rebuilding_pixels);
    for (int at = 0; at < ASKED; at++) {
        const struct asked_pixel *one = &it->asked[at];
        if (one->pixel != it->rebuilt[one->row * it->settings.columns + one->column]) {
            fprintf(stderr, "pixel %u, %u of %u by %u differs\n", one->column, one->row, it->settings.columns,
                    it->settings.rows);
            exit(1);
        }
    }
}

static void prepare_pixels(struct job *it, uint16_t side, uint16_t depth, uint16_t kernel)
{
    prepare_shape(it, side, depth, kernel);
    it->answer = fast_pyramid.coding(&it->settings, it->picture, it->pixels, it->levels, it->nodes, it->work,
                                     it->nodes);
    draw_pixels(it);
    must_be_of_picture(it);
}

static void compare_pixel_times(const char *name, struct job *it)
{
    double best[2], read = 0;
    best_times(it, (const struct timed[2]){{rebuilding_pixels, 0}, {rebuilding_pixels, 1}}, best);
    for (int at = 0; at < ASKED; at++)
        read += it->asked[at].read;
    for (int which = 0; which < 2; which++)
        best[which] /= ASKED;
    print_times(name, it, read / ASKED, best);
}

/* The whole picture reads every index. */
static void compare_with_whole(struct job *it, uint16_t kernel)
{
    char name[24];
    prepare_pixels(it, 129, 6, kernel);
    snprintf(name, sizeof name, "drawn, kernel %u", kernel);
    compare_pixel_times(name, it);
    repeat_one(it);
    snprintf(name, sizeof name, "repeated, kernel %u", kernel);
    compare_pixel_times(name, it);
    snprintf(name, sizeof name, "whole, kernel %u", kernel);
    compare_times(name, it, rebuilding);
}

static void compare_sides(struct job *it, const struct shapes *of)
{
    for (unsigned side = of->smallest_side; side <= MOST_SIDE; side = 2 * side - 1) {
        prepare_pixels(it, (uint16_t)side, of->depth, 4);
        compare_pixel_times(of->name, it);
    }
}

int main(void)
{
    static struct job it;
    puts("\nOne pixel at depth 6: the mean of 64, drawn one out of each of 8 by 8 parts of the picture; one of them");
    puts("again and again; and the whole picture:\n");
    print_heading("read");
    for (uint16_t kernel = 4; kernel <= 6; kernel += 2)
        compare_with_whole(&it, kernel);
    puts("\nThe same at one depth of pictures of all sides, with kernel 4:\n");
    print_heading("read");
    for (unsigned at = 0; at < sizeof SHAPES / sizeof *SHAPES; at++)
        compare_sides(&it, &SHAPES[at]);
    return it.answer != 0;
}
