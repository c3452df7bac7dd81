/* Times of the writer and the readers of PGM files, the library beside plain C, at two sizes. */
#include "bench.h"

static void writing(struct job *it)
{
    it->answer |= PGMS[it->which]->write_pgm(it->settings.columns, it->settings.rows, it->picture, it->pixels, it->file,
                                             sizeof it->file, &it->size);
}

static void reading(struct job *it)
{
    it->answer |= PGMS[it->which]->read_pgm(it->file, it->size, it->rebuilt, it->pixels, &it->columns, &it->rows);
}

static void checking(struct job *it)
{
    it->answer |= PGMS[it->which]->check_pgm(it->file, it->size, &it->columns, &it->rows);
}

int main(void)
{
    static struct job it;
    print_heading("pixel");
    for (int size = 0; size < SIZES; size += SIZES - 1) {
        prepare(&it, size, 4);
        it.nodes = it.pixels;
        must_agree(&it, writing);
        must_agree(&it, reading);
        must_agree(&it, checking);
        compare_times("write_pgm", &it, writing);
        compare_times("read_pgm", &it, reading);
        compare_times("check_pgm", &it, checking);
    }
    return it.answer != 0;
}
