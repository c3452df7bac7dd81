/* Times of the writer and the reader, the library beside plain C. */
#include "bench.h"

static void writing(struct job *it)
{
    it->answer |= FILES[it->which]->write_file(&it->settings, &it->note, it->levels, it->nodes, it->file,
                                               sizeof it->file, &it->size);
}

static void reading(struct job *it)
{
    it->answer |= FILES[it->which]->read_file(it->file, it->size, it->levels, it->nodes, &it->read_settings,
                                              &it->read_note);
}

static void prepare_levels(struct job *it, int size, uint16_t black, uint16_t white)
{
    prepare(it, size, 4);
    it->settings.black = black;
    it->settings.white = white;
    it->note.before_drier = (lepsarvu_reading){.kind = LEPSARVU_PERCENTAGE, .number = 0x40D00000};
    it->answer = fast_pyramid.coding(&it->settings, it->picture, it->pixels, it->levels, it->nodes, it->work,
                                     it->nodes);
    must_agree(it, writing);
    must_agree(it, reading);
}

int main(void)
{
    static struct job it;
    print_heading("node");
    for (int size = 0; size < SIZES; size++) {
        prepare_levels(&it, size, CAMERA_BLACK, CAMERA_WHITE);
        prepare_levels(&it, size, 0, 255);
        compare_times("writing", &it, writing);
        compare_times("reading", &it, reading);
    }
    return it.answer != 0;
}
