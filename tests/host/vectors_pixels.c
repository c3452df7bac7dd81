/* Cases of single pixels of a level buffer: see vectors.h. */
#include "vectors.h"

/* One pixel: what is asked, the answer, and what an accepted call leaves; what a refused one left was compared with
 * what there was before. */
static void pixel_record(void)
{
    uint16_t column = (uint16_t)take_number(2), row = (uint16_t)take_number(2), expected = (uint16_t)take_number(2);
    uint8_t pixel = (uint8_t)take_number(1);
    uint16_t read = (uint16_t)take_number(2);
    ask_pixel(&draw, column, row);
    int passed = call(REBUILD_PIXEL) && job.answer == expected;
    if (expected == 0)
        passed = passed && holds(PIXEL, &pixel, sizeof pixel) && holds(INDICES_READ, &read, sizeof read);
    count(&tally, REBUILD_PIXEL, job.answer, passed);
}

void pixels_case(void)
{
    provide_settings(&draw, take_settings());
    take_levels();
    for (uint32_t records = take_number(2); records > 0; records--)
        pixel_record();
}
