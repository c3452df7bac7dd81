/* Checks of arguments, for the pyramid and for the file. */
#include "plain.h"

uint16_t fast_shape_refusal(const lepsarvu_settings *s)
{
    if (s->columns < 2 || s->columns > MOST_SIDE || s->rows < 2 || s->rows > MOST_SIDE)
        return 1;
    if (s->depth >= LEPSARVU_SLOTS)
        return 13;
    unsigned low_bits = (1u << s->depth) - 1;
    if ((s->columns - 1u) & low_bits)
        return 14;
    if ((s->rows - 1u) & low_bits)
        return 15;
    if (s->kernel < 3 || s->kernel > 6)
        return 2;
    return s->black < s->white && s->white <= 255 ? 0 : 19;
}

uint16_t fast_settings_refusal(const lepsarvu_settings *s)
{
    uint16_t refusal = fast_shape_refusal(s);
    if (refusal)
        return refusal;
    for (unsigned slot = 0; slot < LEPSARVU_SLOTS; slot++)
        if (slot <= s->depth ? s->bins[slot] < 1 || s->bins[slot] > 255 : s->bins[slot] != 0)
            return 3;
    return 0;
}

size_t fast_level_nodes(const lepsarvu_settings *s, unsigned level)
{
    return (((s->columns - (size_t)1) >> level) + 1) * (((s->rows - (size_t)1) >> level) + 1);
}

size_t fast_nodes(const lepsarvu_settings *s)
{
    size_t nodes = 0;
    for (unsigned level = 0; level <= s->depth; level++)
        nodes += fast_level_nodes(s, level);
    return nodes;
}

/* By the smallest and the largest, so that no pixel ends the loop early. Every byte lies between 0 and 255. */
int fast_pixels_ok(const lepsarvu_settings *s, const uint8_t *picture, size_t length)
{
    uint8_t smallest = 255, largest = 0;
    if (s->black == 0 && s->white == 255)
        return 1;
    for (size_t at = 0; at < length; at++) {
        smallest = picture[at] < smallest ? picture[at] : smallest;
        largest = picture[at] > largest ? picture[at] : largest;
    }
    return smallest >= s->black && largest <= s->white;
}

/* By the smallest and the largest here too. */
static int values_within(const int16_t *indices, size_t length, int bin)
{
    int16_t smallest = 0, largest = 0;
    for (size_t at = 0; at < length; at++) {
        smallest = indices[at] < smallest ? indices[at] : smallest;
        largest = indices[at] > largest ? indices[at] : largest;
    }
    return smallest * bin >= -MOST_VALUE && largest * bin <= MOST_VALUE;
}

int fast_values_ok(const lepsarvu_settings *s, const int16_t *levels)
{
    for (unsigned level = s->depth + 1u; level-- > 0;) {
        size_t nodes = fast_level_nodes(s, level);
        if (!values_within(levels, nodes, s->bins[level]))
            return 0;
        levels += nodes;
    }
    return 1;
}
