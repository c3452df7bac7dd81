/* PGM files that are not drawn, of 2 by 3 pixels, library beside plain C: every beginning, every change of a byte,
 * every byte put in or taken out, comments at every place, every short gap, and every number of five digits. */
#include "compare.h"

enum { PIXELS = 6, MOST_BYTES = 64, NUMBERS_END = 100000, SHORT_GAP = 4 };

/* A small file; what it holds after its last number and a white byte are the pixels. */
struct small {
    size_t length;
    uint8_t bytes[MOST_BYTES];
};

static struct small small_of(const char *text, size_t length)
{
    struct small it = {length, {0}};
    memcpy(it.bytes, text, length);
    return it;
}

static void look(struct run *run, const struct small *it)
{
    run->tally.number++;
    compare_check_pgm(run, it->bytes, it->length);
    compare_read_pgm(run, it->bytes, it->length, PIXELS, NULL);
}

static struct small with_inserted(const struct small *it, size_t place, const char *bytes, size_t many)
{
    struct small longer = *it;
    memmove(longer.bytes + place + many, it->bytes + place, it->length - place);
    memcpy(longer.bytes + place, bytes, many);
    longer.length += many;
    return longer;
}

static struct small without(const struct small *it, size_t place, size_t many)
{
    struct small shorter = *it;
    memmove(shorter.bytes + place, it->bytes + place + many, it->length - place - many);
    shorter.length -= many;
    return shorter;
}

static void every_beginning(struct run *run, const struct small *it)
{
    struct small cut = *it;
    for (cut.length = 0; cut.length <= it->length; cut.length++)
        look(run, &cut);
}

/* Each byte is each of 256, is followed or preceded by each, or is taken out. */
static void every_byte(struct run *run, const struct small *it)
{
    for (size_t place = 0; place <= it->length; place++)
        for (int value = 0; value < 256; value++) {
            struct small changed = with_inserted(it, place, &(const char){(char)value}, 1);
            look(run, &changed);
            if (place < it->length) {
                changed = *it;
                changed.bytes[place] = (uint8_t)value;
                look(run, &changed);
            }
        }
    for (size_t place = 0; place < it->length; place++)
        for (size_t many = 1; many <= 3 && place + many <= it->length; many++) {
            struct small shorter = without(it, place, many);
            look(run, &shorter);
        }
}

/* Any two bytes are any two of those that a header is made of, and of some that look like them. */
static void every_pair(struct run *run, const struct small *it, size_t header)
{
    static const uint8_t VALUES[] = {'P',  '5',  '0', '1', '2', '9', ' ', '\t', '\n',
                                     '\r', '#', 0,   11,  12,  '/', ':', 255};
    for (size_t first = 0; first < header; first++)
        for (size_t second = first + 1; second < header; second++)
            for (size_t pair = 0; pair < sizeof VALUES * sizeof VALUES; pair++) {
                struct small changed = *it;
                changed.bytes[first] = VALUES[pair / sizeof VALUES];
                changed.bytes[second] = VALUES[pair % sizeof VALUES];
                look(run, &changed);
            }
}

/* Comments with and without newline before each byte, and behind the last. */
static void every_comment(struct run *run, const struct small *it)
{
    static const char *const COMMENTS[] = {"#\n",  "#",        "# 2 3\n", "# 2 3", "#\r\n",
                                           "#\r", "##\n#\n", " #\n",    "#\n ",  "#x\n#"};
    for (size_t place = 0; place <= it->length; place++)
        for (size_t which = 0; which < sizeof COMMENTS / sizeof *COMMENTS; which++) {
            struct small longer = with_inserted(it, place, COMMENTS[which], strlen(COMMENTS[which]));
            look(run, &longer);
        }
}

/* Every gap of up to four bytes at each of the four places; the pixels get fewer as the last one gets longer. */
static void every_gap(struct run *run)
{
    static const char SYMBOLS[] = " \t\n\r#7x";
    char gap[4][SHORT_GAP + 1], text[MOST_BYTES];
    for (int place = 0; place < 4; place++)
        for (size_t many = 0, all = 1; many <= SHORT_GAP; many++, all *= sizeof SYMBOLS - 1)
            for (size_t which = 0; which < all; which++) {
                for (int other = 0; other < 4; other++)
                    strcpy(gap[other], " ");
                size_t rest = which;
                for (size_t at = 0; at < many; at++, rest /= sizeof SYMBOLS - 1)
                    gap[place][at] = SYMBOLS[rest % (sizeof SYMBOLS - 1)];
                gap[place][many] = '\0';
                snprintf(text, sizeof text, "P5%s2%s3%s255%s......", gap[0], gap[1], gap[2], gap[3]);
                size_t beyond = place == 3 && many > 1 ? many - 1 : 0;
                struct small it = small_of(text, strlen(text) - beyond);
                look(run, &it);
            }
}

/* Every number from 0 to 99,999 as columns, rows and greatest grey, with and without leading zeros. */
static void every_number(struct run *run)
{
    static const char *const FORMS[] = {"P5 %d 2 255 ....", "P5 %05d 2 255 ....", "P5 2 %d 255 ....",
                                        "P5 2 %05d 255 ....", "P5 2 2 %d ....", "P5 2 2 %05d ...."};
    char text[MOST_BYTES];
    for (size_t form = 0; form < sizeof FORMS / sizeof *FORMS; form++)
        for (int number = 0; number < NUMBERS_END; number++) {
            run->tally.number++;
            int length = snprintf(text, sizeof text, FORMS[form], number);
            compare_check_pgm(run, (const uint8_t *)text, (size_t)length);
        }
}

void every_pgm(struct run *run)
{
    static const char SINGLE[] = "P5\n2 3\n255\n# \n7P\377", OTHER[] = "P5# 2\n\t02\r#\n#\n3 00255\r\n5#\t\0 ";
    const struct small small[2] = {small_of(SINGLE, sizeof SINGLE - 1), small_of(OTHER, sizeof OTHER - 1)};
    for (int which = 0; which < 2; which++) {
        every_beginning(run, &small[which]);
        every_byte(run, &small[which]);
        every_pair(run, &small[which], small[which].length - PIXELS);
        every_comment(run, &small[which]);
    }
    every_gap(run);
    every_number(run);
}
