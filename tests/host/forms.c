/* Files whose shape section has four numbers, and six with black and white, by hand: see sets.h. */
#include "sets.h"

#include <string.h>

enum { FORMS = 2, SHORT = 58, LONG = 62, NODES = 13, MORE_BYTES = 4, BLACK_AT = 10, WHITE_AT = 12 };

/* Piece A of document 01, and the same picture's levels for a camera of 16 to 235. */
static const struct form {
    size_t length, shape;
    lepsarvu_settings s;
    uint8_t bytes[LONG];
} FORM[FORMS] = {
    {SHORT, 10, {3, 3, 1, 4, 0, 255, {10, 4, 0, 0, 0, 0, 0}},
     {4, 0, 3, 0, 3, 0, 1, 0, 4, 0, 2, 0, 4, 0, 10, 0, 2, 0, 1, 0, 0, 0xD0, 0x40, 0, 0, 0, 0, 0, 4, 0, 6, 0, 6, 0,
      6, 0, 6, 0, 9, 0, 0xFD, 0xFF, 0xFD, 0xFF, 0xFD, 0xFF, 0xFD, 0xFF, 7, 0, 0xFD, 0xFF, 0xFD, 0xFF, 0xFD, 0xFF,
      0xFD, 0xFF}},
    {LONG, 14, {3, 3, 1, 4, 16, 235, {10, 4, 0, 0, 0, 0, 0}},
     {6, 0, 3, 0, 3, 0, 1, 0, 4, 0, 16, 0, 235, 0, 2, 0, 4, 0, 10, 0, 2, 0, 1, 0, 0, 0xD0, 0x40, 0, 0, 0, 0, 0, 4, 0,
      6, 0, 6, 0, 6, 0, 6, 0, 9, 0, 0xFD, 0xFF, 0xFD, 0xFF, 0xFD, 0xFF, 0xFD, 0xFF, 7, 0, 0xFD, 0xFF, 0xFD, 0xFF,
      0xFD, 0xFF, 0xFD, 0xFF}},
};
static const lepsarvu_note NOTE_A = {{LEPSARVU_PERCENTAGE, 0x40D00000}, {LEPSARVU_NOT_FITTED, 0}};
static const int16_t INDICES[NODES] = {6, 6, 6, 6, -3, -3, -3, -3, 7, -3, -3, -3, -3};

static void put(uint8_t *to, size_t number)
{
    to[0] = (uint8_t)(number & 255);
    to[1] = (uint8_t)(number >> 8);
}

/* Both readers, lent structs that hold anything, and a level buffer of some length. */
static void read_both(const uint8_t *file, size_t length, size_t indices, uint16_t checked, uint16_t read)
{
    provide_settings(&draw, (lepsarvu_settings){0, 0, 0, 0, 0, 0, {0}});
    provide_copy(FILE_PART, file, length);
    expect(CHECK_FILE, checked);
    provide_settings(&draw, (lepsarvu_settings){0, 0, 0, 0, 0, 0, {0}});
    provide(&draw, LEVELS, indices);
    expect(READ_FILE, read);
}

static void demand(enum function function, int passed)
{
    count(&tally, function, job.answer, passed);
}

/* A file that is accepted, and what is read of it. */
static void read_whole(const struct form *form, const lepsarvu_settings *s, const uint8_t *file)
{
    read_both(file, form->length, NODES, 0, 0);
    demand(READ_FILE, memcmp(job.held[READ_SETTINGS], s, sizeof *s) == 0 &&
                          memcmp(job.held[READ_NOTE], &NOTE_A, sizeof NOTE_A) == 0 &&
                          memcmp(job.held[LEVELS], INDICES, sizeof INDICES) == 0);
}

/* Cut after each byte, with the right level buffer and a wrong one; and longer. */
static void every_length(const struct form *form)
{
    uint8_t longer[LONG + MORE_BYTES] = {0};
    memcpy(longer, form->bytes, form->length);
    for (size_t length = 0; length < form->length; length++) {
        read_both(form->bytes, length, NODES, 9, 9);
        read_both(form->bytes, length, NODES + 1, 9, length < form->shape ? 9 : 6);
    }
    for (size_t more = 1; more <= MORE_BYTES; more++)
        read_both(longer, form->length + more, NODES, 12, 12);
}

/* Every first count, of the whole file, of that count alone and of one byte of it. Where the other form's count stands,
 * its shape is read and lawful, and what follows is no count of bins: 16, or the bin 10. */
static void every_count(const struct form *form)
{
    uint8_t file[LONG];
    memcpy(file, form->bytes, form->length);
    for (uint32_t number = 0; number < 65536; number++) {
        int known = number == 4 || number == 6;
        put(file, number);
        if (number != form->bytes[0])
            read_both(file, form->length, NODES, 10, 10);
        if (known && number != form->bytes[0])
            read_both(file, form->length, NODES - 1, 10, 6);
        read_both(file, 2, NODES, known ? 9 : 10, known ? 9 : 10);
        read_both(file, 1, NODES, 9, 9);
    }
}

/* Six numbers whose last two are any: they need not stand there, are lawful, or break their rule. */
static void every_pair(void)
{
    static const uint16_t FAR[] = {256, 257, 271, 511, 512, 65535};
    const struct form *form = &FORM[1];
    uint8_t file[LONG];
    memcpy(file, form->bytes, sizeof file);
    for (size_t pair = 0; pair < 262 * 262; pair++) {
        lepsarvu_settings s = form->s;
        s.black = (uint16_t)(pair / 262 < 256 ? pair / 262 : FAR[pair / 262 - 256]);
        s.white = (uint16_t)(pair % 262 < 256 ? pair % 262 : FAR[pair % 262 - 256]);
        put(file + BLACK_AT, s.black);
        put(file + WHITE_AT, s.white);
        uint16_t expected = s.black == 0 && s.white == 255 ? 10 : s.black < s.white && s.white < 256 ? 0 : 19;
        if (expected == 0)
            read_whole(form, &s, file);
        else
            read_both(file, LONG, NODES - 1, expected, expected);
    }
}

/* A written file of every lawful pair: which form it has, so that who knows no black and white refuses it with 10, and
 * its bytes. */
static void every_written(void)
{
    for (uint16_t black = 0; black < 255; black++)
        for (uint16_t white = (uint16_t)(black + 1); white < 256; white++) {
            const struct form *form = &FORM[black != 0 || white != 255];
            lepsarvu_settings s = form->s;
            uint8_t file[LONG];
            s.black = black;
            s.white = white;
            memcpy(file, form->bytes, sizeof file);
            if (form->length == LONG) {
                put(file + BLACK_AT, black);
                put(file + WHITE_AT, white);
            }
            provide_settings(&draw, s);
            provide_note(NOTE_A);
            provide_copy(LEVELS, INDICES, NODES);
            provide(&draw, FILE_PART, LONG + 1);
            expect(WRITE_FILE, 0);
            demand(WRITE_FILE, memcmp(job.held[SIZE], &form->length, sizeof form->length) == 0 &&
                                   memcmp(job.held[FILE_PART], file, form->length) == 0);
        }
}

/* The file with another shape section, of settings that are any, and another count of bins. */
static void put_shape(uint8_t *file, const struct form *form, const lepsarvu_settings *s, size_t bins)
{
    const uint16_t item[6] = {s->columns, s->rows, s->depth, s->kernel, s->black, s->white};
    memcpy(file, form->bytes, form->length);
    for (size_t at = 0; 2 + 2 * at < form->shape; at++)
        put(file + 2 + 2 * at, item[at]);
    put(file + form->shape, bins);
}

/* A set of the shape's rules, perhaps with a wrong level buffer and a wrong second count. With six numbers 0 and 255
 * are refused with 10 before all of them; cut before the last byte of the shape, it is 9. */
static void read_set(const struct form *form, unsigned of_shape, int needless, size_t more_levels, size_t more_bins)
{
    lepsarvu_settings s = broken(form->s, of_shape);
    uint8_t file[LONG];
    if (needless) {
        s.black = 0;
        s.white = 255;
    }
    put_shape(file, form, &s, 2 + more_bins);
    uint16_t first = needless && form->length == LONG ? 10 : first_of(of_shape), later = more_bins > 0 ? 10 : 0;
    uint16_t read = more_levels > 0 ? 6 : later;
    read_both(file, form->length, NODES + more_levels, first != 0 ? first : later, first != 0 ? first : read);
    read_both(file, form->shape - 1, NODES + more_levels, 9, 9);
}

/* 19 can't be broken beside 0 and 255, and not by four numbers. */
static void every_set(const struct form *form)
{
    for (unsigned set = 0; set <= SHAPE_RULES; set++)
        for (unsigned way = 0; way < 64; way++) {
            int needless = way % 2;
            if (!breaks(set, GREYS_19) || (form->length == LONG && !needless))
                read_set(form, set, needless, way / 2 % 2, way / 4 % 2);
        }
}

/* The bytes of the largest files: 24 + 28 + 2 times 22,359, and 4 for black and white. */
static void largest(void)
{
    static const size_t BYTES[FORMS] = {44770, LEPSARVU_MOST_FILE_BYTES};
    for (int which = 0; which < FORMS; which++) {
        lepsarvu_settings s = {129, 129, 6, 4, FORM[which].s.black, FORM[which].s.white, {1, 1, 1, 1, 1, 1, 1}};
        provide_settings(&draw, s);
        expect(FILE_SIZE, 0);
        demand(FILE_SIZE, memcmp(job.held[SIZE], &BYTES[which], sizeof BYTES[which]) == 0);
    }
}

void all_forms(void)
{
    largest();
    for (int which = 0; which < FORMS; which++) {
        read_whole(&FORM[which], &FORM[which].s, FORM[which].bytes);
        every_length(&FORM[which]);
        every_count(&FORM[which]);
        every_set(&FORM[which]);
    }
    every_pair();
    every_written();
}
