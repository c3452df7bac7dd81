/* PGM files in plain C, from P2 of document 02: see plain.h. */
#include "plain.h"

#include <stdio.h>
#include <string.h>

enum { MOST_DIGITS = 5, WHOLE_HEADER = 15, END = -1 };

/* A file being read: the place that was reached, and what the header said. */
struct reader {
    const uint8_t *file;
    size_t length, at;
    int64_t columns, rows, greatest;
};

static int side_ok(int64_t side)
{
    return 2 <= side && side <= 129;
}

static int is_white(int byte)
{
    return byte == ' ' || byte == '\t' || byte == '\n' || byte == '\r';
}

/* The byte at hand, or END. */
static int at_hand(const struct reader *it)
{
    return it->at < it->length ? it->file[it->at] : END;
}

/* Goes on after a comment's newline; false if it has none. */
static int pass_comment(struct reader *it)
{
    while (at_hand(it) != '\n')
        if (at_hand(it) == END)
            return 0;
        else
            it->at++;
    it->at++;
    return 1;
}

/* Goes on after white space and comments; false if there are none, or if one has no newline. */
static int pass_gap(struct reader *it)
{
    size_t start = it->at;
    while (is_white(at_hand(it)) || at_hand(it) == '#')
        if (at_hand(it) != '#')
            it->at++;
        else if (!pass_comment(it))
            return 0;
    return it->at > start;
}

/* Takes one to five digits; false if there are none, or more. */
static int take_number(struct reader *it, int64_t *number)
{
    int digits = 0;
    *number = 0;
    for (; '0' <= at_hand(it) && at_hand(it) <= '9'; it->at++) {
        if (++digits > MOST_DIGITS)
            return 0;
        *number = *number * 10 + (at_hand(it) - '0');
    }
    return digits >= 1;
}

/* Takes the header, up to the first pixel; false if it is bad. */
static int take_header(struct reader *it)
{
    if (it->length < 2 || it->file[0] != 'P' || it->file[1] != '5')
        return 0;
    it->at = 2;
    if (!pass_gap(it) || !take_number(it, &it->columns))
        return 0;
    if (!pass_gap(it) || !take_number(it, &it->rows))
        return 0;
    if (!pass_gap(it) || !take_number(it, &it->greatest))
        return 0;
    if (!is_white(at_hand(it)))
        return 0;
    it->at++;
    return 1;
}

/* The first refusal of a reader that is lent no picture. */
static uint16_t file_refusal(struct reader *it)
{
    if (!take_header(it))
        return 16;
    if (!side_ok(it->columns) || !side_ok(it->rows))
        return 1;
    if (it->greatest != 255)
        return 17;
    return it->length - it->at == (size_t)(it->columns * it->rows) ? 0 : 18;
}

static void hand_out(const struct reader *it, uint16_t *columns, uint16_t *rows)
{
    *columns = (uint16_t)it->columns;
    *rows = (uint16_t)it->rows;
}

static uint16_t check_pgm(const uint8_t *file, size_t file_length, uint16_t *columns, uint16_t *rows)
{
    struct reader it = {file, file_length, 0, 0, 0, 0};
    uint16_t refusal = file_refusal(&it);
    if (refusal == 0)
        hand_out(&it, columns, rows);
    return refusal;
}

static uint16_t read_pgm(const uint8_t *file, size_t file_length, uint8_t *picture, size_t picture_length,
                         uint16_t *columns, uint16_t *rows)
{
    struct reader it = {file, file_length, 0, 0, 0, 0};
    uint16_t refusal = file_refusal(&it);
    if (refusal == 0 && picture_length != (size_t)(it.columns * it.rows))
        refusal = 5;
    if (refusal != 0)
        return refusal;
    for (size_t pixel = 0; pixel < picture_length; pixel++)
        picture[pixel] = file[it.at + pixel];
    hand_out(&it, columns, rows);
    return 0;
}

/* The header of the single form; answers its bytes. */
static size_t single_header(uint16_t columns, uint16_t rows, char header[WHOLE_HEADER + 1])
{
    return (size_t)snprintf(header, WHOLE_HEADER + 1, "P5\n%d %d\n255\n", columns, rows);
}

static uint16_t pgm_size(uint16_t columns, uint16_t rows, size_t *size)
{
    char header[WHOLE_HEADER + 1];
    if (!side_ok(columns) || !side_ok(rows))
        return 1;
    *size = single_header(columns, rows, header) + (size_t)columns * rows;
    return 0;
}

static uint16_t write_pgm(uint16_t columns, uint16_t rows, const uint8_t *picture, size_t picture_length,
                          uint8_t *file, size_t file_length, size_t *size)
{
    char header[WHOLE_HEADER + 1];
    if (!side_ok(columns) || !side_ok(rows))
        return 1;
    if (picture_length != (size_t)columns * rows)
        return 5;
    size_t start = single_header(columns, rows, header);
    if (file_length < start + picture_length)
        return 8;
    memcpy(file, header, start);
    for (size_t pixel = 0; pixel < picture_length; pixel++)
        file[start + pixel] = picture[pixel];
    *size = start + picture_length;
    return 0;
}

const struct pgm_calls plain_pgm = {pgm_size, write_pgm, read_pgm, check_pgm};
