/* The library as a filter, for tests/host/peers.py: peers write COLUMNS ROWS, pixels to a PGM file; peers read, a PGM
 * file to a line of columns and rows and the pixels. A refusal is a line 'refused N' on standard output. */
#include <stdio.h>
#include <stdlib.h>
#include <string.h>

#include "functions.h"

enum { MOST_BYTES = 1 << 17 };

static uint8_t given[MOST_BYTES], made[MOST_BYTES];

static int refused(uint16_t answer)
{
    printf("refused %u\n", answer);
    return 0;
}

static int write_picture(uint16_t columns, uint16_t rows, size_t length)
{
    size_t size;
    uint16_t answer = library_pgm.write_pgm(columns, rows, given, length, made, sizeof made, &size);
    if (answer != 0)
        return refused(answer);
    return fwrite(made, 1, size, stdout) != size;
}

static int read_picture(size_t length)
{
    uint16_t columns, rows, answer = library_pgm.check_pgm(given, length, &columns, &rows);
    if (answer != 0)
        return refused(answer);
    size_t pixels = (size_t)columns * rows;
    answer = library_pgm.read_pgm(given, length, made, pixels, &columns, &rows);
    if (answer != 0)
        return refused(answer);
    printf("%u %u\n", columns, rows);
    return fwrite(made, 1, pixels, stdout) != pixels;
}

int main(int words, char **word)
{
    size_t length = fread(given, 1, sizeof given, stdin);
    if (words == 4 && strcmp(word[1], "write") == 0)
        return write_picture((uint16_t)atoi(word[2]), (uint16_t)atoi(word[3]), length);
    if (words == 2 && strcmp(word[1], "read") == 0)
        return read_picture(length);
    fprintf(stderr, "usage: peers write COLUMNS ROWS | peers read\n");
    return 2;
}
