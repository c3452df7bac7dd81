/* A program with no C library and no start-up but its own: the archive needs memset and memmove. It codes piece A
 * of document 01, writes its file, reads it back and rebuilds the picture, codes it closed-loop and rebuilds that,
 * writes piece A as a PGM file and reads that back, and rebuilds one pixel of its file, with guard bytes around all
 * that it lends; the exit status is the step that failed, or 64 more where that step changed a guard or what it only
 * reads. */
#include "../../include/lepsarvu.h"

enum { NODES = 13, PIXELS = 9, FILE_BYTES = 58, PGM_BYTES = 20, GUARD = 32, ROOM = 64, GUARD_BYTE = 0xA5, STEPS = 18,
       CHANGED = 64 };
enum thing { SETTINGS, NOTE, PICTURE, SHOWN, LEVELS, READ, WORK, FILE_PART, NUMBER, SIZE, BOUNDS, READ_SETTINGS,
             READ_NOTE, PGM, COLUMNS, ROWS, PIXEL, INDICES_READ, THINGS };

static const lepsarvu_settings PIECE_SETTINGS = {3, 3, 1, 4, 0, 255, {10, 4, 0, 0, 0, 0, 0}};
static const lepsarvu_note PIECE_NOTE = {{LEPSARVU_PERCENTAGE, 0x40D00000}, {LEPSARVU_NOT_FITTED, 0}};
static const uint8_t PIECE[PIXELS] = {0, 0, 0, 0, 100, 0, 0, 0, 0};

/* What no step may write, and what it holds. */
static const struct {
    enum thing thing;
    const void *contents;
} GIVEN[] = {{SETTINGS, &PIECE_SETTINGS}, {NOTE, &PIECE_NOTE}, {PICTURE, PIECE}};

static const size_t BYTES[THINGS] = {sizeof(lepsarvu_settings), sizeof(lepsarvu_note), PIXELS, PIXELS, 2 * NODES,
                                     2 * NODES, 4 * NODES, FILE_BYTES, 2, sizeof(size_t), 14,
                                     sizeof(lepsarvu_settings), sizeof(lepsarvu_note), PGM_BYTES, 2, 2, 1, 2};

static struct {
    _Alignas(16) uint8_t bytes[GUARD + ROOM + GUARD];
} lent[THINGS];

void *memset(void *to, int byte, size_t bytes);
void *memmove(void *to, const void *from, size_t bytes);
_Noreturn void _start(void);

void *memset(void *to, int byte, size_t bytes)
{
    for (volatile unsigned char *at = to; bytes > 0; bytes--)
        *at++ = (unsigned char)byte;
    return to;
}

/* What the archive copies does not overlap. */
void *memmove(void *to, const void *from, size_t bytes)
{
    const volatile unsigned char *of = from;
    for (volatile unsigned char *at = to; bytes > 0; bytes--)
        *at++ = *of++;
    return to;
}

static void *at(enum thing thing)
{
    return lent[thing].bytes + GUARD;
}

static size_t number_at(enum thing thing)
{
    return thing == SIZE ? *(size_t *)at(thing) : *(uint16_t *)at(thing);
}

static void lend(void)
{
    for (int thing = 0; thing < THINGS; thing++)
        memset(lent[thing].bytes, GUARD_BYTE, sizeof lent[thing].bytes);
    for (size_t which = 0; which < sizeof GIVEN / sizeof *GIVEN; which++)
        memmove(at(GIVEN[which].thing), GIVEN[which].contents, BYTES[GIVEN[which].thing]);
}

/* Whether so many bytes are those of something else. */
static int same(const void *found, const void *expected, size_t bytes)
{
    const uint8_t *first = found, *second = expected;
    int all = 1;
    for (size_t place = 0; place < bytes; place++)
        all &= first[place] == second[place];
    return all;
}

/* All bytes before and after the things, and those that no step writes, are as they were. */
static int kept(void)
{
    int all = 1;
    for (int thing = 0; thing < THINGS; thing++)
        for (size_t place = 0; place < sizeof lent[thing].bytes; place++)
            if (place < GUARD || place >= GUARD + BYTES[thing])
                all &= lent[thing].bytes[place] == GUARD_BYTE;
    for (size_t which = 0; which < sizeof GIVEN / sizeof *GIVEN; which++)
        all &= same(at(GIVEN[which].thing), GIVEN[which].contents, BYTES[GIVEN[which].thing]);
    return all;
}

/* Whether a step on settings is as it should be, and the coding. */
static int step(int which)
{
    const int16_t *levels = at(LEVELS);
    const uint16_t *bounds = at(BOUNDS);
    switch (which) {
    case 1:
        return lepsarvu_deepest_depth(3, 3, at(NUMBER)) == 0 && number_at(NUMBER) == 1;
    case 2:
        return lepsarvu_total_nodes(at(SETTINGS), at(NUMBER)) == 0 && number_at(NUMBER) == NODES;
    case 3:
        return lepsarvu_level_bounds(at(SETTINGS), at(BOUNDS)) == 0 && bounds[0] == 7 && bounds[1] == 2;
    case 4:
        return lepsarvu_coding(at(SETTINGS), at(PICTURE), PIXELS, at(LEVELS), NODES, at(WORK), NODES) == 0 &&
               levels[8] == 7;
    default:
        return lepsarvu_file_size(at(SETTINGS), at(SIZE)) == 0 && number_at(SIZE) == FILE_BYTES;
    }
}

/* The same of the steps that follow: the file, and the picture from it. */
static int late_step(int which)
{
    const int16_t *read = at(READ);
    const uint8_t *shown = at(SHOWN);
    switch (which) {
    case 6:
        return lepsarvu_write_file(at(SETTINGS), at(NOTE), at(LEVELS), NODES, at(FILE_PART), FILE_BYTES,
                                   at(SIZE)) == 0;
    case 7:
        return lepsarvu_check_file(at(FILE_PART), number_at(SIZE), at(READ_SETTINGS), at(READ_NOTE)) == 0 &&
               same(at(READ_NOTE), &PIECE_NOTE, sizeof PIECE_NOTE);
    case 8:
        return lepsarvu_read_file(at(FILE_PART), number_at(SIZE), at(READ), NODES, at(READ_SETTINGS),
                                  at(READ_NOTE)) == 0 &&
               read[8] == 7 && same(at(READ_SETTINGS), &PIECE_SETTINGS, sizeof PIECE_SETTINGS);
    case 9:
        return lepsarvu_rebuilding(at(READ_SETTINGS), at(READ), NODES, at(SHOWN), PIXELS, at(WORK), NODES) == 0;
    default:
        return shown[4] == 94 && shown[0] == 0;
    }
}

/* The same of the steps of closed-loop coding: piece A's centre is off by 4, as all of it is. */
static int closed_step(int which)
{
    const int16_t *levels = at(LEVELS);
    const int32_t *work = at(WORK);
    const uint16_t *bounds = at(BOUNDS);
    const uint8_t *shown = at(SHOWN);
    switch (which) {
    case 11:
        return lepsarvu_closed_loop_bounds(at(SETTINGS), at(BOUNDS)) == 0 && bounds[0] == 5 && bounds[1] == 2;
    case 12:
        return lepsarvu_closed_loop_coding(at(SETTINGS), at(PICTURE), PIXELS, at(LEVELS), NODES, at(WORK),
                                           NODES) == 0 &&
               levels[8] == 8 && work[8] == 104;
    default:
        return lepsarvu_rebuilding(at(SETTINGS), at(LEVELS), NODES, at(SHOWN), PIXELS, at(WORK), NODES) == 0 &&
               shown[4] == 104 && shown[0] == 4;
    }
}

/* Whether the PGM file of piece A is "P5\n3 3\n255\n" and its pixels. */
static int is_piece(const uint8_t *file)
{
    static const char HEADER[] = "P5\n3 3\n255\n";
    size_t bytes = sizeof HEADER - 1;
    return bytes + PIXELS == PGM_BYTES && same(file, HEADER, bytes) && same(file + bytes, PIECE, PIXELS);
}

/* The same of the steps with a PGM file, which show piece A itself. */
static int pgm_step(int which)
{
    const uint8_t *shown = at(SHOWN);
    switch (which) {
    case 14:
        return lepsarvu_pgm_size(3, 3, at(SIZE)) == 0 && number_at(SIZE) == PGM_BYTES;
    case 15:
        return lepsarvu_write_pgm(3, 3, at(PICTURE), PIXELS, at(PGM), PGM_BYTES, at(SIZE)) == 0 &&
               number_at(SIZE) == PGM_BYTES && is_piece(at(PGM));
    case 16:
        return lepsarvu_check_pgm(at(PGM), PGM_BYTES, at(COLUMNS), at(ROWS)) == 0 && number_at(COLUMNS) == 3;
    default:
        return lepsarvu_read_pgm(at(PGM), PGM_BYTES, at(SHOWN), PIXELS, at(COLUMNS), at(ROWS)) == 0 &&
               number_at(ROWS) == 3 && shown[4] == PIECE[4] && shown[8] == PIECE[8];
    }
}

/* The same of the last step: piece A's centre, which takes its own index and the four above it. */
static int pixel_step(void)
{
    const uint8_t *pixel = at(PIXEL);
    return lepsarvu_rebuild_pixel(at(SETTINGS), at(READ), NODES, 1, 1, at(PIXEL), at(INDICES_READ)) == 0 &&
           *pixel == 94 && number_at(INDICES_READ) == 5;
}

static int any_step(int which)
{
    if (which <= 5)
        return step(which);
    if (which <= 10)
        return late_step(which);
    if (which <= 13)
        return closed_step(which);
    return which <= 17 ? pgm_step(which) : pixel_step();
}

static int steps(void)
{
    lend();
    for (int which = 1; which <= STEPS; which++) {
        if (!any_step(which))
            return which;
        if (!kept())
            return CHANGED + which;
    }
    return 0;
}

/* Linux enters with a stack pointer that is divisible by 16, and a function with one that is 8 off. */
__attribute__((force_align_arg_pointer)) _Noreturn void _start(void)
{
    long status = steps();
    for (;;)
        __asm__ volatile("syscall" : : "a"(60L), "D"(status) : "rcx", "r11", "memory");
}
