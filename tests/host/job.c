/* Jobs: see job.h. */
#include "job.h"

#include <string.h>

struct job job = {.pyramid = &library_pyramid, .file = &library_file, .pgm = &library_pgm};

/* Bytes of one element. */
static const size_t ELEMENT[THINGS] = {
    [SETTINGS] = sizeof(lepsarvu_settings),
    [NOTE] = sizeof(lepsarvu_note),
    [PICTURE] = 1,
    [LEVELS] = sizeof(int16_t),
    [WORK] = sizeof(int32_t),
    [FILE_PART] = 1,
    [NUMBER] = sizeof(uint16_t),
    [SIZE] = sizeof(size_t),
    [BOUNDS] = sizeof(uint16_t),
    [READ_SETTINGS] = sizeof(lepsarvu_settings),
    [READ_NOTE] = sizeof(lepsarvu_note),
    [COLUMNS] = sizeof(uint16_t),
    [ROWS] = sizeof(uint16_t),
    [PIXEL] = 1,
    [INDICES_READ] = sizeof(uint16_t),
};

/* Elements of what always has the same length. */
static const size_t ALWAYS[THINGS] = {
    [SETTINGS] = 1,      [NOTE] = 1,      [NUMBER] = 1,  [SIZE] = 1, [BOUNDS] = LEPSARVU_SLOTS,
    [READ_SETTINGS] = 1, [READ_NOTE] = 1, [COLUMNS] = 1, [ROWS] = 1, [PIXEL] = 1,
    [INDICES_READ] = 1,
};

size_t elements(enum thing thing)
{
    return job.bytes[thing] / ELEMENT[thing];
}

void lengthen(enum thing thing, size_t many)
{
    job.bytes[thing] = many * ELEMENT[thing];
}

void provide(struct seeded *draw, enum thing thing, size_t many)
{
    lengthen(thing, many);
    memset(job.held[thing], (int)below(draw, 256), job.bytes[thing]);
}

void provide_copy(enum thing thing, const void *contents, size_t many)
{
    lengthen(thing, many);
    memcpy(job.held[thing], contents, job.bytes[thing]);
}

void provide_settings(struct seeded *draw, lepsarvu_settings s)
{
    job.s = s;
    for (enum thing thing = 0; thing < THINGS; thing++)
        if (ALWAYS[thing] != 0)
            provide(draw, thing, ALWAYS[thing]);
    provide_copy(SETTINGS, &s, 1);
}

void provide_note(lepsarvu_note note)
{
    provide_copy(NOTE, &note, 1);
}

void ask_pixel(struct seeded *draw, uint16_t column, uint16_t row)
{
    job.column = column;
    job.row = row;
    provide(draw, PIXEL, 1);
    provide(draw, INDICES_READ, 1);
}

static void code(enum manner manner)
{
    job.answer = coding_in(manner, job.pyramid)(job.at[SETTINGS], job.at[PICTURE], elements(PICTURE), job.at[LEVELS],
                                                elements(LEVELS), job.at[WORK], elements(WORK));
}

static void coding(void)
{
    code(OPEN_LOOP);
}

static void closed_loop_coding(void)
{
    code(CLOSED_LOOP);
}

static void rebuilding(void)
{
    job.answer = job.pyramid->rebuilding(job.at[SETTINGS], job.at[LEVELS], elements(LEVELS), job.at[PICTURE],
                                         elements(PICTURE), job.at[WORK], elements(WORK));
}

static void rebuild_pixel(void)
{
    job.answer = job.pyramid->rebuild_pixel(job.at[SETTINGS], job.at[LEVELS], elements(LEVELS), job.column, job.row,
                                            job.at[PIXEL], job.at[INDICES_READ]);
}

static void level_bounds(void)
{
    job.answer = job.pyramid->level_bounds(job.at[SETTINGS], job.at[BOUNDS]);
}

static void closed_loop_bounds(void)
{
    job.answer = job.pyramid->closed_loop_bounds(job.at[SETTINGS], job.at[BOUNDS]);
}

static void deepest_depth(void)
{
    job.answer = job.pyramid->deepest_depth(job.s.columns, job.s.rows, job.at[NUMBER]);
}

static void total_nodes(void)
{
    job.answer = job.pyramid->total_nodes(job.at[SETTINGS], job.at[NUMBER]);
}

static void file_size(void)
{
    job.answer = job.file->file_size(job.at[SETTINGS], job.at[SIZE]);
}

static void write_file(void)
{
    job.answer = job.file->write_file(job.at[SETTINGS], job.at[NOTE], job.at[LEVELS], elements(LEVELS),
                                      job.at[FILE_PART], elements(FILE_PART), job.at[SIZE]);
}

static void read_file(void)
{
    job.answer = job.file->read_file(job.at[FILE_PART], elements(FILE_PART), job.at[LEVELS], elements(LEVELS),
                                     job.at[READ_SETTINGS], job.at[READ_NOTE]);
}

static void check_file(void)
{
    job.answer = job.file->check_file(job.at[FILE_PART], elements(FILE_PART), job.at[READ_SETTINGS],
                                      job.at[READ_NOTE]);
}

static void pgm_size(void)
{
    job.answer = job.pgm->pgm_size(job.s.columns, job.s.rows, job.at[SIZE]);
}

static void write_pgm(void)
{
    job.answer = job.pgm->write_pgm(job.s.columns, job.s.rows, job.at[PICTURE], elements(PICTURE), job.at[FILE_PART],
                                    elements(FILE_PART), job.at[SIZE]);
}

static void read_pgm(void)
{
    job.answer = job.pgm->read_pgm(job.at[FILE_PART], elements(FILE_PART), job.at[PICTURE], elements(PICTURE),
                                   job.at[COLUMNS], job.at[ROWS]);
}

static void check_pgm(void)
{
    job.answer = job.pgm->check_pgm(job.at[FILE_PART], elements(FILE_PART), job.at[COLUMNS], job.at[ROWS]);
}

void (*const JOB_CALLS[FUNCTIONS])(void) = {
    coding,       closed_loop_coding, rebuilding,    rebuild_pixel,
    level_bounds, closed_loop_bounds, deepest_depth, total_nodes,
    file_size,    write_file,         read_file,     check_file,
    pgm_size,     write_pgm,          read_pgm,      check_pgm,
};

static const struct {
    unsigned reads, writes;
} LENT[FUNCTIONS] = {
    [CODING] = {1 << SETTINGS | 1 << PICTURE, 1 << LEVELS | 1 << WORK},
    [CLOSED_LOOP_CODING] = {1 << SETTINGS | 1 << PICTURE, 1 << LEVELS | 1 << WORK},
    [REBUILDING] = {1 << SETTINGS | 1 << LEVELS, 1 << PICTURE | 1 << WORK},
    [REBUILD_PIXEL] = {1 << SETTINGS | 1 << LEVELS, 1 << PIXEL | 1 << INDICES_READ},
    [LEVEL_BOUNDS] = {1 << SETTINGS, 1 << BOUNDS},
    [CLOSED_LOOP_BOUNDS] = {1 << SETTINGS, 1 << BOUNDS},
    [DEEPEST_DEPTH] = {0, 1 << NUMBER},
    [TOTAL_NODES] = {1 << SETTINGS, 1 << NUMBER},
    [FILE_SIZE] = {1 << SETTINGS, 1 << SIZE},
    [WRITE_FILE] = {1 << SETTINGS | 1 << NOTE | 1 << LEVELS, 1 << FILE_PART | 1 << SIZE},
    [READ_FILE] = {1 << FILE_PART, 1 << LEVELS | 1 << READ_SETTINGS | 1 << READ_NOTE},
    [CHECK_FILE] = {1 << FILE_PART, 1 << READ_SETTINGS | 1 << READ_NOTE},
    [PGM_SIZE] = {0, 1 << SIZE},
    [WRITE_PGM] = {1 << PICTURE, 1 << FILE_PART | 1 << SIZE},
    [READ_PGM] = {1 << FILE_PART, 1 << PICTURE | 1 << COLUMNS | 1 << ROWS},
    [CHECK_PGM] = {1 << FILE_PART, 1 << COLUMNS | 1 << ROWS},
};

int is_lent(enum function function, enum thing thing)
{
    return (LENT[function].reads | LENT[function].writes) >> thing & 1;
}

int may_write(enum function function, enum thing thing)
{
    return LENT[function].writes >> thing & 1;
}

size_t written_part(enum function function, enum thing thing)
{
    size_t size;
    if (job.answer != 0 || !may_write(function, thing))
        return 0;
    if (thing == WORK)
        return nodes_of(&job.s) * sizeof(int32_t);
    if (thing != FILE_PART)
        return job.bytes[thing];
    memcpy(&size, job.at[SIZE], sizeof size);
    return size;
}

void hold_again(enum function function)
{
    for (enum thing thing = 0; thing < THINGS; thing++)
        if (may_write(function, thing))
            memcpy(job.held[thing], job.at[thing], job.bytes[thing]);
}
