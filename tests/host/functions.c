#include "functions.h"

const struct pyramid_calls library_pyramid = {
    lepsarvu_coding,        lepsarvu_closed_loop_coding, lepsarvu_rebuilding,
    lepsarvu_rebuild_pixel, lepsarvu_level_bounds,       lepsarvu_closed_loop_bounds,
    lepsarvu_deepest_depth, lepsarvu_total_nodes,
};

const struct file_calls library_file = {lepsarvu_file_size, lepsarvu_write_file, lepsarvu_read_file,
                                        lepsarvu_check_file};

const struct pgm_calls library_pgm = {lepsarvu_pgm_size, lepsarvu_write_pgm, lepsarvu_read_pgm, lepsarvu_check_pgm};
