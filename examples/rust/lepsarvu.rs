//! The functions of include/lepsarvu.h for safe Rust: slices carry their lengths, and a refusal is an error that holds
//! its number.

mod c {
    use super::{Note, Settings};

    extern "C" {
        pub fn lepsarvu_coding(
            settings: *const Settings, picture: *const u8, picture_length: usize,
            levels: *mut i16, levels_length: usize, work: *mut i32, work_length: usize,
        ) -> u16;
        pub fn lepsarvu_closed_loop_coding(
            settings: *const Settings, picture: *const u8, picture_length: usize,
            levels: *mut i16, levels_length: usize, work: *mut i32, work_length: usize,
        ) -> u16;
        pub fn lepsarvu_rebuilding(
            settings: *const Settings, levels: *const i16, levels_length: usize,
            picture: *mut u8, picture_length: usize, work: *mut i32, work_length: usize,
        ) -> u16;
        pub fn lepsarvu_rebuild_pixel(
            settings: *const Settings, levels: *const i16, levels_length: usize, column: u16, row: u16,
            pixel: *mut u8, read: *mut u16,
        ) -> u16;
        pub fn lepsarvu_level_bounds(settings: *const Settings, bounds: *mut u16) -> u16;
        pub fn lepsarvu_closed_loop_bounds(settings: *const Settings, bounds: *mut u16) -> u16;
        pub fn lepsarvu_deepest_depth(columns: u16, rows: u16, depth: *mut u16) -> u16;
        pub fn lepsarvu_total_nodes(settings: *const Settings, nodes: *mut u16) -> u16;
        pub fn lepsarvu_file_size(settings: *const Settings, size: *mut usize) -> u16;
        pub fn lepsarvu_write_file(
            settings: *const Settings, note: *const Note, levels: *const i16, levels_length: usize,
            file: *mut u8, file_length: usize, size: *mut usize,
        ) -> u16;
        pub fn lepsarvu_read_file(
            file: *const u8, file_length: usize, levels: *mut i16, levels_length: usize,
            settings: *mut Settings, note: *mut Note,
        ) -> u16;
        pub fn lepsarvu_check_file(
            file: *const u8, file_length: usize, settings: *mut Settings, note: *mut Note,
        ) -> u16;
        pub fn lepsarvu_pgm_size(columns: u16, rows: u16, size: *mut usize) -> u16;
        pub fn lepsarvu_write_pgm(
            columns: u16, rows: u16, picture: *const u8, picture_length: usize, file: *mut u8, file_length: usize,
            size: *mut usize,
        ) -> u16;
        pub fn lepsarvu_read_pgm(
            file: *const u8, file_length: usize, picture: *mut u8, picture_length: usize,
            columns: *mut u16, rows: *mut u16,
        ) -> u16;
        pub fn lepsarvu_check_pgm(file: *const u8, file_length: usize, columns: *mut u16, rows: *mut u16) -> u16;
    }
}

/// The number of a refused call.
#[derive(Clone, Copy, Debug, PartialEq)]
pub struct Refused(pub u16);

pub type Answer<T> = Result<T, Refused>;

/// Slot l of the bins is of level l. Pixels lie between black and white, both ends allowed.
#[repr(C)]
#[derive(Clone, Copy, Debug, Default, PartialEq)]
pub struct Settings {
    pub columns: u16,
    pub rows: u16,
    pub depth: u16,
    pub kernel: u16,
    pub black: u16,
    pub white: u16,
    pub bins: [u16; 7],
}

/// A probe reading: kind 0, not fitted; 1, a percentage's float bits; 2, a fault code.
#[repr(C)]
#[derive(Clone, Copy, Debug, Default, PartialEq)]
pub struct Reading {
    pub kind: u32,
    pub number: u32,
}

/// The two readings of a bale.
#[repr(C)]
#[derive(Clone, Copy, Debug, Default, PartialEq)]
pub struct Note {
    pub before_drier: Reading,
    pub at_press: Reading,
}

/// What a bale file holds beside the indices.
#[derive(Clone, Copy, Debug, Default, PartialEq)]
pub struct Bale {
    pub settings: Settings,
    pub note: Note,
}

/// A pixel of the rebuilt picture, and how many indices were read for it.
#[derive(Clone, Copy, Debug, PartialEq)]
pub struct RebuiltPixel {
    pub pixel: u8,
    pub read: u16,
}

fn answer<T>(number: u16, value: T) -> Answer<T> {
    if number == 0 { Ok(value) } else { Err(Refused(number)) }
}

/// Leaves indices in `levels` and averages in `work`.
pub fn coding(s: &Settings, picture: &[u8], levels: &mut [i16], work: &mut [i32]) -> Answer<()> {
    // Each pointer comes with the length of its slice, or points to one of what its type says, and the borrows keep
    // what is written apart from the rest; so it is in all calls below.
    let number = unsafe {
        c::lepsarvu_coding(
            s, picture.as_ptr(), picture.len(), levels.as_mut_ptr(), levels.len(), work.as_mut_ptr(), work.len(),
        )
    };
    answer(number, ())
}

/// Leaves indices in `levels` and, instead of averages, the unclamped values that a rebuilding leaves in `work`.
pub fn closed_loop_coding(s: &Settings, picture: &[u8], levels: &mut [i16], work: &mut [i32]) -> Answer<()> {
    let number = unsafe {
        c::lepsarvu_closed_loop_coding(
            s, picture.as_ptr(), picture.len(), levels.as_mut_ptr(), levels.len(), work.as_mut_ptr(), work.len(),
        )
    };
    answer(number, ())
}

/// Leaves the picture in `picture` and the unclamped values in `work`.
pub fn rebuilding(s: &Settings, levels: &[i16], picture: &mut [u8], work: &mut [i32]) -> Answer<()> {
    let number = unsafe {
        c::lepsarvu_rebuilding(
            s, levels.as_ptr(), levels.len(), picture.as_mut_ptr(), picture.len(), work.as_mut_ptr(), work.len(),
        )
    };
    answer(number, ())
}

/// The pixel that a rebuilding leaves at that column and row; only indices of a few columns and rows around it are
/// looked at, and no picture and no work buffer is needed.
pub fn rebuild_pixel(s: &Settings, levels: &[i16], column: u16, row: u16) -> Answer<RebuiltPixel> {
    let (mut pixel, mut read) = (0, 0);
    let number = unsafe {
        c::lepsarvu_rebuild_pixel(s, levels.as_ptr(), levels.len(), column, row, &mut pixel, &mut read)
    };
    answer(number, RebuiltPixel { pixel, read })
}

/// How far a rebuilt value of each level can lie from its average, whichever coding the file is of.
pub fn level_bounds(s: &Settings) -> Answer<[u16; 7]> {
    let mut bounds = [0; 7];
    let number = unsafe { c::lepsarvu_level_bounds(s, bounds.as_mut_ptr()) };
    answer(number, bounds)
}

/// The same of pictures that were coded closed-loop.
pub fn closed_loop_bounds(s: &Settings) -> Answer<[u16; 7]> {
    let mut bounds = [0; 7];
    let number = unsafe { c::lepsarvu_closed_loop_bounds(s, bounds.as_mut_ptr()) };
    answer(number, bounds)
}

pub fn deepest_depth(columns: u16, rows: u16) -> Answer<u16> {
    let mut depth = 0;
    let number = unsafe { c::lepsarvu_deepest_depth(columns, rows, &mut depth) };
    answer(number, depth)
}

/// The length of the level buffer.
pub fn total_nodes(s: &Settings) -> Answer<usize> {
    let mut nodes = 0;
    let number = unsafe { c::lepsarvu_total_nodes(s, &mut nodes) };
    answer(number, usize::from(nodes))
}

/// The bytes of a bale file.
pub fn file_size(s: &Settings) -> Answer<usize> {
    let mut size = 0;
    let number = unsafe { c::lepsarvu_file_size(s, &mut size) };
    answer(number, size)
}

/// Writes a bale file at the start of `file` and answers its bytes.
pub fn write_file(s: &Settings, note: &Note, levels: &[i16], file: &mut [u8]) -> Answer<usize> {
    let mut size = 0;
    let number = unsafe {
        c::lepsarvu_write_file(
            s, note, levels.as_ptr(), levels.len(), file.as_mut_ptr(), file.len(), &mut size,
        )
    };
    answer(number, size)
}

/// Reads a bale file, its indices into `levels`.
pub fn read_file(file: &[u8], levels: &mut [i16]) -> Answer<Bale> {
    let mut bale = Bale::default();
    let number = unsafe {
        c::lepsarvu_read_file(
            file.as_ptr(), file.len(), levels.as_mut_ptr(), levels.len(), &mut bale.settings, &mut bale.note,
        )
    };
    answer(number, bale)
}

/// Reads a bale file whose indices nobody asks for.
pub fn check_file(file: &[u8]) -> Answer<Bale> {
    let mut bale = Bale::default();
    let number = unsafe {
        c::lepsarvu_check_file(file.as_ptr(), file.len(), &mut bale.settings, &mut bale.note)
    };
    answer(number, bale)
}

/// The bytes of a PGM file.
pub fn pgm_size(columns: u16, rows: u16) -> Answer<usize> {
    let mut size = 0;
    let number = unsafe { c::lepsarvu_pgm_size(columns, rows, &mut size) };
    answer(number, size)
}

/// Writes a PGM file at the start of `file` and answers its bytes.
pub fn write_pgm(columns: u16, rows: u16, picture: &[u8], file: &mut [u8]) -> Answer<usize> {
    let mut size = 0;
    let number = unsafe {
        c::lepsarvu_write_pgm(
            columns, rows, picture.as_ptr(), picture.len(), file.as_mut_ptr(), file.len(), &mut size,
        )
    };
    answer(number, size)
}

/// Reads a PGM file, its pixels into `picture`, and answers its columns and rows.
pub fn read_pgm(file: &[u8], picture: &mut [u8]) -> Answer<(u16, u16)> {
    let (mut columns, mut rows) = (0, 0);
    let number = unsafe {
        c::lepsarvu_read_pgm(
            file.as_ptr(), file.len(), picture.as_mut_ptr(), picture.len(), &mut columns, &mut rows,
        )
    };
    answer(number, (columns, rows))
}

/// Answers the columns and rows of a PGM file whose pixels nobody asks for yet.
pub fn check_pgm(file: &[u8]) -> Answer<(u16, u16)> {
    let (mut columns, mut rows) = (0, 0);
    let number = unsafe { c::lepsarvu_check_pgm(file.as_ptr(), file.len(), &mut columns, &mut rows) };
    answer(number, (columns, rows))
}
