//! Piece A through the functions themselves: what the example's wrapper lends of its own, numbers and small arrays,
//! stands between guards here too.

use crate::lent::Lent;
use crate::lepsarvu::{Note, Settings};
use crate::{
    file_of, Tally, CLOSED_INDICES, CLOSED_SHOWN, CLOSED_VALUES, FILE, INDICES, NODES, NOTE, PICTURE, PIECE_A, SHAPES,
    SHOWN,
};

extern "C" {
    fn lepsarvu_coding(
        settings: *const Settings, picture: *const u8, picture_length: usize, levels: *mut i16, levels_length: usize,
        work: *mut i32, work_length: usize,
    ) -> u16;
    fn lepsarvu_closed_loop_coding(
        settings: *const Settings, picture: *const u8, picture_length: usize, levels: *mut i16, levels_length: usize,
        work: *mut i32, work_length: usize,
    ) -> u16;
    fn lepsarvu_rebuilding(
        settings: *const Settings, levels: *const i16, levels_length: usize, picture: *mut u8, picture_length: usize,
        work: *mut i32, work_length: usize,
    ) -> u16;
    fn lepsarvu_rebuild_pixel(
        settings: *const Settings, levels: *const i16, levels_length: usize, column: u16, row: u16, pixel: *mut u8,
        read: *mut u16,
    ) -> u16;
    fn lepsarvu_level_bounds(settings: *const Settings, bounds: *mut u16) -> u16;
    fn lepsarvu_closed_loop_bounds(settings: *const Settings, bounds: *mut u16) -> u16;
    fn lepsarvu_deepest_depth(columns: u16, rows: u16, depth: *mut u16) -> u16;
    fn lepsarvu_total_nodes(settings: *const Settings, nodes: *mut u16) -> u16;
    fn lepsarvu_file_size(settings: *const Settings, size: *mut usize) -> u16;
    fn lepsarvu_write_file(
        settings: *const Settings, note: *const Note, levels: *const i16, levels_length: usize, file: *mut u8,
        file_length: usize, size: *mut usize,
    ) -> u16;
    fn lepsarvu_read_file(
        file: *const u8, file_length: usize, levels: *mut i16, levels_length: usize, settings: *mut Settings,
        note: *mut Note,
    ) -> u16;
    fn lepsarvu_check_file(file: *const u8, file_length: usize, settings: *mut Settings, note: *mut Note) -> u16;
}

struct Things {
    settings: Lent<Settings>,
    note: Lent<Note>,
    picture: Lent<u8>,
    levels: Lent<i16>,
    work: Lent<i32>,
    file: Lent<u8>,
    number: Lent<u16>,
    size: Lent<usize>,
    bounds: Lent<u16>,
    closed_bounds: Lent<u16>,
    read_settings: Lent<Settings>,
    read_note: Lent<Note>,
    pixel: Lent<u8>,
    indices_read: Lent<u16>,
}

impl Things {
    fn new() -> Self {
        Things {
            settings: Lent::of(&[PIECE_A]),
            note: Lent::of(&[NOTE]),
            picture: Lent::of(&PICTURE),
            levels: Lent::of(&[99; NODES]),
            work: Lent::of(&[99; NODES]),
            file: Lent::of(&[99; FILE.len()]),
            number: Lent::of(&[99]),
            size: Lent::of(&[99]),
            bounds: Lent::of(&[99; 7]),
            closed_bounds: Lent::of(&[99; 7]),
            read_settings: Lent::of(&[Settings::default()]),
            read_note: Lent::of(&[Note::default()]),
            pixel: Lent::of(&[99]),
            indices_read: Lent::of(&[99]),
        }
    }

    /// The names of those that a call changed, or 'guard' for those whose guards it changed; what they hold is sealed.
    fn changed(&mut self) -> Vec<&'static str> {
        let mut names = Vec::new();
        macro_rules! look {
            ($($thing:ident)*) => { $(
                if !self.$thing.guards_kept() {
                    names.push(concat!("guard of ", stringify!($thing)));
                } else if !self.$thing.kept() {
                    names.push(stringify!($thing));
                }
                self.$thing.seal();
            )* };
        }
        look!(settings note picture levels work file number size bounds closed_bounds read_settings read_note);
        look!(pixel indices_read);
        names
    }
}

fn sizes(t: &mut Tally, it: &mut Things) {
    for (columns, answer, changed) in [(1, 1, vec![]), (3, 0, vec!["number"])] {
        let found = unsafe { lepsarvu_deepest_depth(columns, 3, it.number.pointer()) };
        t.equal("raw deepest", (found, it.changed()), (answer, changed));
    }
    for (kernel, answer) in [(7, 2), (4, 0)] {
        let changed = |name| if answer == 0 { vec![name] } else { vec![] };
        it.settings = Lent::of(&[Settings { kernel, ..PIECE_A }]);
        let found = unsafe { lepsarvu_total_nodes(it.settings.pointer(), it.number.pointer()) };
        t.equal("raw nodes", (found, it.changed()), (answer, changed("number")));
        let found = unsafe { lepsarvu_level_bounds(it.settings.pointer(), it.bounds.pointer()) };
        t.equal("raw bounds", (found, it.changed()), (answer, changed("bounds")));
        let found = unsafe { lepsarvu_closed_loop_bounds(it.settings.pointer(), it.closed_bounds.pointer()) };
        t.equal("raw closed-loop bounds", (found, it.changed()), (answer, changed("closed_bounds")));
        let found = unsafe { lepsarvu_file_size(it.settings.pointer(), it.size.pointer()) };
        t.equal("raw file size", (found, it.changed()), (answer, changed("size")));
    }
    t.equal("raw numbers", (it.number.part(), it.size.part()), (&[NODES as u16][..], &[FILE.len()][..]));
    t.equal("raw bounds", it.bounds.part(), &[7, 2, 0, 0, 0, 0, 0][..]);
    t.equal("raw closed-loop bounds", it.closed_bounds.part(), &[5, 2, 0, 0, 0, 0, 0][..]);
}

/// Either coding, of piece A's nine pixels.
fn code(closed: bool, it: &mut Things, places: usize) -> u16 {
    let coding = if closed { lepsarvu_closed_loop_coding } else { lepsarvu_coding };
    let (settings, picture) = (it.settings.pointer(), it.picture.pointer());
    unsafe { coding(settings, picture, 9, it.levels.pointer(), NODES, it.work.pointer(), places) }
}

fn rebuild(it: &mut Things, places: usize) -> u16 {
    let (settings, levels) = (it.settings.pointer(), it.levels.pointer());
    unsafe { lepsarvu_rebuilding(settings, levels, NODES, it.picture.pointer(), 9, it.work.pointer(), places) }
}

fn rebuild_pixel(it: &mut Things, column: u16, row: u16) -> u16 {
    let (settings, levels, read) = (it.settings.pointer(), it.levels.pointer(), it.indices_read.pointer());
    unsafe { lepsarvu_rebuild_pixel(settings, levels, NODES, column, row, it.pixel.pointer(), read) }
}

fn write_file(it: &mut Things, bytes: usize) -> u16 {
    let (settings, note, levels) = (it.settings.pointer(), it.note.pointer(), it.levels.pointer());
    unsafe { lepsarvu_write_file(settings, note, levels, NODES, it.file.pointer(), bytes, it.size.pointer()) }
}

fn read_file(it: &mut Things, file: *const u8, bytes: usize) -> u16 {
    let (settings, note) = (it.read_settings.pointer(), it.read_note.pointer());
    unsafe { lepsarvu_read_file(file, bytes, it.levels.pointer(), NODES, settings, note) }
}

/// Every function tells which size is at fault, and changes nothing.
fn refuse_shapes(t: &mut Tally, it: &mut Things) {
    for (columns, rows, depth, number) in SHAPES {
        it.settings = Lent::of(&[Settings { columns, rows, depth, ..PIECE_A }]);
        let settings = it.settings.pointer();
        let mut file = Lent::of(&file_of(columns, rows, depth));
        let alone = unsafe {
            [
                lepsarvu_total_nodes(settings, it.number.pointer()),
                lepsarvu_level_bounds(settings, it.bounds.pointer()),
                lepsarvu_closed_loop_bounds(settings, it.closed_bounds.pointer()),
                lepsarvu_file_size(settings, it.size.pointer()),
                lepsarvu_check_file(file.pointer(), FILE.len(), it.read_settings.pointer(), it.read_note.pointer()),
            ]
        };
        let others = [
            code(false, it, NODES),
            code(true, it, NODES),
            rebuild(it, NODES),
            rebuild_pixel(it, 1, 1),
            write_file(it, FILE.len()),
            read_file(it, file.pointer(), FILE.len()),
        ];
        let name = format!("raw {columns} by {rows}, depth {depth}");
        t.equal(&name, (alone, others, it.changed(), file.kept()), ([number; 5], [number; 6], vec![], true));
    }
    it.settings = Lent::of(&[PIECE_A]);
}

fn code_and_rebuild(t: &mut Tally, it: &mut Things) {
    for (places, answer) in [(NODES - 1, 7), (NODES, 0)] {
        let changed = |names| if answer == 0 { names } else { vec![] };
        let found = code(false, it, places);
        t.equal("raw coding", (found, it.changed()), (answer, changed(vec!["levels", "work"])));
        let found = rebuild(it, places);
        t.equal("raw rebuilding", (found, it.changed()), (answer, changed(vec!["picture", "work"])));
    }
    t.equal("raw picture and indices", (it.picture.part(), it.levels.part()), (&SHOWN[..], &INDICES[..]));
}

/// The centre of what was coded takes its own index and the four above it, and so does a corner.
fn one_pixel(t: &mut Tally, it: &mut Things) {
    for (column, row, answer, changed, pixel) in [
        (3, 1, 21, vec![], 99),
        (1, 3, 21, vec![], 99),
        (1, 1, 0, vec!["pixel", "indices_read"], 94),
        (2, 2, 0, vec!["pixel"], 0),
    ] {
        let found = rebuild_pixel(it, column, row);
        t.equal("raw pixel", (found, it.changed(), it.pixel.part()), (answer, changed, &[pixel][..]));
    }
    t.equal("raw indices read", it.indices_read.part(), &[5][..]);
}

/// Closed-loop, in things of its own; what the coding leaves in the work buffer is what the rebuilding leaves there.
fn code_closed_and_rebuild(t: &mut Tally, _: &mut Things) {
    let mut it = Things::new();
    for (places, answer) in [(NODES - 1, 7), (NODES, 0)] {
        let changed = |names| if answer == 0 { names } else { vec![] };
        let found = code(true, &mut it, places);
        t.equal("raw closed-loop coding", (found, it.changed()), (answer, changed(vec!["levels", "work"])));
    }
    t.equal("raw values and indices", (it.work.part(), it.levels.part()), (&CLOSED_VALUES[..], &CLOSED_INDICES[..]));
    it.work.fill(99);
    let found = rebuild(&mut it, NODES);
    t.equal("raw rebuilding", (found, it.changed()), (0, vec!["picture", "work"]));
    t.equal("raw picture and values", (it.picture.part(), it.work.part()), (&CLOSED_SHOWN[..], &CLOSED_VALUES[..]));
}

fn write(t: &mut Tally, it: &mut Things) {
    it.size.fill(99);
    for (bytes, answer, changed) in [(FILE.len() - 1, 8, vec![]), (FILE.len(), 0, vec!["file", "size"])] {
        let found = write_file(it, bytes);
        t.equal("raw writing", (found, it.changed()), (answer, changed));
    }
    t.equal("raw file", (it.file.part(), it.size.part()), (&FILE[..], &[FILE.len()][..]));
}

fn read(t: &mut Tally, it: &mut Things) {
    for (bytes, answer, changed) in [(FILE.len() - 1, 9, vec![]), (FILE.len(), 0, vec!["read_settings", "read_note"])] {
        let (settings, note) = (it.read_settings.pointer(), it.read_note.pointer());
        let found = unsafe { lepsarvu_check_file(it.file.pointer(), bytes, settings, note) };
        t.equal("raw checking", (found, it.changed()), (answer, changed));
    }
    it.levels.fill(99);
    it.read_settings.fill(Settings::default());
    for (bytes, answer, changed) in [(FILE.len() - 1, 9, vec![]), (FILE.len(), 0, vec!["levels", "read_settings"])] {
        let file = it.file.pointer();
        let found = read_file(it, file, bytes);
        t.equal("raw reading", (found, it.changed()), (answer, changed));
    }
    t.equal("raw indices", it.levels.part(), &INDICES[..]);
    t.equal("raw settings and note", (it.read_settings.part(), it.read_note.part()), (&[PIECE_A][..], &[NOTE][..]));
}

/// A number written just outside of each end is seen.
fn notice(t: &mut Tally) {
    for place in [-1, 1] {
        let mut it = Things::new();
        unsafe { *it.number.pointer().offset(place) = 0 };
        t.equal("a write outside is noticed", it.changed(), vec!["guard of number"]);
    }
}

pub fn all(t: &mut Tally) {
    let mut it = Things::new();
    notice(t);
    for part in [sizes, refuse_shapes, code_and_rebuild, one_pixel, code_closed_and_rebuild, write, read] {
        part(t, &mut it);
    }
}
