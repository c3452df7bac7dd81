//! Document 01's piece A through the library from Rust: coding, rebuilding, one pixel, the file, black and white of a
//! camera, PGM files, and refusals.

mod calls_greys;
mod calls_pgm;
mod calls_pixels;
mod calls_raw;
mod lent;
#[path = "../../examples/rust/lepsarvu.rs"]
mod lepsarvu;

use lent::{Guard, Lent};
use lepsarvu::{Bale, Note, Reading, Refused, Settings};
use std::fmt::Debug;

const NODES: usize = 13;
const PIECE_A: Settings =
    Settings { columns: 3, rows: 3, depth: 1, kernel: 4, black: 0, white: 255, bins: [10, 4, 0, 0, 0, 0, 0] };
const PICTURE: [u8; 9] = [0, 0, 0, 0, 100, 0, 0, 0, 0];
const INDICES: [i16; NODES] = [6, 6, 6, 6, -3, -3, -3, -3, 7, -3, -3, -3, -3];
const AVERAGES: [i32; NODES] = [25, 25, 25, 25, 0, 0, 0, 0, 100, 0, 0, 0, 0];
const VALUES: [i32; NODES] = [24, 24, 24, 24, -6, -6, -6, -6, 94, -6, -6, -6, -6];
const SHOWN: [u8; 9] = [0, 0, 0, 0, 94, 0, 0, 0, 0];

// Closed-loop: what is left of piece A's level 0 after EXPAND of the rebuilt 24s is 76 at the centre, -24 elsewhere.
const CLOSED_INDICES: [i16; NODES] = [6, 6, 6, 6, -2, -2, -2, -2, 8, -2, -2, -2, -2];
const CLOSED_VALUES: [i32; NODES] = [24, 24, 24, 24, 4, 4, 4, 4, 104, 4, 4, 4, 4];
const CLOSED_SHOWN: [u8; 9] = [4, 4, 4, 4, 104, 4, 4, 4, 4];

const NOTE: Note =
    Note { before_drier: Reading { kind: 1, number: 0x40D00000 }, at_press: Reading { kind: 0, number: 0 } };
const FILE: [u8; 58] = [
    4, 0, 3, 0, 3, 0, 1, 0, 4, 0, 2, 0, 4, 0, 10, 0, 2, 0, 1, 0, 0, 0xD0, 0x40, 0, 0, 0, 0, 0, 4, 0, 6, 0, 6, 0, 6, 0,
    6, 0, 9, 0, 0xFD, 0xFF, 0xFD, 0xFF, 0xFD, 0xFF, 0xFD, 0xFF, 7, 0, 0xFD, 0xFF, 0xFD, 0xFF, 0xFD, 0xFF, 0xFD, 0xFF,
];

#[derive(Default)]
struct Tally {
    passed: u32,
    failed: u32,
}

impl Tally {
    fn equal<T: Debug + PartialEq>(&mut self, name: &str, found: T, expected: T) {
        if found == expected {
            self.passed += 1;
        } else {
            self.failed += 1;
            eprintln!("{name}: found {found:?}, expected {expected:?}");
        }
    }
}

fn refused<T>(number: u16) -> Result<T, Refused> {
    Err(Refused(number))
}

fn sizes(t: &mut Tally) {
    t.equal("nodes", lepsarvu::total_nodes(&PIECE_A), Ok(NODES));
    t.equal("bounds", lepsarvu::level_bounds(&PIECE_A), Ok([7, 2, 0, 0, 0, 0, 0]));
    t.equal("closed-loop bounds", lepsarvu::closed_loop_bounds(&PIECE_A), Ok([5, 2, 0, 0, 0, 0, 0]));
    t.equal("file size", lepsarvu::file_size(&PIECE_A), Ok(FILE.len()));
    t.equal("deepest of 129 by 129", lepsarvu::deepest_depth(129, 129), Ok(6));
    t.equal("deepest of 97 by 97", lepsarvu::deepest_depth(97, 97), Ok(5));
    t.equal("deepest of 2 by 129", lepsarvu::deepest_depth(2, 129), Ok(0));
    t.equal("deepest of 1 by 2", lepsarvu::deepest_depth(1, 2), refused(1));
    t.equal("kernel 7", lepsarvu::level_bounds(&Settings { kernel: 7, ..PIECE_A }), refused(2));
    t.equal("kernel 2", lepsarvu::closed_loop_bounds(&Settings { kernel: 2, ..PIECE_A }), refused(2));
    t.equal("no bin", lepsarvu::file_size(&Settings { bins: [0; 7], ..PIECE_A }), refused(3));
}

/// Columns, rows and depths, and the number that tells which of them is at fault.
pub const SHAPES: [(u16, u16, u16, u16); 10] = [
    (1, 3, 1, 1),
    (130, 3, 1, 1),
    (3, 1, 1, 1),
    (3, 130, 1, 1),
    (4, 3, 1, 14),
    (3, 4, 1, 15),
    (4, 4, 1, 14),
    (129, 129, 7, 13),
    (4, 4, 7, 13),
    (1, 3, 7, 1),
];

/// Piece A's file with another shape.
pub fn file_of(columns: u16, rows: u16, depth: u16) -> [u8; FILE.len()] {
    let mut file = FILE;
    for (at, number) in [columns, rows, depth].iter().enumerate() {
        file[2 + 2 * at..4 + 2 * at].copy_from_slice(&number.to_le_bytes());
    }
    file
}

/// Every function tells which size is at fault, and changes nothing.
fn refuse_shapes(t: &mut Tally) {
    for (columns, rows, depth, number) in SHAPES {
        let s = Settings { columns, rows, depth, ..PIECE_A };
        let (mut b, shaped) = (Buffers::new(NODES), Lent::of(&file_of(columns, rows, depth)));
        let (indices, mut file, mut levels) = (Lent::of(&INDICES), Lent::of(&[0xEE; 60]), Lent::of(&[99; NODES]));
        b.settings = Lent::of(&[s]);
        let found = [
            lepsarvu::total_nodes(&s).err(),
            lepsarvu::level_bounds(&s).err(),
            lepsarvu::closed_loop_bounds(&s).err(),
            lepsarvu::file_size(&s).err(),
            b.code(lepsarvu::coding, 0, 0, 0).err(),
            b.code(lepsarvu::closed_loop_coding, 0, 0, 0).err(),
            b.rebuild(0).err(),
            lepsarvu::rebuild_pixel(&s, indices.part(), 1, 1).err(),
            lepsarvu::write_file(&s, &NOTE, indices.part(), file.part_mut()).err(),
            lepsarvu::check_file(shaped.part()).err(),
            lepsarvu::read_file(shaped.part(), levels.part_mut()).err(),
        ];
        let name = format!("{columns} by {rows}, depth {depth}");
        t.equal(&name, found, [Some(Refused(number)); 11]);
        let kept = [b.kept(), indices.kept(), file.kept(), levels.kept(), shaped.kept()];
        t.equal(&format!("{name}: unchanged"), kept, [true; 5]);
    }
}

/// Either coding.
type Coding = fn(&Settings, &[u8], &mut [i16], &mut [i32]) -> Result<(), Refused>;

/// The buffers of a coding and a rebuilding, and the settings, between guards.
struct Buffers {
    settings: Lent<Settings>,
    picture: Lent<u8>,
    levels: Lent<i16>,
    work: Lent<i32>,
    shown: Lent<u8>,
}

impl Guard for Settings {
    const GUARD: Self = {
        let it = 0xA5A5;
        Settings { columns: it, rows: it, depth: it, kernel: it, black: it, white: it, bins: [it; 7] }
    };
}

impl Guard for Note {
    const GUARD: Self = {
        let it = Reading { kind: 0xA5A5_A5A5, number: 0xA5A5_A5A5 };
        Note { before_drier: it, at_press: it }
    };
}

impl Buffers {
    fn new(places: usize) -> Self {
        Buffers {
            settings: Lent::of(&[PIECE_A]),
            picture: Lent::of(&PICTURE),
            levels: Lent::of(&[99; NODES]),
            work: Lent::of(&vec![77; places]),
            shown: Lent::of(&[55; 9]),
        }
    }

    /// Codes with buffers from these places on.
    fn code(&mut self, coding: Coding, picture: usize, levels: usize, work: usize) -> Result<(), Refused> {
        let (lent, indices) = (&self.picture.part()[picture..], &mut self.levels.part_mut()[levels..]);
        coding(&self.settings.part()[0], lent, indices, &mut self.work.part_mut()[work..])
    }

    fn rebuild(&mut self, work: usize) -> Result<(), Refused> {
        let (lent, shown) = (self.levels.part(), self.shown.part_mut());
        lepsarvu::rebuilding(&self.settings.part()[0], lent, shown, &mut self.work.part_mut()[work..])
    }

    fn guards_kept(&self) -> bool {
        let written = [self.levels.guards_kept(), self.work.guards_kept(), self.shown.guards_kept()];
        self.settings.kept() && self.picture.kept() && written == [true; 3]
    }

    fn kept(&self) -> bool {
        self.guards_kept() && self.levels.kept() && self.work.kept() && self.shown.kept()
    }
}

/// Places of the work buffer after T keep their contents.
fn code_and_rebuild(t: &mut Tally) {
    let codings: [(Coding, _, _, _, _); 2] = [
        (lepsarvu::coding, INDICES, AVERAGES, VALUES, SHOWN),
        (lepsarvu::closed_loop_coding, CLOSED_INDICES, CLOSED_VALUES, CLOSED_VALUES, CLOSED_SHOWN),
    ];
    for (coding, indices, left, values, shown) in codings {
        let mut b = Buffers::new(NODES + 2);
        t.equal("coding", b.code(coding, 0, 0, 0), Ok(()));
        t.equal("indices", b.levels.part(), &indices[..]);
        t.equal("left in the work buffer", &b.work.part()[..NODES], &left[..]);
        t.equal("after what was left", &b.work.part()[NODES..], &[77, 77][..]);
        t.equal("coding: guards, and the picture to be shown", (b.guards_kept(), b.shown.kept()), (true, true));
        b.levels.seal();
        b.work.fill(66);
        t.equal("rebuilding", b.rebuild(0), Ok(()));
        t.equal("values", &b.work.part()[..NODES], &values[..]);
        t.equal("after the values", &b.work.part()[NODES..], &[66, 66][..]);
        t.equal("picture", b.shown.part(), &shown[..]);
        t.equal("rebuilding: guards and levels", (b.guards_kept(), b.levels.kept()), (true, true));
    }
}

/// Refused calls change nothing.
fn refuse_buffers(t: &mut Tally) {
    let mut b = Buffers::new(NODES);
    for (name, (picture, levels, work), number) in [
        ("picture too short", (1, 0, 0), 5),
        ("no picture", (9, 0, 0), 5),
        ("levels", (0, 1, 0), 6),
        ("work", (0, 0, 1), 7),
    ] {
        for coding in [lepsarvu::coding as Coding, lepsarvu::closed_loop_coding] {
            t.equal(name, b.code(coding, picture, levels, work), refused(number));
            t.equal("unchanged", b.kept(), true);
        }
    }
    let mut large = INDICES;
    large[4] = 410; // times bin 10
    b.levels = Lent::of(&large);
    t.equal("index 410", b.rebuild(0), refused(11));
    t.equal("unchanged", b.kept(), true);
    large[4] = 409;
    b.levels = Lent::of(&large);
    t.equal("no work", b.rebuild(NODES), refused(7));
    t.equal("unchanged", b.kept(), true);
    t.equal("index 409", b.rebuild(0), Ok(()));
    t.equal("guards", b.guards_kept(), true);
}

fn write(t: &mut Tally) {
    let (indices, mut file, mut other) = (Lent::of(&INDICES), Lent::of(&[0xEE; 60]), Lent::of(&[0xEE; 60]));
    t.equal("writing", lepsarvu::write_file(&PIECE_A, &NOTE, indices.part(), file.part_mut()), Ok(58));
    t.equal("file", &file.part()[..58], &FILE[..]);
    t.equal("after the file", &file.part()[58..], &[0xEE, 0xEE][..]);
    t.equal("guards", (indices.kept(), file.guards_kept()), (true, true));
    let with = |kind, number| Note { before_drier: Reading { kind, number }, ..NOTE };
    let large = Lent::of(&[1025; NODES]);
    for (name, note, levels, length, number) in [
        ("above 100", with(1, 0x42C80001), indices.part(), 60, 4),
        ("below 0", with(1, 0x80000000), indices.part(), 60, 4),
        ("kind 3", with(3, 0), indices.part(), 60, 4),
        ("kind 256", with(256, 0), indices.part(), 60, 4),
        ("kind 65538", with(65538, 9), indices.part(), 60, 4),
        ("levels", NOTE, &indices.part()[1..], 60, 6),
        ("file too short", NOTE, indices.part(), 57, 8),
        ("index", NOTE, large.part(), 60, 11),
    ] {
        let found = lepsarvu::write_file(&PIECE_A, &note, levels, &mut other.part_mut()[..length]);
        t.equal(name, found, refused(number));
        t.equal("unchanged", (indices.kept(), large.kept(), other.kept()), (true, true, true));
    }
    let found = lepsarvu::write_file(&PIECE_A, &with(1, 0x42C80000), indices.part(), other.part_mut());
    t.equal("100", found, Ok(58));
    t.equal("guards", (indices.kept(), other.guards_kept()), (true, true));
}

fn read(t: &mut Tally) {
    let (file, mut levels) = (Lent::of(&FILE), Lent::of(&[99; NODES]));
    t.equal("level buffer", lepsarvu::read_file(file.part(), &mut levels.part_mut()[1..]), refused(6));
    t.equal("empty file", lepsarvu::read_file(&file.part()[..0], levels.part_mut()), refused(9));
    for length in 0..FILE.len() {
        t.equal("cut file", lepsarvu::check_file(&file.part()[..length]), refused(9));
    }
    let longer = Lent::of(&[&FILE[..], &[0]].concat());
    t.equal("longer file", lepsarvu::read_file(longer.part(), levels.part_mut()), refused(12));
    let mut wrong = FILE;
    for count in [0, 3, 5, 7] {
        wrong[0] = count;
        t.equal("wrong count", lepsarvu::check_file(Lent::of(&wrong).part()), refused(10));
    }
    t.equal("unchanged", (file.kept(), longer.kept(), levels.kept()), (true, true, true));
    let bale = Bale { settings: PIECE_A, note: NOTE };
    t.equal("reading", lepsarvu::read_file(file.part(), levels.part_mut()), Ok(bale));
    t.equal("indices read", levels.part(), &INDICES[..]);
    t.equal("checking", lepsarvu::check_file(file.part()), Ok(bale));
    t.equal("guards", (file.kept(), levels.guards_kept()), (true, true));
}

fn main() {
    let mut t = Tally::default();
    for part in [sizes, refuse_shapes, code_and_rebuild, refuse_buffers, write, read] {
        part(&mut t);
    }
    for part in [calls_greys::all, calls_pixels::all, calls_raw::all, calls_pgm::all] {
        part(&mut t);
    }
    println!("{} passed, {} failed", t.passed, t.failed);
    std::process::exit(i32::from(t.failed != 0));
}
