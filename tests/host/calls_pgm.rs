//! PGM files through the example's wrapper, and without it, so that the numbers that it lends stand between guards too.

use crate::lent::Lent;
use crate::lepsarvu;
use crate::{refused, Tally, PICTURE};

extern "C" {
    fn lepsarvu_pgm_size(columns: u16, rows: u16, size: *mut usize) -> u16;
    fn lepsarvu_write_pgm(
        columns: u16, rows: u16, picture: *const u8, picture_length: usize, file: *mut u8, file_length: usize,
        size: *mut usize,
    ) -> u16;
    fn lepsarvu_read_pgm(
        file: *const u8, file_length: usize, picture: *mut u8, picture_length: usize, columns: *mut u16, rows: *mut u16,
    ) -> u16;
    fn lepsarvu_check_pgm(file: *const u8, file_length: usize, columns: *mut u16, rows: *mut u16) -> u16;
}

const BYTES: usize = 20;
const SINGLE: &[u8; BYTES] = b"P5\n3 3\n255\n\0\0\0\0d\0\0\0\0";

/// Headers before piece A's nine pixels, and what a reader of them answers.
const HEADERS: [(&[u8], u16); 23] = [
    (b"P5\n3 3\n255\n", 0),
    (b"P5 \t\r\n00003\r3\t00255 ", 0),
    (b"P5# piece A\n3# 130\n#\n3 #\n255\r", 0),
    (b"", 16),
    (b"P5", 16),
    (b"P2\n3 3\n255\n", 16),
    (b"P53 3\n255\n", 16),
    (b"P5\n000003 3\n255\n", 16),
    (b"P5\n3 3\n 000255\n", 16),
    (b"P5\n3 3 # no newline", 16),
    (b"P5\n3 3\n255#\n", 16),
    (b"P5\n3 -3\n255\n", 16),
    (b"P5\x0b3 3\n255\n", 16),
    (b"P5\n1 9\n255\n", 1),
    (b"P5\n9 1\n255\n", 1),
    (b"P5\n130 3\n254\n", 1),
    (b"P5\n3 65539\n255\n", 1),
    (b"P5\n3 3\n254\n", 17),
    (b"P5\n3 4\n65535\n", 17),
    (b"P5\n3 3\n00000\n", 17),
    (b"P5\n3 3\n255\n ", 18),
    (b"P5\n3 3\n255\n#\n", 18),
    (b"P5\n2 4\n255\n", 18),
];

fn sizes(t: &mut Tally) {
    t.equal("PGM size", lepsarvu::pgm_size(3, 3), Ok(BYTES));
    t.equal("largest PGM size", lepsarvu::pgm_size(129, 129), Ok(16656));
    for (columns, rows) in [(1, 3), (3, 1), (130, 3), (3, 130), (0, 0), (65535, 65535)] {
        t.equal("no PGM size", lepsarvu::pgm_size(columns, rows), refused(1));
    }
}

fn write(t: &mut Tally) {
    let (picture, mut file) = (Lent::of(&PICTURE), Lent::of(&[0xEE; BYTES + 2]));
    let cases = [(130, 0, 0, 1), (3, 8, 0, 5), (3, 0, 0, 5), (2, 9, 20, 5), (3, 9, 19, 8)];
    for (columns, pixels, length, number) in cases {
        let lent = &mut file.part_mut()[..length];
        t.equal("refused PGM", lepsarvu::write_pgm(columns, 3, &picture.part()[..pixels], lent), refused(number));
        t.equal("unchanged", (picture.kept(), file.kept()), (true, true));
    }
    t.equal("writing PGM", lepsarvu::write_pgm(3, 3, picture.part(), file.part_mut()), Ok(BYTES));
    t.equal("PGM", &file.part()[..BYTES], &SINGLE[..]);
    t.equal("after PGM", &file.part()[BYTES..], &[0xEE, 0xEE][..]);
    t.equal("guards", (picture.kept(), file.guards_kept()), (true, true));
}

fn read(t: &mut Tally) {
    for (header, number) in HEADERS {
        let name = String::from_utf8_lossy(header);
        let (file, mut picture) = (Lent::of(&[header, &PICTURE].concat()), Lent::of(&[99; 10]));
        let expected = if number == 0 { Ok((3, 3)) } else { refused(number) };
        t.equal(&name, lepsarvu::check_pgm(file.part()), expected);
        for length in [0, 8, 10] {
            let refusal = refused(if number == 0 { 5 } else { number });
            t.equal(&name, lepsarvu::read_pgm(file.part(), &mut picture.part_mut()[..length]), refusal);
            t.equal(&name, (file.kept(), picture.kept()), (true, true));
        }
        t.equal(&name, lepsarvu::read_pgm(file.part(), &mut picture.part_mut()[..9]), expected);
        let shown = if number == 0 { PICTURE } else { [99; 9] };
        t.equal(&name, (&picture.part()[..9], picture.part()[9]), (&shown[..], 99));
        t.equal(&name, (file.kept(), picture.guards_kept()), (true, true));
    }
}

/// The numbers of a raw call, between guards, that none of them holds by itself.
struct Numbers {
    columns: Lent<u16>,
    rows: Lent<u16>,
    size: Lent<usize>,
}

impl Numbers {
    fn new() -> Self {
        Numbers { columns: Lent::of(&[99]), rows: Lent::of(&[98]), size: Lent::of(&[97]) }
    }

    /// What they hold, if their guards are kept.
    fn held(&self) -> Option<(u16, u16, usize)> {
        let kept = self.columns.guards_kept() && self.rows.guards_kept() && self.size.guards_kept();
        kept.then(|| (self.columns.part()[0], self.rows.part()[0], self.size.part()[0]))
    }
}

fn write_raw(t: &mut Tally) {
    for (columns, pixels, length, number) in [(1, 9, 20, 1), (3, 8, 20, 5), (3, 9, 19, 8), (3, 9, 20, 0)] {
        let (mut picture, mut file, mut it) = (Lent::of(&PICTURE), Lent::of(&[0xEE; BYTES]), Numbers::new());
        let (from, to) = (picture.pointer(), file.pointer());
        let found = unsafe { lepsarvu_write_pgm(columns, 3, from, pixels, to, length, it.size.pointer()) };
        let left = if number == 0 { (99, 98, BYTES) } else { (99, 98, 97) };
        t.equal("raw writing PGM", (found, it.held()), (number, Some(left)));
        t.equal("raw PGM", (file.kept(), file.guards_kept(), picture.kept()), (number != 0, true, true));
        let mut it = Numbers::new();
        let (found, small) = (unsafe { lepsarvu_pgm_size(columns, 3, it.size.pointer()) }, columns < 2);
        let left = if small { (99, 98, 97) } else { (99, 98, BYTES) };
        t.equal("raw PGM size", (found, it.held()), (u16::from(small), Some(left)));
    }
}

fn read_raw(t: &mut Tally) {
    for (header, number) in HEADERS {
        let name = format!("raw {}", String::from_utf8_lossy(header));
        let (bytes, left) = (header.len() + 9, if number == 0 { (3, 3, 97) } else { (99, 98, 97) });
        let (mut file, mut picture) = (Lent::of(&[header, &PICTURE].concat()), Lent::of(&[99; 9]));
        let mut it = Numbers::new();
        let found = unsafe { lepsarvu_check_pgm(file.pointer(), bytes, it.columns.pointer(), it.rows.pointer()) };
        t.equal(&name, (found, it.held(), file.kept()), (number, Some(left), true));
        for pixels in [8, 9] {
            let mut it = Numbers::new();
            let (from, to) = (file.pointer(), picture.pointer());
            let found = unsafe { lepsarvu_read_pgm(from, bytes, to, pixels, it.columns.pointer(), it.rows.pointer()) };
            let (answer, left) = if number == 0 && pixels == 8 { (5, (99, 98, 97)) } else { (number, left) };
            t.equal(&name, (found, it.held(), file.kept()), (answer, Some(left), true));
            t.equal(&name, (picture.kept(), picture.guards_kept()), (answer != 0, true));
        }
    }
}

pub fn all(t: &mut Tally) {
    for part in [sizes, write, read, write_raw, read_raw] {
        part(t);
    }
}
