//! Single pixels through the example's wrapper, by hand: piece A of document 01, the same seen by a camera of 40 to 90,
//! a picture with one grey, whose indices outside the windows are unlawful, and one of depth 0.

use crate::lent::Lent;
use crate::lepsarvu::{self, RebuiltPixel, Settings};
use crate::{refused, Tally, INDICES, NODES, PIECE_A, SHOWN};

/// Every pixel of piece A takes its own index and all four of level 1.
fn piece_a(t: &mut Tally) {
    let levels = Lent::of(&INDICES);
    for place in 0..9 {
        let (column, row) = (place as u16 % 3, place as u16 / 3);
        let found = lepsarvu::rebuild_pixel(&PIECE_A, levels.part(), column, row);
        t.equal("piece A", found, Ok(RebuiltPixel { pixel: SHOWN[place], read: 5 }));
        let camera = Settings { black: 40, white: 90, ..PIECE_A };
        let found = lepsarvu::rebuild_pixel(&camera, levels.part(), column, row);
        let pixel = if place == 4 { 90 } else { 40 };
        t.equal("piece A, clamped", found, Ok(RebuiltPixel { pixel, read: 5 }));
    }
    t.equal("unchanged", levels.kept(), true);
}

/// Settings, then 6, then 21, then 11.
fn refuse(t: &mut Tally) {
    let (good, bad) = (Lent::of(&INDICES), Lent::of(&[i16::MIN; NODES]));
    for (column, row) in [(3, 0), (0, 3), (3, 3), (256, 0), (0, 65535), (4, 0), (257, 257)] {
        for levels in [good.part(), bad.part()] {
            t.equal("outside", lepsarvu::rebuild_pixel(&PIECE_A, levels, column, row), refused(21));
            let short = lepsarvu::rebuild_pixel(&PIECE_A, &levels[1..], column, row);
            t.equal("outside, too few indices", short, refused(6));
            let kernel = lepsarvu::rebuild_pixel(&Settings { kernel: 7, ..PIECE_A }, &levels[1..], column, row);
            t.equal("outside, too few indices, kernel 7", kernel, refused(2));
            let bin = lepsarvu::rebuild_pixel(&Settings { bins: [0; 7], ..PIECE_A }, &levels[1..], column, row);
            t.equal("outside, too few indices, no bin", bin, refused(3));
        }
    }
    t.equal("no indices", lepsarvu::rebuild_pixel(&PIECE_A, &[], 1, 1), refused(6));
    t.equal("unlawful indices", lepsarvu::rebuild_pixel(&PIECE_A, bad.part(), 1, 1), refused(11));
    t.equal("unchanged", (good.kept(), bad.kept()), (true, true));
}

/// Each index of piece A by itself, the least that is unlawful with its bin: pixel (2, 0) takes the first four and the
/// seventh.
fn refuse_indices(t: &mut Tally) {
    for node in 0..NODES {
        for sign in [-1, 1] {
            let mut indices = INDICES;
            indices[node] = sign * if node < 4 { 1025 } else { 410 };
            let levels = Lent::of(&indices);
            let expected = if node < 4 || node == 6 { refused(11) } else { Ok(RebuiltPixel { pixel: 0, read: 5 }) };
            t.equal("one index", lepsarvu::rebuild_pixel(&PIECE_A, levels.part(), 2, 0), expected);
            t.equal("unchanged", levels.kept(), true);
        }
    }
}

/// 5 by 5, 3 by 3 above: columns 0 and 1 take the first two columns above, column 2 all three, columns 3 and 4 the last
/// two; rows alike. What is 5 times 10 there is 50 at each of its pixels.
fn one_grey(t: &mut Tally) {
    const WINDOWS: [(usize, usize); 5] = [(0, 1), (0, 1), (0, 2), (1, 2), (1, 2)];
    for kernel in 3..=6 {
        let s = Settings { columns: 5, rows: 5, kernel, white: 255, bins: [1, 10, 0, 0, 0, 0, 0], ..PIECE_A };
        for (column, row) in (0..25).map(|place| (place % 5, place / 5)) {
            let (columns, rows) = (WINDOWS[column], WINDOWS[row]);
            let mut indices = [i16::MIN; 9 + 25];
            for (i, j) in (columns.0..=columns.1).flat_map(|i| (rows.0..=rows.1).map(move |j| (i, j))) {
                indices[3 * j + i] = 5;
            }
            indices[9 + 5 * row + column] = 7;
            let levels = Lent::of(&indices);
            let found = lepsarvu::rebuild_pixel(&s, levels.part(), column as u16, row as u16);
            let read = 1 + (columns.1 - columns.0 + 1) * (rows.1 - rows.0 + 1);
            t.equal("one grey", found, Ok(RebuiltPixel { pixel: 57, read: read as u16 }));
            t.equal("unchanged", levels.kept(), true);
        }
    }
}

/// At depth 0 a pixel is its own index times the bin, and no other index is looked at.
fn depth_0(t: &mut Tally) {
    let s = Settings { columns: 3, rows: 2, depth: 0, bins: [3, 0, 0, 0, 0, 0, 0], ..PIECE_A };
    let levels = Lent::of(&[-1, 85, i16::MIN, 86, i16::MAX, 0]);
    for (place, pixel) in [(0, Some(0)), (1, Some(255)), (2, None), (3, Some(255)), (4, None), (5, Some(0))] {
        let found = lepsarvu::rebuild_pixel(&s, levels.part(), place % 3, place / 3);
        let expected = pixel.map_or(refused(11), |pixel| Ok(RebuiltPixel { pixel, read: 1 }));
        t.equal("depth 0", found, expected);
    }
    t.equal("unchanged", levels.kept(), true);
}

pub fn all(t: &mut Tally) {
    for part in [piece_a, refuse, refuse_indices, one_grey, depth_0] {
        part(t);
    }
}
