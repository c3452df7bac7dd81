//! Codes a picture, writes its bale file to memory, reads the file back, rebuilds the picture, and prints the bound and
//! the largest difference found; then the last two of the same picture coded closed-loop, and one pixel of the file,
//! rebuilt without the others. examples/README.md has the commands that build and run it.

#[allow(dead_code)]
mod lepsarvu;

use lepsarvu::{Answer, Note, Reading, RebuiltPixel, Settings};

/// Of a camera that delivers grey from 16 to 235. Slot l of the bins is of level l; a slot above the depth holds 0.
const SETTINGS: Settings = Settings {
    columns: 97,
    rows: 65,
    depth: 5,
    kernel: 4,
    black: 16,
    white: 235,
    bins: [12, 8, 6, 4, 3, 2, 0],
};

/// The column and row of the pixel that is looked at alone.
const PLACE: (u16, u16) = (40, 30);

/// Every pixel must lie between black and white.
fn make_picture(s: &Settings) -> Vec<u8> {
    let (columns, rows) = (usize::from(s.columns), usize::from(s.rows));
    let (black, greys) = (usize::from(s.black), usize::from(s.white - s.black) + 1);
    let pixel = |at: usize| (at % columns, at / columns);
    let grey = |(x, y)| black + (x * y / 16 + 3 * y + 37 * (x % 5)) % greys;
    (0..columns * rows).map(pixel).map(|at| grey(at) as u8).collect()
}

/// The bale file of a picture.
fn file_of(s: &Settings, picture: &[u8]) -> Answer<Vec<u8>> {
    let nodes = lepsarvu::total_nodes(s)?;
    let (mut levels, mut work) = (vec![0; nodes], vec![0; nodes]);
    lepsarvu::coding(s, picture, &mut levels, &mut work)?;
    // 6.5 percent before the drier, not fitted at the press.
    let note = Note {
        before_drier: Reading { kind: 1, number: 6.5f32.to_bits() },
        at_press: Reading { kind: 0, number: 0 },
    };
    let mut file = vec![0; lepsarvu::file_size(s)?];
    lepsarvu::write_file(s, &note, &levels, &mut file)?;
    Ok(file)
}

/// The settings of a bale file, and its picture.
fn picture_of(file: &[u8]) -> Answer<(Settings, Vec<u8>)> {
    let s = lepsarvu::check_file(file)?.settings;
    let nodes = lepsarvu::total_nodes(&s)?;
    let (mut levels, mut work) = (vec![0; nodes], vec![0; nodes]);
    lepsarvu::read_file(file, &mut levels)?;
    let mut picture = vec![0; usize::from(s.columns) * usize::from(s.rows)];
    lepsarvu::rebuilding(&s, &levels, &mut picture, &mut work)?;
    Ok((s, picture))
}

/// One pixel of a bale file; no picture and no work buffer is lent.
fn pixel_of(file: &[u8], column: u16, row: u16) -> Answer<RebuiltPixel> {
    let s = lepsarvu::check_file(file)?.settings;
    let mut levels = vec![0; lepsarvu::total_nodes(&s)?];
    lepsarvu::read_file(file, &mut levels)?;
    lepsarvu::rebuild_pixel(&s, &levels, column, row)
}

fn largest_difference(picture: &[u8], shown: &[u8]) -> u16 {
    picture.iter().zip(shown).map(|(a, b)| a.abs_diff(*b)).max().unwrap_or(0).into()
}

/// The calls for the bounds and the coding are others; a file is as long, and is written, read and rebuilt alike.
fn code_closed_loop(s: &Settings, picture: &[u8]) -> Answer<bool> {
    let bound = lepsarvu::closed_loop_bounds(s)?[0];
    let nodes = lepsarvu::total_nodes(s)?;
    let (mut levels, mut work, mut shown) = (vec![0; nodes], vec![0; nodes], vec![0; picture.len()]);
    lepsarvu::closed_loop_coding(s, picture, &mut levels, &mut work)?;
    lepsarvu::rebuilding(s, &levels, &mut shown, &mut work)?;
    let largest = largest_difference(picture, &shown);
    println!("closed-loop: bound {bound}, largest difference {largest}");
    Ok(largest <= bound)
}

/// Whether the pixel is the one of the picture rebuilt whole.
fn look_at_pixel(file: &[u8], columns: u16, shown: &[u8]) -> Answer<bool> {
    let (column, row) = PLACE;
    let one = pixel_of(file, column, row)?;
    println!("pixel at column {column}, row {row}: {}, {} indices read", one.pixel, one.read);
    let at = usize::from(row) * usize::from(columns) + usize::from(column);
    Ok(one.pixel == shown[at])
}

fn run() -> Answer<bool> {
    let picture = make_picture(&SETTINGS);
    let file = file_of(&SETTINGS, &picture)?;
    let (read, shown) = picture_of(&file)?;
    let largest = largest_difference(&picture, &shown);
    let bound = lepsarvu::level_bounds(&SETTINGS)?[0];
    println!("picture {} by {} in a file of {} bytes", read.columns, read.rows, file.len());
    println!("black {}, white {}", read.black, read.white);
    println!("bound {bound}, largest difference {largest}");
    Ok(largest <= bound && code_closed_loop(&SETTINGS, &picture)? && look_at_pixel(&file, read.columns, &shown)?)
}

fn main() {
    let within = run().unwrap_or_else(|refused| {
        eprintln!("refused {}", refused.0);
        false
    });
    std::process::exit(if within { 0 } else { 1 });
}
