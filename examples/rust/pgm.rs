//! Codes a PGM picture into a bale file, and shows what the file holds as a PGM picture: pgm IN.pgm OUT.bale BACK.pgm
//! The depth is the deepest that the size allows. examples/README.md has the commands that build and run it.

#[allow(dead_code)]
mod lepsarvu;

use lepsarvu::{Answer, Note, Reading, Refused, Settings};
use std::{env, fmt, fs, process};

const KERNEL: u16 = 4;
const BIN: u16 = 8;
const NOT_FITTED: Reading = Reading { kind: 0, number: 0 };
const NOTE: Note = Note { before_drier: NOT_FITTED, at_press: NOT_FITTED };

struct Picture {
    columns: u16,
    rows: u16,
    pixels: Vec<u8>,
}

/// What ends the program early: a refused call, or a path that can't be read or written.
struct Failure(String);

impl From<Refused> for Failure {
    fn from(refused: Refused) -> Self {
        Failure(format!("refused {}", refused.0))
    }
}

/// Names the path where something went wrong.
fn at<T, E: fmt::Display>(path: &str, done: Result<T, E>) -> Result<T, Failure> {
    done.map_err(|error| Failure(format!("{path}: {error}")))
}

fn picture_of_pgm(file: &[u8]) -> Answer<Picture> {
    let (columns, rows) = lepsarvu::check_pgm(file)?;
    let mut pixels = vec![0; usize::from(columns) * usize::from(rows)];
    lepsarvu::read_pgm(file, &mut pixels)?;
    Ok(Picture { columns, rows, pixels })
}

fn pgm_of(it: &Picture) -> Answer<Vec<u8>> {
    let mut file = vec![0; lepsarvu::pgm_size(it.columns, it.rows)?];
    lepsarvu::write_pgm(it.columns, it.rows, &it.pixels, &mut file)?;
    Ok(file)
}

/// The deepest pyramid of the picture's size, with the same bin at each level. A PGM picture may hold any grey: black
/// is 0 and white 255.
fn settings_of(it: &Picture) -> Answer<Settings> {
    let depth = lepsarvu::deepest_depth(it.columns, it.rows)?;
    let mut bins = [0; 7];
    bins[..=usize::from(depth)].fill(BIN);
    Ok(Settings { columns: it.columns, rows: it.rows, depth, kernel: KERNEL, black: 0, white: 255, bins })
}

/// The bale file of a picture, neither probe being fitted.
fn bale_of(s: &Settings, it: &Picture) -> Answer<Vec<u8>> {
    let nodes = lepsarvu::total_nodes(s)?;
    let (mut levels, mut work) = (vec![0; nodes], vec![0; nodes]);
    lepsarvu::coding(s, &it.pixels, &mut levels, &mut work)?;
    let mut file = vec![0; lepsarvu::file_size(s)?];
    lepsarvu::write_file(s, &NOTE, &levels, &mut file)?;
    Ok(file)
}

fn picture_of_bale(file: &[u8]) -> Answer<Picture> {
    let s = lepsarvu::check_file(file)?.settings;
    let nodes = lepsarvu::total_nodes(&s)?;
    let (mut levels, mut work) = (vec![0; nodes], vec![0; nodes]);
    lepsarvu::read_file(file, &mut levels)?;
    let mut pixels = vec![0; usize::from(s.columns) * usize::from(s.rows)];
    lepsarvu::rebuilding(&s, &levels, &mut pixels, &mut work)?;
    Ok(Picture { columns: s.columns, rows: s.rows, pixels })
}

/// Answers whether the largest difference is within the bound.
fn run(from: &str, bale: &str, back: &str) -> Result<bool, Failure> {
    let coded = picture_of_pgm(&at(from, fs::read(from))?)?;
    let s = settings_of(&coded)?;
    let bound = lepsarvu::level_bounds(&s)?[0];
    at(bale, fs::write(bale, bale_of(&s, &coded)?))?;
    let file = at(bale, fs::read(bale))?;
    let shown = picture_of_bale(&file)?;
    at(back, fs::write(back, pgm_of(&shown)?))?;
    let largest = coded.pixels.iter().zip(&shown.pixels).map(|(a, b)| a.abs_diff(*b)).max().unwrap_or(0);
    println!("picture {} {}\nbale file of {} bytes", coded.columns, coded.rows, file.len());
    println!("no pixel differs by more than {bound} grey levels\nlargest difference {largest}");
    Ok(u16::from(largest) <= bound)
}

fn main() {
    let words: Vec<String> = env::args().skip(1).collect();
    let done = match &words[..] {
        [from, bale, back] => run(from, bale, back),
        _ => Err(Failure(String::from("usage: pgm IN.pgm OUT.bale BACK.pgm"))),
    };
    let within = done.unwrap_or_else(|failure| {
        eprintln!("{}", failure.0);
        false
    });
    process::exit(if within { 0 } else { 1 });
}
