//! Piece A seen by a camera of 40 to 140, through the example's wrapper: every pixel is 40 more, so are the averages,
//! the indices below the top are the same, and what is rebuilt is clamped to 40, where piece A itself is clamped to 0.

use crate::lent::Lent;
use crate::lepsarvu::{self, Bale, Refused, Settings};
use crate::{refused, Tally, AVERAGES, FILE, INDICES, NODES, NOTE, PICTURE, PIECE_A};

const MORE: u8 = 40;
const CAMERA: Settings = Settings { black: MORE as u16, white: MORE as u16 + 100, ..PIECE_A };

/// The file, where black and white follow the kernel. Each index of its top is 10 more, which with a bin of 4 is 40.
fn file() -> Vec<u8> {
    let mut file = [&[6, 0], &FILE[2..10], &[MORE, 0, MORE + 100, 0], &FILE[10..]].concat();
    for node in 0..4 {
        file[34 + 2 * node] += 10;
    }
    file
}

fn indices() -> [i16; NODES] {
    let mut indices = INDICES;
    indices[..4].fill(16);
    indices
}

/// Black and white that break their rule are 19, which comes after a kernel's 2 and before a bin's 3.
fn sizes(t: &mut Tally) {
    t.equal("bytes of a file", lepsarvu::file_size(&CAMERA), Ok(62));
    t.equal("bounds", lepsarvu::level_bounds(&CAMERA), lepsarvu::level_bounds(&PIECE_A));
    for (black, white) in [(0, 0), (255, 255), (140, 40), (0, 256), (65534, 65535), (65535, 255)] {
        let s = Settings { black, white, bins: [0; 7], ..PIECE_A };
        t.equal("black and white: size", lepsarvu::file_size(&s), refused(19));
        t.equal("black and white: nodes", lepsarvu::total_nodes(&s), refused(19));
        t.equal("black and white: bounds", lepsarvu::level_bounds(&s), refused(19));
        t.equal("black and white: closed-loop bounds", lepsarvu::closed_loop_bounds(&s), refused(19));
        t.equal("kernel", lepsarvu::file_size(&Settings { kernel: 7, ..s }), refused(2));
    }
}

fn code_and_rebuild(t: &mut Tally) {
    let picture = Lent::of(&PICTURE.map(|pixel| pixel + MORE));
    let (settings, mut levels, mut work) = (Lent::of(&[CAMERA]), Lent::of(&[99; NODES]), Lent::of(&[77; NODES]));
    let mut shown = Lent::of(&[55; 9]);
    let s = &settings.part()[0];
    t.equal("coding", lepsarvu::coding(s, picture.part(), levels.part_mut(), work.part_mut()), Ok(()));
    t.equal("indices", levels.part(), &indices()[..]);
    t.equal("averages", work.part(), &AVERAGES.map(|average| average + i32::from(MORE))[..]);
    t.equal("rebuilding", lepsarvu::rebuilding(s, levels.part(), shown.part_mut(), work.part_mut()), Ok(()));
    t.equal("values", &work.part()[4..], &[34, 34, 34, 34, 134, 34, 34, 34, 34][..]);
    t.equal("shown", shown.part(), &[40, 40, 40, 40, 134, 40, 40, 40, 40][..]);
    let kept = [settings.kept(), picture.kept(), levels.guards_kept(), work.guards_kept(), shown.guards_kept()];
    t.equal("guards", kept, [true; 5]);
}

/// A pixel just below black or just above white, anywhere, is 20; that comes after the lengths and changes nothing.
fn turn_down(t: &mut Tally) {
    for (place, pixel) in (0..9).flat_map(|place| [(place, MORE - 1), (place, MORE + 101), (place, 0), (place, 255)]) {
        let mut pixels = PICTURE.map(|pixel| pixel + MORE);
        pixels[place] = pixel;
        let (picture, mut levels, mut work) = (Lent::of(&pixels), Lent::of(&[99; NODES]), Lent::of(&[77; NODES]));
        for coding in [lepsarvu::coding, lepsarvu::closed_loop_coding] {
            t.equal("outside", coding(&CAMERA, picture.part(), levels.part_mut(), work.part_mut()), refused(20));
            let short = &mut work.part_mut()[1..];
            t.equal("no work", coding(&CAMERA, picture.part(), levels.part_mut(), short), refused(7));
            t.equal("unchanged", [picture.kept(), levels.kept(), work.kept()], [true; 3]);
        }
    }
}

fn write_and_read(t: &mut Tally) {
    let (indices, expected, mut written) = (Lent::of(&indices()), file(), Lent::of(&[0xEE; 64]));
    let mut levels = Lent::of(&[99; NODES]);
    let short = &mut written.part_mut()[..61];
    t.equal("too short", lepsarvu::write_file(&CAMERA, &NOTE, indices.part(), short), refused(8));
    t.equal("unchanged", written.kept(), true);
    t.equal("writing", lepsarvu::write_file(&CAMERA, &NOTE, indices.part(), written.part_mut()), Ok(62));
    t.equal("file", (&written.part()[..62], &written.part()[62..]), (&expected[..], &[0xEE, 0xEE][..]));
    let bale = Bale { settings: CAMERA, note: NOTE };
    t.equal("checking", lepsarvu::check_file(&expected), Ok(bale));
    t.equal("reading", lepsarvu::read_file(&expected, levels.part_mut()), Ok(bale));
    t.equal("indices read", levels.part(), indices.part());
    let kept = [indices.kept(), written.guards_kept(), levels.guards_kept()];
    t.equal("guards", kept, [true; 3]);
}

/// Six numbers of which the last two need not stand there, or break their rule, and the file cut after each byte.
fn refuse_files(t: &mut Tally) {
    for (greys, number) in [([0, 0, 255, 0], 10), ([40, 0, 40, 0], 19), ([140, 0, 40, 0], 19), ([0, 0, 0, 1], 19)] {
        let mut file = file();
        file[10..14].copy_from_slice(&greys);
        t.equal("six numbers", lepsarvu::check_file(&file), refused(number));
        file[8] = 7; // the kernel
        let first = if number == 10 { 10 } else { 2 };
        t.equal("six numbers, kernel 7", lepsarvu::check_file(&file), refused(first));
        t.equal("six numbers, cut", lepsarvu::check_file(&file[..13]), refused(9));
    }
    for length in 0..file().len() {
        t.equal("cut", lepsarvu::check_file(&file()[..length]).err(), Some(Refused(9)));
    }
}

pub fn all(t: &mut Tally) {
    for part in [sizes, code_and_rebuild, turn_down, write_and_read, refuse_files] {
        part(t);
    }
}
