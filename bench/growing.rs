//! Jobs of growing size: one of rows, nets, tracks and stretch grows at a time, up to the largest that document 01 allows or nearly so.

use second_router::prng::Prng;

#[derive(Clone, Copy)]
pub struct Size {
    pub rows: usize,
    pub nets: usize,
    pub tracks: usize,
    pub stretch: usize,
}

const fn size(rows: usize, nets: usize, tracks: usize, stretch: usize) -> Size {
    Size { rows, nets, tracks, stretch }
}

/// Each size differs from the one before in one number.
pub const SIZES: [Size; 17] = [
    size(64, 32, 16, 16),
    size(128, 32, 16, 16),
    size(256, 32, 16, 16),
    size(512, 32, 16, 16),
    size(1024, 32, 16, 16),
    size(1024, 64, 16, 16),
    size(1024, 128, 16, 16),
    size(1024, 256, 16, 16),
    size(1024, 512, 16, 16),
    size(1024, 512, 32, 16),
    size(1024, 512, 64, 16),
    size(1024, 512, 128, 16),
    size(1024, 512, 128, 64),
    size(1024, 512, 128, 128),
    size(1024, 512, 128, 256),
    size(1024, 512, 128, 512),
    size(1024, 512, 128, 1000),
];

/// A job of this size, always the same: nets between neighbouring rows, spread over the board, none of which precedes another; the stretch
/// of each from half the size's stretch up to it; and a block of one to four rows on each track.
pub fn job_text(of: Size) -> Vec<u8> {
    let mut p = Prng::new(1, 4);
    let mut text = format!("(board\n (rows {})\n (tracks {})\n", of.rows, of.tracks);
    for k in 0..of.nets {
        let row = 2 * (k * (of.rows / 2) / of.nets) + 1;
        let (left, right) = if p.chance(1, 2) { (row, row + 1) } else { (row + 1, row) };
        let length = 2 * of.tracks + 1 + 1 + 2 * p.pick(of.stretch / 2, of.stretch) + 2;
        text.push_str(&format!(" (net {} {} {} {} {})\n", k + 1, left, right, length, length));
    }
    for track in 1..=of.tracks {
        let first = p.pick(1, of.rows);
        let last = (first + p.pick(0, 3)).min(of.rows);
        text.push_str(&format!(" (block {} {} {})\n", track, first, last));
    }
    (text + ")\n").into_bytes()
}
