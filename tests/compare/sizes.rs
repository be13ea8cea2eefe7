//! Sizes at which a size held in too few bits shows.

/// Every size up to this one is offered, those whose low 8 bits are a size
/// below 20 among them.
const EVERY: usize = 300;
const _: () = assert!(EVERY >= 256 + 20);

/// And larger ones: around what buffers have, around the most that a segment
/// and an input have, and those whose low 16 bits are a small size.
const LARGER: [usize; 29] = [
    511, 512, 513, 1_024, 1_279, 1_280, 1_499, 1_500, 1_501, 4_095, 4_096, 4_097, 32_767, 32_768, 32_788,
    65_514, 65_515, 65_516, 65_534, 65_535, 65_536, 65_537, 65_546, 65_555, 65_556, 65_576, 131_072, 131_082,
    131_092,
];

pub const NUMBERS: usize = EVERY + 1 + LARGER.len();

pub fn of_number(number: usize) -> usize {
    match number.checked_sub(EVERY + 1) {
        None => number,
        Some(larger) => LARGER[larger],
    }
}

/// `NUMBERS` where the size is none of these.
pub fn number(size: usize) -> usize {
    if size <= EVERY {
        return size;
    }
    let larger = LARGER.iter().position(|s| *s == size);
    larger.map_or(NUMBERS, |i| EVERY + 1 + i)
}

/// Sizes up to 300 in turn; once in `rare` turns a larger one, also in turn,
/// since 65,536 octets cost as much as a thousand small cases.
pub fn in_turn(turn: usize, rare: usize) -> usize {
    if turn % rare == 0 {
        LARGER[turn / rare % LARGER.len()]
    } else {
        turn % (EVERY + 1)
    }
}
