// SPDX-License-Identifier: MIT OR Apache-2.0
//! The image's fields that can be out of range (R9, R11), by their first bits (H1).

use oracle::rng::Rng;

/// A field, or that many of the same kind behind each other, and numbers at and beyond the ends of its range.
pub struct Field {
    pub first: usize,
    pub width: usize,
    pub count: usize,
    pub values: &'static [u64],
}

const fn field(first: usize, width: usize, count: usize, values: &'static [u64]) -> Field {
    Field { first, width, count, values }
}

/// Mapper, mirroring, update counter, pages of PRG-ROM, PRG-RAM, CHR and CIRAM, and what `LEVEL_FIELDS` has.
pub const FIELDS: &[Field] = &[
    field(29, 16, 1, &[0, 18, 19, 20, 209, 210, 211, 0x1300, 0x8013, 0x80D2, 0xFFFF]),
    field(54, 3, 1, &[0, 1, 2, 3, 4, 5, 6, 7]),
    field(1217, 4, 1, &[0, 14, 15]),
    OUTPUTS,
    OUT,
    field(2424, 10, 1, &[0, 511, 512, 513, 1023]),
    field(PRG_RAM, PRG_RAM_BITS, 1, &[0, 63, 64, 65, 127]),
    field(2442, 9, 1, &[0, 255, 256, 257, 511]),
    field(2452, 3, 1, &[0, 1, 2, 3, 4, 5, 6, 7]),
];

/// Channel outputs, and `out`.
pub const LEVEL_FIELDS: &[Field] = &[OUTPUTS, OUT];
/// The ends of whole numbers from 0 to 3825 and, in two's complement, from -120 to 105, with their neighbours.
const OUTPUTS: Field = field(1224, 12, 8, &[0, 105, 106, 2047, 2048, 3720, 3825, 3826, 3975, 3976, 4095]);
const OUT: Field = field(1320, 32, 1, OUTS);

/// By size: 0, the smallest and largest subnormal, 1/3, the ends 105, 120, 840, 960, 3825 and 30,600, each with its neighbours, the
/// largest number, infinity and NaNs; each of them with either sign.
const OUTS: &[u64] = &with_signs([
    0,
    1,
    0x007F_FFFF,
    0x3EAA_AAAB,
    0x42D1_FFFF,
    0x42D2_0000,
    0x42D2_0001,
    0x42EF_FFFF,
    0x42F0_0000,
    0x42F0_0001,
    0x4451_FFFF,
    0x4452_0000,
    0x4452_0001,
    0x446F_FFFF,
    0x4470_0000,
    0x4470_0001,
    0x456F_0FFF,
    0x456F_1000,
    0x456F_1001,
    0x46EF_0FFF,
    0x46EF_1000,
    0x46EF_1001,
    0x7F7F_FFFF,
    0x7F80_0000,
    0x7F80_0001,
    0x7FC0_0000,
    0x7FFF_FFFF,
]);

/// The bits of floats, and of the same with the sign set.
const fn with_signs(sizes: [u64; SIZES]) -> [u64; 2 * SIZES] {
    let mut bits = [0; 2 * SIZES];
    let mut index = 0;
    while index < SIZES {
        bits[index] = sizes[index];
        bits[SIZES + index] = sizes[index] | 1 << 31;
        index += 1;
    }
    bits
}

const SIZES: usize = 27;

pub const FIRST_ENTRY: usize = 1544;
pub const ENTRIES: usize = 80;
/// The seven low bits of the count of PRG-RAM pages (H12).
pub const PRG_RAM: usize = 2434;
pub const PRG_RAM_BITS: usize = 7;
pub const RESERVE: usize = 2441;
pub const USED: usize = 2455;

/// Most significant bit first.
pub fn set_bits(image: &mut [u8], first: usize, width: usize, value: u64) {
    for place in 0..width {
        let bit = first + width - 1 - place;
        let mask = 0x80 >> (bit % 8);
        image[bit / 8] = if value >> place & 1 == 1 { image[bit / 8] | mask } else { image[bit / 8] & !mask };
    }
}

/// Gives one of the fields, or one entry, one of the numbers.
pub fn bad_field(rng: &mut Rng, image: &mut [u8]) {
    let Field { first, width, count, values } = &FIELDS[rng.below(FIELDS.len() as u64) as usize];
    let index = rng.below(*count as u64) as usize;
    let value = rng.pick(values);
    set_bits(image, first + index * width, *width, value);
    if rng.once_in(8) {
        set_bits(image, FIRST_ENTRY + 11 * rng.below(ENTRIES as u64) as usize, 11, 1_023 << 1);
    }
}
