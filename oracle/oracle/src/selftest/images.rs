// SPDX-License-Identifier: MIT OR Apache-2.0
//! Tests of the image's writing and reading (H1 to H3, H9, H10): a fresh P, the first bit of every field, what is out of range, both round
//! trips, and the two lengths with the byte of options.

use super::{
    bench::{Handy, P, loaded, new_edition, number, refusal},
    checks::Checks,
};
use oracle::{
    image::{LEN, OPTIONS_LEN, decode, encode, lengths, of_length},
    options::Options,
    range::in_range,
    rng::Rng,
    session::Session,
    states,
};
use tetanes::{m019_namco163::Board, ppu::Mirroring};

type Lending = fn(&mut Session);
type Numbers = &'static [u64];

/// H1: field, first bit, width of one number, how many, and how to give the first and the last of them the greatest number that the field
/// can be lent (in range, so that the image can be written).
const FIELDS: &[(&str, usize, usize, usize, Lending)] = &[
    ("counter", 0, 16, 1, |s| s.chip.regs.irq_counter = 0xFFFF),
    ("pending", 16, 1, 1, |s| s.chip.regs.irq_pending = true),
    ("low select", 17, 1, 1, |s| s.chip.regs.nt_select_lo = true),
    ("high select", 18, 1, 1, |s| s.chip.regs.nt_select_hi = true),
    ("protect", 19, 8, 1, |s| s.chip.regs.prg_ram_protect = 0xFF),
    ("submapper", 45, 8, 1, |s| s.chip.submapper_num = 0xFF),
    ("detecting", 53, 1, 1, |s| s.chip.auto_detect_board = true),
    ("written", 57, 1, 1, |s| s.chip.prg_ram_written_to = true),
    ("CIRAM flags", 58, 1, 12, |s| (s.chip.nt_bank_enable[0], s.chip.nt_bank_enable[11]) = (true, true)),
    ("CHR banks", 70, 8, 12, |s| (s.chip.chr_banks[0], s.chip.chr_banks[11]) = (0xFF, 0xFF)),
    ("PRG banks", 166, 6, 3, |s| (s.chip.prg_banks[0], s.chip.prg_banks[2]) = (63, 63)),
    ("sound RAM", 184, 8, 128, |s| (s.chip.audio.ram[0], s.chip.audio.ram[127]) = (0xFF, 0xFF)),
    ("sound address", 1208, 7, 1, |s| s.chip.audio.addr = 127),
    ("auto", 1215, 1, 1, |s| s.chip.audio.auto_increment = true),
    ("disabled", 1216, 1, 1, |s| s.chip.audio.disabled = true),
    ("phases", 1352, 24, 8, |s| {
        let phases = s.chip.audio.raw_phase_ext_mut();
        (phases[0], phases[7]) = (0xFF_FFFF, 0xFF_FFFF);
    }),
];

/// H1: fields whose bits cannot all be set in range: field, first bit, width, number lent, how.
const NUMBERS: &[(&str, usize, usize, u64, Lending)] = &[
    ("Unknown", 27, 2, 0, |s| s.chip.board = Board::Unknown),
    ("163", 27, 2, 1, |s| s.chip.board = Board::Namco163),
    ("175", 27, 2, 2, |s| s.chip.board = Board::Namco175),
    ("340", 27, 2, 3, |s| s.chip.board = Board::Namco340),
    ("mapper 19", 29, 16, 19, |s| s.chip.mapper_num = 19),
    ("mapper 210", 29, 16, 210, |s| s.chip.mapper_num = 210),
    ("Vertical", 54, 3, 0, |s| s.chip.mirroring = Mirroring::Vertical),
    ("Horizontal", 54, 3, 1, |s| s.chip.mirroring = Mirroring::Horizontal),
    ("A", 54, 3, 2, |s| s.chip.mirroring = Mirroring::SingleScreenA),
    ("B", 54, 3, 3, |s| s.chip.mirroring = Mirroring::SingleScreenB),
    ("FourScreen", 54, 3, 4, |s| s.chip.mirroring = Mirroring::FourScreen),
    ("update counter", 1217, 4, 14, |s| s.chip.audio.update_counter = 14),
    ("channel", 1221, 3, 5, |s| s.chip.audio.current_channel = 5),
    ("output 0", 1224, 12, 3825, |s| s.chip.audio.channel_out[0] = 3825.0),
    ("output 7", 1308, 12, 3720, |s| s.chip.audio.channel_out[7] = 3720.0),
    ("`out`", 1320, 32, 0x3EAA_AAAB, |s| s.chip.audio.out = 1.0 / 3.0),
    ("PRG 0", 1544, 11, 51 << 1, |s| s.lend_prg(0, "51")),
    ("PRG 1", 1555, 11, 51 << 1 | 1, |s| s.lend_prg(1, "51w")),
    ("PRG 63", 1544 + 63 * 11, 11, 3, |s| s.lend_prg(63, "1w")),
    ("CHR 0", 1544 + 64 * 11, 11, 50 << 1 | 1, |s| *s.memory.raw_chr_pages_mut()[0].raw_mut() = (50 * 1024) | (1 << 31)),
    ("CHR 15", 2413, 11, 49 << 1, |s| *s.memory.raw_chr_pages_mut()[15].raw_mut() = 49 * 1024),
    ("PRG-ROM", 2424, 10, 512, |s| lend_pages(s, |layout| layout.prg_rom = 512)),
    ("PRG-RAM", 2434, 7, 64, |s| lend_pages(s, |layout| layout.prg_ram = 64)),
    ("PRG-RAM", 2434, 7, 127, |s| lend_pages(s, |layout| layout.prg_ram = 127)),
    ("reserve", 2441, 1, 1, |_| ()),
    ("CHR", 2442, 9, 256, |s| lend_pages(s, |layout| layout.chr = 256)),
    ("CHR-RAM", 2451, 1, 1, |s| lend_pages(s, |layout| layout.chr_ram = true)),
    ("CIRAM", 2452, 3, 4, |s| lend_pages(s, |layout| layout.ciram = 4)),
    ("used", 2455, 1, 0, |s| *s.memory.raw_battery_ext_len_mut() = 0),
];

fn lend_pages(session: &mut Session, change: fn(&mut oracle::layout::Layout)) {
    let mut layout = session.layout();
    change(&mut layout);
    layout.set(&mut session.memory);
}

pub fn check(t: &mut Checks) {
    fresh(t);
    let fresh = image(&loaded(P));
    for (what, first, width, count, lend) in FIELDS {
        let mut session = loaded(P);
        lend(&mut session);
        let last = first + width * (count - 1);
        let mut expected = fresh;
        for bit in (*first..first + width).chain(last..last + width) {
            expected[bit / 8] |= 0x80 >> (bit % 8);
        }
        t.holds(what, image(&session) == expected);
    }
    for (what, first, width, value, lend) in NUMBERS {
        let mut session = loaded(P);
        lend(&mut session);
        t.holds(what, image(&session) == with_number(fresh, *first, *width, *value));
    }
}

/// An image with another number in one of its fields.
fn with_number(mut image: [u8; LEN], first: usize, width: usize, value: u64) -> [u8; LEN] {
    for place in 0..width {
        let bit = first + width - 1 - place;
        let mask = 0x80 >> (bit % 8);
        image[bit / 8] = if value >> place & 1 == 1 { image[bit / 8] | mask } else { image[bit / 8] & !mask };
    }
    image
}

/// R9: fields of a fresh P's image that can be out of range: field, first bit, width, how many, numbers in range, numbers out of it.
const RANGES: &[(&str, usize, usize, usize, Numbers, Numbers)] = &[
    ("mapper", 29, 16, 1, &[19, 210], &[0, 18, 20, 209, 211, 0x1300, 0xFFFF]),
    ("mirroring", 54, 3, 1, &[0, 1, 2, 3, 4], &[5, 6, 7]),
    ("update counter", 1217, 4, 1, &[0, 14], &[15]),
    ("outputs", 1224, 12, 8, &[0, 3825], &[3826, 4095]),
    ("`out`", 1320, 32, 1, &[0, 1, 0x456F_1000], &[0x456F_1001, 0x7F80_0000, 0x7FC0_0000, 0x8000_0000, 0xBF80_0000, 0xFFFF_FFFF]),
    ("entries", 1544, 11, 80, &[0, 1, 51 << 1, 51 << 1 | 1], &[52 << 1, 52 << 1 | 1, 1_023 << 1]),
    ("PRG-ROM", 2424, 10, 1, &[32, 512], &[513, 1_023]),
    ("PRG-RAM", 2434, 7, 1, &[8, 64, 65, 127], &[]),
    ("CHR", 2442, 9, 1, &[8, 256], &[257, 511]),
    ("CIRAM", 2452, 3, 1, &[1, 2, 3, 4], &[0, 5, 6, 7]),
    ("used without reserve", 2441, 1, 1, &[1], &[0]),
];

pub fn reading(t: &mut Checks) {
    let fresh = image(&loaded(P));
    for len in [0, 306, 309, 1_024] {
        t.eq("another length", refusal(decode(&vec![0; len])), 1);
    }
    for (what, first, width, count, fit, unfit) in RANGES {
        for index in 0..*count {
            let with = |value: &u64| with_number(fresh, first + width * index, *width, *value);
            t.holds(what, fit.iter().all(|value| reads_back(&with(value))));
            t.holds(what, unfit.iter().all(|value| refusal(decode(&with(value))) == 2));
        }
    }
    other_bits(t, &fresh);
    round_trips(t);
}

fn reads_back(image: &[u8; LEN]) -> bool {
    decode(image).is_ok_and(|session| encode(&session) == *image)
}

/// R9: no other field can be out of range. An image with any bit of such a field flipped is read, and written as it was.
fn other_bits(t: &mut Checks, fresh: &[u8; LEN]) {
    let ranged = |bit: usize| RANGES.iter().any(|(_, first, width, count, ..)| (*first..first + width * count).contains(&bit));
    for bit in (0..LEN * 8).filter(|bit| !ranged(*bit)) {
        let mut image = *fresh;
        image[bit / 8] ^= 0x80 >> (bit % 8);
        t.holds(&format!("bit {bit} flipped"), reads_back(&image));
    }
}

/// H3: states in range are read back from their images.
fn round_trips(t: &mut Checks) {
    let mut rng = Rng::new(1);
    for _ in 0..500 {
        let mut session = states::any(&mut rng);
        t.holds("a random state is in range", in_range(&session.chip, &session.memory, session.options));
        session.lend_arena(Box::default());
        for len in lengths(session.is_long()) {
            let image = of_length(&session, *len);
            let read = decode(&image);
            t.holds("a random state is read back", read.as_ref().is_ok_and(|read| read.whole() == session.whole()));
            t.holds("and written as it was", read.is_ok_and(|read| of_length(&read, *len) == image));
        }
    }
}

/// H9, H10, N1, N2: the byte of options, and an image that is cut or lengthened.
pub fn options(t: &mut Checks) {
    let (old, new) = (loaded(P), loaded(new_edition(P)));
    for (what, session, options, entries) in [
        ("old", &old, 0x00, [0x0A, 0x61, 0x54, 0x2B, 0x85, 0x90, 0xB6, 0x17, 0x42, 0xF8, 0x61]),
        ("new", &new, 0x80, [0x0A, 0x41, 0x50, 0x2B, 0x05, 0x80, 0xB4, 0x17, 0x02, 0xF0, 0x60]),
    ] {
        let image = of_length(session, OPTIONS_LEN);
        t.eq(&format!("{what}: entries 24..31"), &image[226..237], &entries);
        t.eq(&format!("{what}: byte 307"), image[LEN], options);
        t.holds(&format!("{what}: the first 307 bytes"), image[..LEN] == encode(session));
        for byte in 0..=255 {
            let mut other = image.clone();
            other[LEN] = byte;
            let read = decode(&other);
            t.eq(&format!("{what}, byte 307 = {byte:02X}"), refusal(decode(&other)), if byte & 0x1F == 0 { 0 } else { 2 });
            t.holds("written as it was", read.is_ok_and(|read| of_length(&read, OPTIONS_LEN) == other) == (byte & 0x1F == 0));
        }
    }
    let state = |bytes: &[u8]| decode(bytes).map(|read| read.whole()).map_err(|refusal| refusal.number());
    let long = of_length(&old, OPTIONS_LEN);
    t.holds("cut, with byte 307 zero", state(&long[..LEN]).is_ok() && state(&long[..LEN]) == state(&long));
    let cut = decode(&of_length(&new, OPTIONS_LEN)[..LEN]);
    t.eq("cut, with an option: another state", cut.is_ok_and(|cut| !cut.options.any() && cut.prg(24..32) == new.prg(24..32)), true);
    lengths_to_write(t);
}

/// N1, N2: a state in range and one out of it, with each set of options, into so many bytes.
fn lengths_to_write(t: &mut Checks) {
    let bad = |mut session: Session| {
        session.chip.audio.update_counter = 15;
        session
    };
    for options in Options::all() {
        let state = loaded(P.with(options));
        for (what, session, answer) in [("in range", state.clone(), 0), ("bad", bad(state), 2)] {
            let short = if options.any() { 1 } else { answer };
            for (len, answer) in [(0, 1), (306, 1), (307, short), (308, answer), (309, 1), (1_024, 1)] {
                let mut buffer = vec![0xEE; len];
                t.eq(&format!("{what}, {options:?}, {len} bytes"), refusal(session.image(&mut buffer)), answer);
                t.holds("a refused image is unaltered", answer == 0 || buffer == vec![0xEE; len]);
                t.eq("byte 307", buffer.get(LEN).copied().filter(|_| answer == 0), (len == 308 && answer == 0).then_some(options.byte()));
            }
        }
    }
}

fn image(session: &Session) -> [u8; LEN] {
    let mut buffer = [0; LEN];
    number(session.image(&mut buffer)).expect("the state is in range");
    buffer
}

/// H1: the image of a fresh P, up to the entries and behind them.
fn fresh(t: &mut Checks) {
    let image = image(&loaded(P));
    t.eq("bytes 0..7", &image[..8], &[0x00, 0x00, 0x00, 0x08, 0x00, 0x98, 0x00, 0x80]);
    t.eq("bytes 151..152", &image[151..153], &[0x00, 0x07]);
    t.eq("bytes 303..306", &image[303..], &[0x08, 0x04, 0x41, 0x05]);
    let other = [8..151, 153..193];
    t.holds("zero up to the entries", other.into_iter().all(|bytes| image[bytes].iter().all(|byte| *byte == 0)));
}
