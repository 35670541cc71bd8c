// SPDX-License-Identifier: MIT OR Apache-2.0
//! R1, H12, N1: PRG-RAM of more than 64 pages: sizes and where things lie, loads into each length of image, the count in the image, what
//! can be written to how many bytes, the largest layout, and calls on pages beyond the first 64.

use crate::selftest::{
    bench::{Handy, N175, N340, P, U, loaded, new_edition, number, pages, refusal},
    checks::Checks,
};
use oracle::{
    host::{BlockCall, Host, HostCall},
    image::{LEN, OPTIONS_LEN, decode, of_length},
    layout::{Layout, Load, Region},
    options::Options,
    session::Session,
};

pub fn check(t: &mut Checks) {
    sizes(t);
    loads(t);
    option_loads(t);
    counts(t);
    cut_and_lengthened(t);
    written(t);
    largest(t);
    windows(t);
    regions(t);
    by_entries(t);
    host_calls(t);
}

/// P with so much PRG-RAM.
fn with_ram(prg_ram: u64) -> Load {
    Load { prg_ram, ..P }
}

fn with_options(load: Load, byte: u8) -> Load {
    load.with(Options::of_byte(byte).expect("a byte of options"))
}

/// A lent state of P with so many pages of PRG-RAM, in range or not.
fn lent_pages(load: Load, count: u64) -> Session {
    let mut session = loaded(load);
    let layout = Layout { prg_ram: count, ..session.layout() };
    layout.set(&mut session.memory);
    session.lend_arena(vec![0; layout.arena_len() as usize].into());
    session
}

/// Bytes of PRG-RAM, pages, the arena's length, `sram`, image bytes 303..306, byte 307.
type Size = (u64, u64, usize, u64, [u8; 4], u8);

const SIZES: [Size; 6] = [
    (8_192, 8, 53_248, 8_320, [0x08, 0x04, 0x41, 0x05], 0x00),
    (65_536, 64, 110_592, 65_664, [0x08, 0x20, 0x41, 0x05], 0x00),
    (65_537, 65, 111_616, 66_688, [0x08, 0x20, 0xC1, 0x05], 0x00),
    (130_048, 127, 175_104, 130_176, [0x08, 0x3F, 0xC1, 0x05], 0x00),
    (130_049, 128, 176_128, 131_200, [0x08, 0x00, 0x41, 0x05], 0x10),
    (131_072, 128, 176_128, 131_200, [0x08, 0x00, 0x41, 0x05], 0x10),
];

fn sizes(t: &mut Checks) {
    for (bytes, count, arena, sram, fields, last) in SIZES {
        let what = |what: &str| format!("PRG-RAM of {bytes}: {what}");
        let session = loaded(with_ram(bytes));
        t.eq(&what("pages, arena"), (session.layout().prg_ram, session.arena().len()), (count, arena));
        t.eq(&what("sram"), number(session.sram()), Ok((41_984, sram)));
        let image = of_length(&session, OPTIONS_LEN);
        t.eq(&what("bytes 303..306"), image[303..LEN].to_vec(), fields.to_vec());
        t.eq(&what("byte 307"), image[LEN], last);
        t.holds(&what("it is read back"), decode(&image).is_ok_and(|read| of_length(&read, OPTIONS_LEN) == image));
        let mut short = [0xEE; LEN];
        t.eq(&what("into 307 bytes"), refusal(session.image(&mut short)), u8::from(last != 0));
        t.holds(&what("what 307 bytes hold"), if last == 0 { short == image[..LEN] } else { short == [0xEE; LEN] });
    }
}

/// A host that is lent an image of so many bytes, and an arena that is right for the load where one is.
fn host(image_len: usize, load: Load) -> Host {
    let mut host = Host::new(loaded(P));
    host.lend_image(&vec![0xA5; image_len]);
    host.lend_arena(&vec![0xA5; load.arena_len() as usize]);
    host
}

/// N1, N4, N5 of a host's load, by each of the three calls where it asks for no option.
fn loads(t: &mut Checks) {
    for (len, prg_ram, mapper, answer) in [
        (307, 65_536, 19, 0),
        (307, 65_537, 19, 0),
        (307, 130_048, 19, 0),
        (307, 130_048, 20, 4),
        (307, 130_049, 19, 1),
        (307, 131_072, 19, 1),
        (307, 130_049, 20, 1),
        (307, 131_072, 20, 1),
        (307, 131_073, 19, 5),
        (307, 131_073, 20, 4),
        (307, 132_096, 19, 5),
        (307, (1 << 32) + 131_072, 19, 5),
        (307, u64::MAX, 19, 5),
        (308, 65_537, 19, 0),
        (308, 130_048, 210, 0),
        (308, 130_049, 19, 0),
        (308, 131_072, 19, 0),
        (308, 131_072, 20, 4),
        (308, 131_073, 19, 5),
        (308, 131_073, 20, 4),
        (308, (1 << 32) + 131_072, 19, 5),
        (306, 131_072, 19, 1),
        (309, 131_072, 19, 1),
        (309, 131_073, 20, 1),
    ] {
        let load = Load { mapper, ..with_ram(prg_ram) };
        let last = (len == 308).then_some(if (130_049..=131_072).contains(&prg_ram) { 0x10 } else { 0x00 });
        for (call, name) in ["namco163_load", "namco163_load_options", "namco163_load_blocks"].into_iter().enumerate() {
            let mut host = host(len, load);
            let arena = host.arena().to_vec();
            let word = match call {
                0 => host.call(HostCall::Load(load)),
                1 => host.call(HostCall::LoadOptions(load)),
                _ => host.call_blocks(BlockCall::Load(load)),
            };
            let what = format!("{name}, mapper {mapper}, PRG-RAM {prg_ram}, into {len} bytes");
            t.eq(&what, word, answer);
            if answer == 0 {
                t.eq(&format!("{what}: byte 307"), host.image().get(LEN).copied(), last);
                t.holds("zeros in the arena", host.arena().iter().all(|byte| *byte == 0));
            } else {
                t.holds("a refused load alters nothing", host.image() == vec![0xA5; len] && host.arena() == arena);
            }
        }
    }
}

/// N1, H12: with options, of which bit 4 is none.
fn option_loads(t: &mut Checks) {
    for (len, byte, prg_ram, mapper, answer, last) in [
        (307, 0x80, 8_192, 19, 1, 0),
        (307, 0x40, 131_072, 19, 1, 0),
        (307, 0x20, 131_073, 20, 1, 0),
        (308, 0xE0, 8_192, 19, 0, 0xE0),
        (308, 0xE0, 130_048, 19, 0, 0xE0),
        (308, 0xE0, 131_072, 19, 0, 0xF0),
        (308, 0x80, 131_072, 210, 0, 0x90),
        (308, 0x40, 130_049, 19, 0, 0x50),
        (308, 0x20, 131_072, 19, 0, 0x30),
        (308, 0xE0, 131_073, 19, 5, 0),
        (308, 0xE0, 131_073, 20, 4, 0),
    ] {
        let load = with_options(Load { mapper, ..with_ram(prg_ram) }, byte);
        let mut host = host(len, load);
        t.eq(&format!("options {byte:02X}, PRG-RAM {prg_ram}, {len} bytes"), host.call(HostCall::LoadOptions(load)), answer);
        t.eq("byte 307", host.image().get(LEN).copied().filter(|_| answer == 0), (answer == 0).then_some(last));
        t.eq("the options", host.session().filter(|_| answer == 0).map(|session| session.options.byte()), (answer == 0).then_some(byte));
    }
    for byte in 0..=255 {
        t.eq(&format!("{byte:02X} are options"), Options::of_byte(byte).is_some(), byte & 0x1F == 0);
    }
}

/// P's image with other bits of the count of PRG-RAM pages: bit 2459 where it has 308 bytes, and bits 2434..2440.
fn with_count(len: usize, high: u8, low: u8) -> Vec<u8> {
    let mut image = of_length(&loaded(P), len);
    image[304] = image[304] & 0xC0 | low >> 1;
    image[305] = image[305] & 0x7F | low << 7;
    if let Some(last) = image.get_mut(LEN) {
        *last = high << 4;
    }
    image
}

/// R9, N2, H12: the count is 128 times bit 4 and the seven bits.
fn counts(t: &mut Checks) {
    for (high, low, answer) in
        [(0, 8, 0), (0, 64, 0), (0, 65, 0), (0, 127, 0), (1, 0, 0), (1, 1, 2), (1, 8, 2), (1, 64, 2), (1, 65, 2), (1, 127, 2)]
    {
        for options in [0x00, 0x80, 0x40, 0x20, 0xE0] {
            let mut image = with_count(OPTIONS_LEN, high, low);
            image[LEN] |= options;
            let read = decode(&image);
            t.eq(&format!("bit 4 {high}, seven bits {low}, options {options:02X}"), refusal(decode(&image)), answer);
            t.eq(
                "its pages",
                read.as_ref().ok().map(|read| read.layout().prg_ram),
                (answer == 0).then_some(u64::from(high) * 128 + u64::from(low)),
            );
            t.eq("its options", read.as_ref().ok().map(|read| read.options.byte()), (answer == 0).then_some(options));
            t.holds("it is written as it was", read.is_ok_and(|read| of_length(&read, OPTIONS_LEN) == image) == (answer == 0));
            for unused in [0x08, 0x04, 0x02, 0x01] {
                image[LEN] |= unused;
                t.eq("an unused bit", refusal(decode(&image)), 2);
                image[LEN] &= !unused;
            }
        }
    }
    for low in [8, 64, 65, 127] {
        let image = with_count(LEN, 0, low);
        t.eq(&format!("{low} pages in 307 bytes"), decode(&image).map_or(0, |read| read.layout().prg_ram), low.into());
    }
    let mut own = of_length(&loaded(P), OPTIONS_LEN);
    own[LEN] = 0x10;
    t.eq("P with byte 307 = 10", refusal(decode(&own)), 2);
}

/// H10, H12: what may be cut, and what must not.
fn cut_and_lengthened(t: &mut Checks) {
    let long = of_length(&loaded(with_ram(131_072)), OPTIONS_LEN);
    t.eq("128 pages, cut", refusal(decode(&long[..LEN])), 2);
    let new = of_length(&loaded(with_options(with_ram(131_072), 0xE0)), OPTIONS_LEN);
    t.eq("128 pages and options, cut", refusal(decode(&new[..LEN])), 2);
    // Without an entry beyond the arena of no PRG-RAM, what is left is another state.
    let mut session = loaded(with_ram(131_072));
    session.memory.raw_prg_pages_mut().iter_mut().for_each(|page| *page.raw_mut() = 0);
    session.memory.raw_chr_pages_mut().iter_mut().for_each(|page| *page.raw_mut() = 0);
    let bare = of_length(&session, OPTIONS_LEN);
    t.eq("128 pages without entries, cut", decode(&bare[..LEN]).map_or(1, |read| read.layout().prg_ram), 0);
    // So it is with enough CHR-RAM behind, which the shorter arena has in its place.
    let ram = of_length(&loaded(Load { chr: 262_144, chr_ram: 1, ..with_ram(131_072) }), OPTIONS_LEN);
    t.eq("128 pages and CHR-RAM, cut", decode(&ram[..LEN]).map_or(1, |read| read.layout().prg_ram), 0);
    for ciram in [1, 2_048, 3_072, 4_096] {
        let rom = of_length(&loaded(Load { chr: 262_144, ciram, prg_rom: 524_288, ..with_ram(131_072) }), OPTIONS_LEN);
        t.eq("128 pages and CHR-ROM, cut", refusal(decode(&rom[..LEN])), 2);
    }
    for bytes in [65_537, 130_048] {
        let (short, long) = (of_length(&loaded(with_ram(bytes)), LEN), of_length(&loaded(with_ram(bytes)), OPTIONS_LEN));
        let mut lengthened = short.clone();
        lengthened.push(0);
        t.holds("the longer is the shorter with 00", lengthened == long);
        let whole = |image: &[u8]| decode(image).map(|read| read.whole()).map_err(|refusal| refusal.number());
        t.holds("and the state is one", whole(&short).is_ok() && whole(&short) == whole(&long));
    }
}

/// N1 and N2 of image writing: the first number that holds. "Bad" is another field out of range.
fn written(t: &mut Checks) {
    let bad = |mut session: Session| {
        session.chip.audio.update_counter = 15;
        session
    };
    for (what, session, short, long) in [
        ("127 pages", loaded(with_ram(130_048)), 0, 0),
        ("128 pages", loaded(with_ram(131_072)), 1, 0),
        ("127 pages, an option", loaded(new_edition(with_ram(130_048))), 1, 0),
        ("128 pages, an option", loaded(new_edition(with_ram(131_072))), 1, 0),
        ("127 pages, bad", bad(loaded(with_ram(130_048))), 2, 2),
        ("128 pages, bad", bad(loaded(with_ram(131_072))), 1, 2),
        ("128 pages, an option, bad", bad(loaded(new_edition(with_ram(131_072)))), 1, 2),
        ("8 pages, an option, bad", bad(loaded(new_edition(P))), 1, 2),
        ("128 pages lent", lent_pages(P, 128), 1, 0),
        ("129 pages", lent_pages(P, 129), 2, 2),
        ("129 pages, bad", bad(lent_pages(P, 129)), 2, 2),
        ("129 pages, an option", lent_pages(new_edition(P), 129), 1, 2),
        ("136 pages", lent_pages(P, 136), 2, 2),
        ("256 pages", lent_pages(P, 256), 2, 2),
    ] {
        for (len, answer) in [(0, 1), (306, 1), (307, short), (308, long), (309, 1), (1_024, 1)] {
            let mut buffer = vec![0xEE; len];
            t.eq(&format!("{what}, into {len} bytes"), refusal(session.image(&mut buffer)), answer);
            t.holds("a refused image is unaltered", answer == 0 || buffer == vec![0xEE; len]);
        }
        t.eq(&format!("{what}: sram"), refusal(session.sram()), if long == 0 { 0 } else { 2 });
    }
}

const LARGEST: Load = Load { prg_rom: 524_288, prg_ram: 131_072, battery: 1_024, chr: 262_144, ciram: 4_096, ..P };

/// R4, R9: the largest layout, and entries at its last page and the first behind.
fn largest(t: &mut Checks) {
    let session = loaded(LARGEST);
    t.eq("pages, bytes", (session.layout().total_pages(), session.arena().len()), (902, 923_648));
    t.eq("PRG 24..31", session.prg(24..32), pages("769w..776w"));
    t.eq("PRG 32..39", session.prg(32..40), pages("1..8"));
    t.eq("PRG 56..63", session.prg(56..64), pages("505..512"));
    t.eq("CHR 8..15", session.chr(8..16), pages("513*8"));
    t.eq("sram", number(session.sram()), Ok((787_456, 131_200)));
    let ram = loaded(Load { chr_ram: 1, ..LARGEST });
    t.eq("with CHR-RAM: PRG 24..31", ram.prg(24..32), pages("513w..520w"));
    t.eq("with CHR-RAM: CHR 8..15", ram.chr(8..16), pages("642w*8"));
    let image = of_length(&session, OPTIONS_LEN);
    t.eq("bytes 303..307", image[303..].to_vec(), vec![0x80, 0x00, 0x60, 0x09, 0x10]);
    for (page, answer) in [(837, 0), (838, 0), (901, 0), (902, 2), (1_023, 2)] {
        for index in [0, 63] {
            let mut lent = loaded(LARGEST);
            lent.lend_prg(index, &format!("{page}w"));
            t.eq(&format!("PRG {index} at page {page}"), refusal(lent.peek(0x8000)), answer);
        }
        // PRG 0 is the image's bits 1544..1554, which begin with byte 193.
        let mut other = image.clone();
        (other[193], other[194]) = ((page >> 2) as u8, other[194] & 0x1F | (page as u8) << 6);
        t.eq(&format!("an image with PRG 0 at page {page}"), refusal(decode(&other)), answer);
    }
    let mut last = loaded(LARGEST);
    last.lend_prg(24, "901w*8");
    last.put(0x7FFF, 0x5A);
    t.eq("a store into the last page", last.arena()[923_647], 0x5A);
    t.eq("and its read", last.get(0x63FF), 0x5A);
}

/// L13: 6000..7FFF shows the first eight pages, on every board as with eight.
fn windows(t: &mut Checks) {
    for bytes in [65_536, 65_537, 130_048, 131_072] {
        for (load, entries) in [(P, "41w..48w"), (N175, "41..48"), (N340, "0*8"), (U, "0*8"), (new_edition(P), "41..48")] {
            let mut session = loaded(Load { prg_ram: bytes, ..load });
            t.eq(&format!("PRG-RAM of {bytes}: PRG 24..31"), session.prg(24..32), pages(entries));
            session.put(0xE000, 0x3F);
            session.put(0x8000, 0xE1);
            t.eq("behind writes that map", session.prg(24..32), pages(entries));
        }
        let mut open = loaded(Load { prg_ram: bytes, ..N175 });
        open.put(0xC000, 0x01);
        t.eq("a 175 that is open", open.prg(24..32), pages("41w..48w"));
        let mut new = loaded(new_edition(with_ram(bytes)));
        new.put(0xF800, 0x4E);
        t.eq("a 163 of the new edition", new.prg(24..32), pages("41w,42w,43..48"));
        new.put(0x6000, 0x77);
        t.eq("a store at 6000", number(new.region_peek(Region::PrgRam, 0)), Ok(0x77));
    }
}

/// M10, M11, M13: fills and region calls reach every page.
fn regions(t: &mut Checks) {
    use Region::PrgRam;
    for (bytes, len) in [(65_537, 66_560), (130_048, 130_048), (130_049, 131_072), (131_072, 131_072)] {
        let mut session = loaded(with_ram(bytes));
        t.eq("a fill of one byte more", refusal(session.fill(PrgRam, &vec![9; len + 1])), 9);
        t.eq("a whole fill", refusal(session.fill(PrgRam, &vec![0x5A; len])), 0);
        let (first, last) = (41_984, 41_984 + len);
        t.holds("it has every byte", session.arena()[first..last].iter().all(|byte| *byte == 0x5A));
        t.eq("and no other", [session.arena()[first - 1], session.arena()[last]], [0, 0]);
        for offset in [0, 65_535, 65_536, len - 1] {
            t.eq("region-write", refusal(session.region_write(PrgRam, offset as u64, 0x11)), 0);
            t.eq("where it is", session.arena()[first + offset], 0x11);
            t.eq("a round further", number(session.region_peek(PrgRam, (len + offset) as u64)), Ok(0x11));
        }
        t.eq("sync", refusal(session.sync_battery()), 0);
        t.eq("the reserve is behind it", number(session.sram()), Ok((first as u64, len as u64 + 128)));
    }
}

/// M9: stores by lent entries into pages beyond the first 64, and reads.
fn by_entries(t: &mut Checks) {
    let mut session = loaded(with_ram(131_072));
    for page in [41, 104, 105, 167, 168] {
        session.lend_prg(24, &format!("{page}w*8"));
        session.put(0x6001, page as u8);
        t.eq(&format!("page {page}"), session.get(0x7C01), page as u8);
        t.eq("in the region", number(session.region_peek(Region::PrgRam, (page - 41) * 1_024 + 1)), Ok(page as u8));
    }
    session.lend_prg(24, "169w*8");
    t.eq("the reserve", refusal(session.region_write(Region::Battery, 0, 0x44)), 0);
    t.eq("shows behind PRG-RAM", session.get(0x6000), 0x44);
}

/// H10: a call on 128 pages keeps byte 307, and the layout.
fn host_calls(t: &mut Checks) {
    for (load, last) in [(with_ram(131_072), 0x10), (with_options(with_ram(131_072), 0xC0), 0xD0), (with_ram(130_048), 0x00)] {
        let mut host = Host::of_length(loaded(load), OPTIONS_LEN);
        host.samples = vec![0; 4];
        for call in [
            HostCall::Preview(0x8000, 0xE1),
            HostCall::Write(0x8000, 0xE1),
            HostCall::Write(0xF800, 0x40),
            HostCall::Write(0x6000, 0x77),
            HostCall::Read(0x6000),
            HostCall::Run(15),
            HostCall::Reset(0),
            HostCall::Reset(1),
        ] {
            t.eq(&format!("{call:X?}"), host.call(call) as u8, 0);
            t.eq("byte 307", host.image().get(LEN).copied(), Some(last));
            t.eq("pages", host.session().map(|session| session.layout()), Some(loaded(load).layout()));
        }
        host.lend_arena(&vec![0; 176_128 - 1_024 * usize::from(last == 0) + 1]);
        t.eq("an arena of a byte more", host.call(HostCall::Read(0x6000)), 7);
    }
    // A host's own arena of 136 pages does not make such an image fit.
    let mut host = Host::new(loaded(P));
    let mut image = of_length(&loaded(P), OPTIONS_LEN);
    image[LEN] = 0x10;
    host.lend_image(&image);
    host.lend_arena(&vec![0; 53_248 + 131_072]);
    t.eq(
        "136 pages",
        [HostCall::Read(0x6000), HostCall::Write(0x8000, 1), HostCall::Run(1), HostCall::Reset(0)].map(|call| host.call(call)),
        [2; 4],
    );
    t.eq("136 pages, a load over it", host.call(HostCall::Load(P)), 7);
}
