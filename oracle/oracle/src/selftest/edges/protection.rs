// SPDX-License-Identifier: MIT OR Apache-2.0
//! L19 to L24, the new edition: results, each beside the old edition's; a host's loads at both lengths of image; what the directory and
//! previews show of it; and lists in both editions in step.

mod lists;

use crate::selftest::{
    bench::{D, Handy, N175, N340, NO_CHR, NO_PRG, P, U, loaded, new_edition, number, pages, refusal, written},
    checks::Checks,
};
use oracle::{
    host::{BlockCall, Host, HostCall},
    layout::Load,
    session::{Changed, Session},
};
use tetanes::m019_namco163::Board;

pub fn check(t: &mut Checks) {
    bytes(t);
    hard_reset(t);
    soft_reset(t);
    settled(t);
    byte_of_another(t);
    found(t);
    fixed_boards(t);
    short_ram(t);
    other_stores(t);
    previews(t);
    blocks(t);
    host_loads(t);
    host_calls(t);
    lists::check(t);
}

const AT_6000: Changed = Changed { mask: 0xFF00_0000, count: 8, lowest: 24 };
const NAMETABLES: Changed = Changed { mask: 0xFF00, count: 8, lowest: 8 };

/// A write, what it answers of both tables, and PRG 24..31 behind it.
type Step = ((u16, u8), Changed, Changed, &'static str);

fn steps(t: &mut Checks, what: &str, session: &mut Session, steps: &[Step]) {
    for ((addr, val), prg, chr, entries) in steps {
        let answer = session.put(*addr, *val);
        let what = format!("{what}: {addr:04X}={val:02X}");
        t.eq(&what, (answer.prg, answer.chr), (*prg, *chr));
        t.eq(&format!("{what}, PRG 24..31"), session.prg(24..32), pages(entries));
    }
}

fn regs(session: &Session) -> (Board, u8, usize) {
    (session.chip.board, session.chip.regs.prg_ram_protect, session.chip.audio.addr)
}

const fn some(mask: u64, count: u32, lowest: u32) -> Changed {
    Changed { mask, count, lowest }
}

/// L20, L21: one byte after the other on a fresh P.
const BYTES: &[Step] = &[
    ((0xF800, 0x40), AT_6000, NO_CHR, "41w..48w"),
    ((0xF800, 0x41), some(0x300_0000, 2, 24), NO_CHR, "41,42,43w..48w"),
    ((0xFFFF, 0x48), some(0xC300_0000, 4, 24), NO_CHR, "41w..46w,47,48"),
    ((0xF800, 0x4F), some(0x3F00_0000, 6, 24), NO_CHR, "41..48"),
    ((0xF800, 0x4E), some(0x300_0000, 2, 24), NO_CHR, "41w,42w,43..48"),
    ((0xF800, 0x00), some(0x300_0000, 2, 24), NO_CHR, "41..48"),
    ((0xF800, 0xC0), NO_PRG, NO_CHR, "41..48"),
    ((0xF800, 0x50), NO_PRG, NO_CHR, "41..48"),
    ((0xF800, 0x44), some(0xCF00_0000, 6, 24), NO_CHR, "41w..44w,45,46,47w,48w"),
    ((0xF800, 0x44), NO_PRG, NO_CHR, "41w..44w,45,46,47w,48w"),
    ((0x8000, 0x00), NO_PRG, NO_CHR, "41w..44w,45,46,47w,48w"),
    ((0xE000, 0x01), some(0xFF_0000_0000, 8, 32), NO_CHR, "41w..44w,45,46,47w,48w"),
];

fn bytes(t: &mut Checks) {
    let mut new = loaded(new_edition(P));
    t.eq("a fresh P is protected", new.prg(24..32), pages("41..48"));
    new.put(0x6000, 0x11);
    t.eq("and stores nothing", (new.get(0x6000), new.chip.prg_ram_written_to), (0, true));
    steps(t, "P new", &mut new, BYTES);
    let mut old = loaded(P);
    for ((addr, val), ..) in &BYTES[..10] {
        steps(t, "P old", &mut old, &[((*addr, *val), NO_PRG, NO_CHR, "41w..48w")]);
        t.eq("its byte", old.chip.regs.prg_ram_protect, *val);
    }
    for byte in 0..=255 {
        let mut new = written(new_edition(P), &[(0xF800, byte)]);
        let open = |bit: u8| byte >> 4 == 4 && byte >> bit & 1 == 0;
        for bit in 0..4 {
            for addr in [0x6000, 0x63FF, 0x6400, 0x67FF].map(|addr| addr + 0x800 * u16::from(bit)) {
                new.put(addr, 0x5A);
                t.eq(&format!("F800={byte:02X}, read {addr:04X}"), new.get(addr), if open(bit) { 0x5A } else { 0 });
            }
        }
    }
}

/// C7, C8, L22: a hard reset stores 0 and maps nothing.
fn hard_reset(t: &mut Checks) {
    for (load, f800, slot, read) in [(new_edition(P), (AT_6000, NAMETABLES), NO_CHR, 0xAA), (P, (NO_PRG, NO_CHR), NAMETABLES, 0xBB)] {
        let what = format!("hard reset, edition {}", load.f800_protects);
        let mut cart = written(load, &[(0xF800, 0x40), (0xC000, 0x05)]);
        t.eq(&what, refusal(cart.reset(1)), 0);
        t.eq(&what, (cart.prg(24..32), cart.chip.regs.prg_ram_protect), (pages("41w..48w"), 0));
        cart.put(0x6000, 0xAA);
        t.eq(&format!("{what}: 6000=AA"), cart.get(0x6000), 0xAA);
        let answer = cart.put(0xF800, 0x00);
        t.eq(&format!("{what}: F800=00"), (answer.prg, answer.chr), f800);
        let answer = cart.put(0x8000, 0x00);
        t.eq(&format!("{what}: 8000=00"), (answer.prg, answer.chr), (NO_PRG, slot));
        t.eq(&format!("{what}: CHR 8..15"), cart.chr(8..16), pages("50w*8"));
        cart.put(0x6000, 0xBB);
        t.eq(&format!("{what}: 6000=BB"), cart.get(0x6000), read);
    }
    let mut cart = written(new_edition(P), &[(0xF800, 0x40)]);
    t.eq("reset", refusal(cart.reset(1)), 0);
    t.eq("hard reset, then 8000=00", cart.put(0x8000, 0x00).prg, AT_6000);
}

/// C7: a soft reset keeps the byte, and the sound address goes.
fn soft_reset(t: &mut Checks) {
    let mut cart = written(new_edition(P), &[(0xF800, 0x40), (0xC000, 0x05)]);
    t.eq("address", regs(&cart), (Board::Namco163, 0x40, 0x40));
    t.eq("reset", refusal(cart.reset(0)), 0);
    t.eq("after it", regs(&cart), (Board::Namco163, 0x40, 0x00));
    cart.put(0x6001, 0xAB);
    t.eq("6001=AB", cart.get(0x6001), 0xAB);
    steps(t, "soft reset", &mut cart, &[((0xF800, 0x42), some(0xC00_0000, 2, 26), NAMETABLES, "41w,42w,43,44,45w..48w")]);
}

/// L6, L16: what is dropped sets the written flag, and a settled 340 stores no byte and maps nothing.
fn settled(t: &mut Checks) {
    let mut cart = written(new_edition(D), &[(0x6000, 0x55)]);
    t.eq("6000=55", (cart.get(0x6000), cart.chip.prg_ram_written_to), (0, true));
    cart.put(0xE000, 0x80);
    t.eq("E000=80", cart.chip.board, Board::Namco340);
    steps(t, "settled", &mut cart, &[((0xF800, 0x40), NO_PRG, NO_CHR, "0*8")]);
    t.eq("no byte", regs(&cart), (Board::Namco340, 0, 0));
    t.eq("reset", refusal(cart.reset(0)), 0);
    steps(t, "reset", &mut cart, &[((0xF800, 0x4D), AT_6000, some(0xCC00, 4, 10), "41,42,43w,44w,45..48")]);
    t.eq("found", cart.chip.board, Board::Namco163);
}

/// L20: the byte that the board had as a 163 or a 175 serves the 163 that it becomes.
fn byte_of_another(t: &mut Checks) {
    let mut cart = loaded(new_edition(D));
    let steps_of_d: &[Step] = &[
        ((0xF800, 0x40), AT_6000, NO_CHR, "41w..48w"),
        ((0xE000, 0x80), AT_6000, NAMETABLES, "0*8"),
        ((0x4800, 0x00), AT_6000, NAMETABLES, "41w..48w"),
        ((0xE000, 0x80), AT_6000, NAMETABLES, "0*8"),
        ((0xC000, 0x03), AT_6000, NO_CHR, "41w..48w"),
        ((0xC800, 0xE0), AT_6000, some(0xDD00, 6, 8), "41..48"),
    ];
    steps(t, "D new", &mut cart, steps_of_d);
    t.eq("byte", regs(&cart).1, 0x03);
    for (edition, prg, entries) in [(new_edition(U), AT_6000, "41..48"), (U, NO_PRG, "41w..48w")] {
        let mut cart = loaded(edition);
        let open = ((0xC000, 0x01), AT_6000, NO_CHR, "41w..48w");
        steps(t, "U", &mut cart, &[open, ((0xC800, 0xE1), prg, NAMETABLES, entries)]);
        t.eq("U: F800=40", (cart.put(0xF800, 0x40).chr, cart.prg(24..32)), (NO_CHR, pages("41w..48w")));
    }
    let mut cart = loaded(new_edition(U));
    steps(t, "U new", &mut cart, &[((0xC000, 0x40), AT_6000, NO_CHR, "41..48")]);
    steps(t, "U new", &mut cart, &[((0x5000, 0x00), AT_6000, NAMETABLES, "41w..48w")]);
    t.eq("byte", regs(&cart).1, 0x40);
}

/// L11, L21: an Unknown becomes a 163.
fn found(t: &mut Checks) {
    steps(t, "U new", &mut loaded(new_edition(U)), &[((0x4800, 0x00), AT_6000, NAMETABLES, "41..48")]);
    steps(t, "U old", &mut loaded(U), &[((0x4800, 0x00), AT_6000, NAMETABLES, "41w..48w")]);
    steps(t, "U new", &mut loaded(new_edition(U)), &[((0xF800, 0x47), AT_6000, NAMETABLES, "41..46,47w,48w")]);
    steps(t, "U old", &mut loaded(U), &[((0xF800, 0x47), AT_6000, NAMETABLES, "41w..48w")]);
}

/// L21: boards that are no 163 are as in the old edition.
fn fixed_boards(t: &mut Checks) {
    let steps_of_175: &[Step] = &[
        ((0xF800, 0x40), NO_PRG, NO_CHR, "41..48"),
        ((0xC000, 0x40), NO_PRG, NO_CHR, "41..48"),
        ((0xC000, 0x41), AT_6000, NO_CHR, "41w..48w"),
        ((0xF800, 0x4F), NO_PRG, NO_CHR, "41w..48w"),
    ];
    for load in [N175, new_edition(N175)] {
        let mut cart = loaded(load);
        steps(t, "175", &mut cart, steps_of_175);
        t.eq("175: byte", regs(&cart), (Board::Namco175, 0x41, 0));
        t.eq("reset", refusal(cart.reset(1)), 0);
        steps(t, "175, reset", &mut cart, &[((0xF800, 0x00), NO_PRG, NO_CHR, "41w..48w"), ((0x8000, 0x00), AT_6000, NO_CHR, "41..48")]);
    }
    for load in [N340, new_edition(N340)] {
        let mut cart = loaded(load);
        steps(t, "340", &mut cart, &[((0xF800, 0x40), NO_PRG, NO_CHR, "0*8"), ((0xC000, 0x41), NO_PRG, NO_CHR, "0*8")]);
        t.eq("340: byte", regs(&cart), (Board::Namco340, 0, 0));
    }
}

/// M1, L20: parts are of addresses, so a page of PRG-RAM can be open at one and protected at another; M5: without any nothing is mapped.
fn short_ram(t: &mut Checks) {
    for (ram, entries) in [(1024, "41w*2,41*6"), (2048, "41w,42w,41,42,41,42,41,42"), (3072, "41w,42w,43,41,42,43,41,42"), (0, "0*8")] {
        let cart = written(new_edition(Load { prg_ram: ram, ..P }), &[(0xF800, 0x4E)]);
        t.eq(&format!("{ram} bytes"), cart.prg(24..32), pages(entries));
    }
    let mut cart = written(new_edition(Load { prg_ram: 1024, ..P }), &[(0xF800, 0x4E), (0x7C00, 0x11)]);
    t.eq("7C00=11", cart.get(0x6000), 0);
    cart.put(0x6000, 0x22);
    t.eq("6000=22", [0x6000, 0x6400, 0x7C00].map(|addr| cart.get(addr)), [0x22; 3]);
    let mut bare = loaded(new_edition(Load { prg_ram: 0, ..P }));
    for byte in 0x40..=0x4F {
        steps(t, "no PRG-RAM", &mut bare, &[((0xF800, byte), NO_PRG, NO_CHR, "0*8"), ((0x6000, 0x5A), NO_PRG, NO_CHR, "0*8")]);
    }
    t.holds("the arena is zeros", bare.arena().iter().all(|byte| *byte == 0));
    bare.lend_prg(24, "0w*8");
    steps(t, "the zero page lent", &mut bare, &[((0xF800, 0x40), AT_6000, NO_CHR, "0*8")]);
}

/// L22: protection is of CPU stores alone.
fn other_stores(t: &mut Checks) {
    use oracle::layout::Region::PrgRam;
    let mut cart = loaded(new_edition(P));
    t.eq("region-write", refusal(cart.region_write(PrgRam, 1, 0x31)), 0);
    t.eq("it shows", cart.get(0x6001), 0x31);
    t.eq("fill", refusal(cart.fill(PrgRam, &[0x41, 0x42])), 0);
    t.eq("it shows", [0x6000, 0x6001].map(|addr| cart.get(addr)), [0x41, 0x42]);
    t.eq("sram", number(cart.sram()), number(loaded(P).sram()));
}

/// L18: a preview of F800 shows the flags and stores no byte.
fn previews(t: &mut Checks) {
    for (load, prg) in [(new_edition(P), AT_6000), (P, NO_PRG)] {
        let mut cart = loaded(load);
        let whole = cart.whole();
        t.eq("F800=40", number(cart.preview(0xF800, 0x40)).map(|answer| (answer.prg, answer.chr)), Ok((prg, NO_CHR)));
        t.holds("nothing is altered", cart.whole() == whole);
        t.eq("the write", cart.put(0xF800, 0x40).prg, prg);
    }
}

/// K5: a flag that changes drops the block over it; a store that is dropped drops none; a byte that shows at a protected address, too, is
/// stored by an open one.
fn blocks(t: &mut Checks) {
    let starts = |cart: &Session| {
        let mut starts: Vec<u16> = cart.directory.blocks().map(|block| block.start).collect();
        starts.sort_unstable();
        starts
    };
    let with_blocks = |load: Load| {
        let mut cart = loaded(load);
        for start in [0x6000, 0x6400, 0x6800, 0x7000, 0x7C00, 0x8000] {
            assert_eq!(refusal(cart.directory.register(start, 16, 0)), 0, "the start is fit");
        }
        cart
    };
    let mut cart = with_blocks(new_edition(P));
    cart.put(0x6000, 0x55);
    cart.put(0xF800, 0x0F);
    t.eq("a store that is dropped, and F800=0F", starts(&cart).len(), 6);
    cart.put(0xF800, 0x4E);
    t.eq("F800=4E", starts(&cart), vec![0x6800, 0x7000, 0x7C00, 0x8000]);
    cart.put(0xF800, 0x46);
    t.eq("F800=46", starts(&cart), vec![0x6800, 0x7000, 0x8000]);
    let mut short = with_blocks(new_edition(Load { prg_ram: 1024, ..P }));
    short.put(0xF800, 0x4E);
    t.eq("a page of PRG-RAM, F800=4E", starts(&short), vec![0x6800, 0x7000, 0x7C00, 0x8000]);
    short.put(0x7C00, 0x55);
    t.eq("7C00=55", starts(&short).len(), 4);
    short.put(0x6000, 0x55);
    t.eq("6000=55", starts(&short), vec![0x8000]);
    let mut old = with_blocks(P);
    old.put(0xF800, 0x41);
    t.eq("P old, F800=41", starts(&old).len(), 6);
}

/// N1, H10: a load into so many bytes, by each of the three calls; `namco163_load` has no option.
fn host_loads(t: &mut Checks) {
    let (old, new) = (P, new_edition(P));
    let wide = new_edition(Load { prg_ram: (1 << 32) + 8_192, ..P });
    for (len, load, answer, options) in [
        (307, old, 0, None),
        (307, new, 1, None),
        (307, Load { mapper: 20, ..new }, 1, None),
        (307, Load { f800_protects: 1 << 63, ..P }, 1, None),
        (308, old, 0, Some(0x00)),
        (308, new, 0, Some(0x80)),
        (308, Load { f800_protects: 256, ..P }, 0, Some(0x80)),
        (308, Load { mapper: 20, ..new }, 4, None),
        (308, wide, 5, None),
        (308, Load { battery: 0, ..new }, 6, None),
        (306, new, 1, None),
        (309, new, 1, None),
        (309, Load { mapper: 20, ..old }, 1, None),
        (0, old, 1, None),
    ] {
        for with_blocks in [false, true] {
            let mut host = Host::new(loaded(P));
            host.lend_image(&vec![0xA5; len]);
            let word = if with_blocks { host.call_blocks(BlockCall::Load(load)) } else { host.call(HostCall::LoadOptions(load)) };
            t.eq(&format!("{load:?} into {len} bytes"), word, answer);
            t.eq("byte 307", host.image().get(307).copied().filter(|_| word == 0), options);
            t.holds("a refused load alters nothing", answer == 0 || host.image() == vec![0xA5; len]);
        }
        let mut host = Host::new(loaded(P));
        host.lend_image(&vec![0xA5; len]);
        let plain = if answer == 1 && len == 307 { if load.mapper == 20 { 4 } else { 0 } } else { answer };
        t.eq(&format!("namco163_load into {len} bytes"), host.call(HostCall::Load(load)), plain);
        t.holds("no option", plain != 0 || len != 308 || host.image()[307] == 0);
    }
}

/// H10: what each call writes back has the length that was lent.
fn host_calls(t: &mut Checks) {
    for (load, len, f800) in [(P, 307, 0), (P, 308, 0), (new_edition(P), 308, 0xFF00_0000)] {
        let mut host = Host::of_length(loaded(load), len);
        for (call, word) in [
            (HostCall::Preview(0xF800, 0x40), f800),
            (HostCall::Write(0xF800, 0x40), f800),
            (HostCall::Write(0x6000, 0x77), 0),
            (HostCall::Read(0x6000), 0x7700),
            (HostCall::Run(14), 0),
            (HostCall::Reset(0), 0),
        ] {
            t.eq(&format!("{call:X?}"), host.call(call), word);
            let options = (len == 308).then_some(if f800 == 0 { 0 } else { 0x80 });
            t.eq("length, byte 307", (host.image().len(), host.image().get(307).copied()), (len, options));
        }
        let mut long = host.image().to_vec();
        long.resize(309, 0);
        host.lend_image(&long);
        t.eq("309 bytes", [host.call(HostCall::Reset(2)), host.call_blocks(BlockCall::Write(0, 0))], [1, 1]);
        long.truncate(308);
        long[307] |= 0x08;
        host.lend_image(&long);
        t.eq("an unused bit", [host.call(HostCall::Reset(2)), host.call_blocks(BlockCall::Stored(0))], [2, 2]);
    }
}
