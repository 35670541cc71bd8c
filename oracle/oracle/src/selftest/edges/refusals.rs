// SPDX-License-Identifier: MIT OR Apache-2.0
//! Results at the edges of the clauses N, on the Rust: every call with everything wrong, then with one thing after another mended.

use crate::selftest::{
    bench::{D, Handy, N175, P, U, loaded, refusal, try_load},
    checks::Checks,
};
use oracle::{
    layout::{Load, Region},
    session::Session,
};

pub fn check(t: &mut Checks) {
    loads(t);
    arena_lengths(t);
    orders(t);
    whole_state(t);
    edges_of_conditions(t);
    wide_numbers(t);
}

fn load_into(load: Load, arena_len: u64) -> u8 {
    refusal(Session::load(&load, arena_len))
}

/// N4 to N7, in their order; N6 is about mapper 19 and no byte at all.
fn loads(t: &mut Checks) {
    t.eq("mapper 20 with wrong sizes and arena", load_into(Load { mapper: 20, prg_rom: 524_289, battery: 0, ..P }, 1), 4);
    t.eq("19 with PRG-ROM 524,289 and reserve 0", load_into(Load { prg_rom: 524_289, battery: 0, ..P }, 1), 5);
    t.eq("reserve 1025", load_into(Load { battery: 1025, ..P }, 1), 5);
    t.eq("19 without reserve, in a wrong arena", load_into(Load { battery: 0, ..P }, 1), 6);
    t.eq("a wrong arena", load_into(P, 1), 7);
    for battery in [1, 127, 128, 1024] {
        t.eq("19 with a reserve", refusal(try_load(Load { battery, ..P })), 0);
        t.eq("19 with a reserve, detecting", refusal(try_load(Load { battery, ..D })), 0);
    }
    for submapper in [0, 1, 2, 3, 255] {
        t.eq("210 with reserve 0", refusal(try_load(Load { battery: 0, submapper, ..U })), 0);
    }
    for mapper in [0, 18, 20, 209, 211] {
        t.eq("other mappers", refusal(try_load(Load { mapper, ..P })), 4);
    }
}

/// N1, N7: one byte less and one byte more.
fn arena_lengths(t: &mut Checks) {
    for (len, answer) in [(53_247, 7), (53_248, 0), (53_249, 7), (0, 7), (u64::MAX, 7)] {
        t.eq(&format!("load into {len} bytes"), load_into(P, len), answer);
    }
    for (len, answer) in [(53_247, 7), (53_248, 0), (53_249, 7)] {
        let mut p = loaded(P);
        *p.memory.raw_data_mut() = vec![0; len].into();
        t.eq(&format!("peek with {len} bytes"), refusal(p.peek(0x6000)), answer);
    }
    for (len, answer) in [(0, 1), (306, 1), (307, 0), (308, 0), (309, 1)] {
        let mut buffer = vec![0xEE; len];
        t.eq(&format!("image of {len} bytes"), refusal(loaded(P).image(&mut buffer)), answer);
        t.holds("a refused image is unaltered", answer == 0 || buffer == vec![0xEE; len]);
    }
}

type Call = fn(&mut Session) -> u8;

/// N20: each call on a state, with arguments as wrong as they can be (some once more with fit ones), and its refusals in checking order.
const CALLS: &[(&str, Call, &[u8])] = &[
    ("read", |s| refusal(s.read(0x47FF)), &[2, 7, 8]),
    ("read of a register", |s| refusal(s.read(0x4800)), &[2, 7]),
    ("peek", |s| refusal(s.peek(0x0000)), &[2, 7, 8]),
    ("write", |s| refusal(s.write(0x47FF, 1)), &[2, 7, 8]),
    ("preview", |s| refusal(s.preview(0x47FF, 1)), &[2, 7, 8]),
    ("preview of a register", |s| refusal(s.preview(0x8000, 1)), &[2, 7]),
    ("CHR read", |s| refusal(s.chr_read(0)), &[2, 7]),
    ("CHR write", |s| refusal(s.chr_write(0x2000, 1)), &[2, 7]),
    ("fill", |s| refusal(s.fill(Region::PrgRom, &[1; 32_769])), &[2, 7, 9]),
    ("region peek", |s| refusal(s.region_peek(Region::PrgRom, 0)), &[2, 7]),
    ("region write", |s| refusal(s.region_write(Region::PrgRom, 0, 1)), &[2, 7]),
    ("sram", |s| refusal(s.sram()), &[2]),
    ("run", |s| refusal(s.run(29_782, &mut [])), &[2, 10]),
    ("run without room", |s| refusal(s.run(29_781, &mut [])), &[2, 11]),
    ("reset", |s| refusal(s.reset(2)), &[2, 3]),
    ("soft reset", |s| refusal(s.reset(0)), &[2]),
    ("sync", |s| refusal(s.sync_battery()), &[2, 7, 12]),
    ("restore", |s| refusal(s.restore_battery()), &[2, 7, 12]),
    ("register", |s| refusal(s.directory.register(0x47FF, 0, 0)), &[8]),
    ("register of no byte", |s| refusal(s.directory.register(0x6000, 0, 0)), &[13]),
    ("register of a byte", |s| refusal(s.directory.register(0x6000, 1, 0)), &[0]),
    ("lookup", |s| refusal(s.directory.lookup(0x47FF)), &[8]),
    ("image of 306 bytes", |s| refusal(s.image(&mut [0; 306])), &[1]),
    ("image", |s| refusal(s.image(&mut [0; 307])), &[2]),
];

fn expect(t: &mut Checks, what: &str, session: &Session, call: Call, refused_by: u8) {
    let mut called = session.clone();
    t.eq(what, call(&mut called), refused_by);
    if refused_by != 0 {
        t.holds(&format!("{what} alters nothing"), called.whole() == session.whole());
    }
}

/// N0: of several conditions that hold, the first number is the answer.
fn orders(t: &mut Checks) {
    // A used length of 0 lets 12 hold; a 163, not disabled, lets 11 hold.
    let mut plain = loaded(P);
    *plain.memory.raw_battery_ext_len_mut() = 0;
    let mut short = plain.clone();
    *short.memory.raw_data_mut() = vec![0; 53_247].into();
    let mut bad = short.clone();
    bad.chip.audio.out = -0.0;
    for (what, call, refusals) in CALLS {
        let first = |condition: fn(u8) -> bool| refusals.iter().copied().find(|number| condition(*number)).unwrap_or(0);
        expect(t, &format!("{what}, bad state and arena"), &bad, *call, first(|_| true));
        expect(t, &format!("{what}, bad arena"), &short, *call, first(|number| number != 2));
        expect(t, &format!("{what}, bad arguments"), &plain, *call, first(|number| number != 2 && number != 7));
    }
}

/// N2: any field, in every call on a state. R9: an entry behind the layout's last page, also where such a page is lent.
fn whole_state(t: &mut Checks) {
    let mut float = loaded(P);
    float.chip.audio.channel_out[0] = 0.5;
    let mut entry = loaded(P);
    *entry.memory.raw_data_mut() = vec![0; 53 * 1024].into();
    *entry.memory.raw_chr_pages_mut()[3].raw_mut() = 52 * 1024;
    let mut bank = loaded(P);
    bank.chip.prg_banks[1] = 64;
    for bad in [&float, &entry, &bank] {
        for (what, call, refusals) in CALLS {
            expect(t, what, bad, *call, refusals[0]);
        }
    }
}

/// N3 and N8 to N12, on both sides of each condition; N0: a refused call alters nothing.
fn edges_of_conditions(t: &mut Checks) {
    let p = loaded(P);
    let n175 = loaded(N175);
    for (what, session, call, answer) in [
        ("read 47FF", &p, (|s| refusal(s.read(0x47FF))) as Call, 8),
        ("read 4800", &p, |s| refusal(s.read(0x4800)), 0),
        ("peek 47FF", &p, |s| refusal(s.peek(0x47FF)), 8),
        ("peek 4800", &p, |s| refusal(s.peek(0x4800)), 0),
        ("write 47FF", &p, |s| refusal(s.write(0x47FF, 1)), 8),
        ("write 0000", &p, |s| refusal(s.write(0x0000, 1)), 8),
        ("write 4800", &p, |s| refusal(s.write(0x4800, 1)), 0),
        ("preview 47FF", &p, |s| refusal(s.preview(0x47FF, 1)), 8),
        ("preview 0000", &p, |s| refusal(s.preview(0x0000, 1)), 8),
        ("preview 4800", &p, |s| refusal(s.preview(0x4800, 1)), 0),
        ("fill of 8192", &p, |s| refusal(s.fill(Region::PrgRam, &[1; 8192])), 0),
        ("fill of 8193", &p, |s| refusal(s.fill(Region::PrgRam, &[1; 8193])), 9),
        ("run 29,780", &p, |s| refusal(s.run(29_780, &mut [0.0; 1985])), 0),
        ("run 29,781", &p, |s| refusal(s.run(29_781, &mut [0.0; 1985])), 0),
        ("run 29,782", &p, |s| refusal(s.run(29_782, &mut [0.0; 5000])), 10),
        ("29,782 clocks and no room", &p, |s| refusal(s.run(29_782, &mut [])), 10),
        ("run 65,536", &p, |s| refusal(s.run(65_536, &mut [0.0; 5000])), 10),
        ("run 65,537", &p, |s| refusal(s.run(65_537, &mut [0.0; 5000])), 10),
        ("room 1984", &p, |s| refusal(s.run(29_781, &mut [0.0; 1984])), 11),
        ("kind 0", &p, |s| refusal(s.reset(0)), 0),
        ("kind 1", &p, |s| refusal(s.reset(1)), 0),
        ("kind 2", &p, |s| refusal(s.reset(2)), 3),
        ("sync of a 163", &p, |s| refusal(s.sync_battery()), 0),
        ("sync of a 175", &n175, |s| refusal(s.sync_battery()), 12),
        ("restore of a 175", &n175, |s| refusal(s.restore_battery()), 12),
    ] {
        expect(t, what, session, call, answer);
    }
}

/// H8: numbers whose low bits alone would pass.
fn wide_numbers(t: &mut Checks) {
    t.eq("mapper 65,555", refusal(try_load(Load { mapper: 65_555, ..P })), 4);
    t.eq("mapper 2^32 + 19", refusal(try_load(Load { mapper: (1 << 32) + 19, ..P })), 4);
    let wide = 1 << 32;
    for load in [
        Load { prg_rom: wide + 32_768, ..P },
        Load { prg_ram: wide, ..P },
        Load { battery: wide + 128, ..P },
        Load { chr: wide, ..P },
        Load { ciram: u64::MAX, ..P },
    ] {
        t.eq("a size above 2^32", refusal(try_load(load)), 5);
    }
    for clocks in [wide, wide + 5, wide + 29_781, u64::MAX] {
        t.eq("clocks from 2^32 on", refusal(loaded(P).run(clocks, &mut [0.0; 1986])), 10);
    }
    t.eq("kind 256", refusal(loaded(P).reset(256)), 3);
    t.eq("kind 2^32", refusal(loaded(P).reset(wide)), 3);
}
