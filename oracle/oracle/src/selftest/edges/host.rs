// SPDX-License-Identifier: MIT OR Apache-2.0
//! Results at the edges of the clauses H, on the Rust, and N20's rows of a C host. The image has tests of its own.

use crate::selftest::{
    bench::{D, Handy, N175, P, loaded},
    checks::Checks,
    voice::{Voice, lend},
};
use oracle::{
    host::{Host, HostCall, run_word, write_word},
    image::{self, LEN, OPTIONS_LEN},
    layout::Load,
};

pub fn check(t: &mut Checks) {
    words(t);
    previews(t);
    samples(t);
    refusals(t);
    loads(t);
}

/// H6: the words of writes, of a run and of reads.
fn words(t: &mut Checks) {
    t.eq("P: 8000=E1", write_word(loaded(P).put(0x8000, 0xE1)), 0x100);
    t.eq("P: E000=3F", write_word(loaded(P).put(0xE000, 0x3F)), 0xFF_0000_0000);
    t.eq("D: E000=80", write_word(loaded(D).put(0xE000, 0x80)), 0xFFFF_0000);
    let mut p = loaded(P);
    p.set_counter(0x8000, false);
    t.eq("fresh P with counter 8000, run 29,781", run_word(p.clocks(29_781)), 0x7_C100);
    t.eq("then run 2,986", run_word(p.clocks(2_986)), 0xBAA_0000_C700);
    let mut p = loaded(P);
    p.set_counter(0x8BAA, false);
    t.eq("fresh P with counter 8BAA, run 29,781", run_word(p.clocks(29_781)), 0x7455_0007_C100);
    let mut p = loaded(P);
    p.set_counter(0x8BA9, false);
    t.eq("fresh P with counter 8BA9, run 29,781", run_word(p.clocks(29_781)), 0x7_C100);
    let mut p = loaded(P);
    p.set_counter(0xA55A, false);
    let mut host = Host::new(p);
    t.eq("a read's word", [0x5000, 0x5800].map(|addr| host.call(HostCall::Read(addr))), [0x5A00, 0xA500]);
}

/// L18, H6: a preview's word, twice, with image and arena as they were, and then the write's.
fn previews(t: &mut Checks) {
    for (load, addr, val, word) in [
        (P, 0x8000, 0xE1, 0x100),
        (P, 0xE000, 0x3F, 0xFF_0000_0000),
        (P, 0x6000, 0x12, 0),
        (P, 0x47FF, 0x00, 8),
        (D, 0xE000, 0x80, 0xFFFF_0000),
        (N175, 0xC000, 0x01, 0xFF00_0000),
    ] {
        let mut host = Host::new(loaded(load));
        let (image, arena) = (host.image().to_vec(), host.arena().to_vec());
        let preview = HostCall::Preview(addr, val);
        t.eq(&format!("{preview:X?}, twice"), [host.call(preview), host.call(preview)], [word; 2]);
        t.holds("it alters nothing", host.image() == image && host.arena() == arena);
        t.eq("the write", host.call(HostCall::Write(addr, val)), word);
        t.eq("and that alters something", host.image() != image || host.arena() != arena, word != 8);
    }
}

/// H7, N11: a sample's bytes, and what is lent behind it or is too short for it.
fn samples(t: &mut Checks) {
    for (lent, word, left) in [
        (3, 11, vec![0xEE; 3]),
        (4, 0x100, vec![0x3C, 0x2C, 0x08, 0x31]),
        (7, 0x100, vec![0x3C, 0x2C, 0x08, 0x31, 0xEE, 0xEE, 0xEE]),
        (9, 0x100, vec![0x3C, 0x2C, 0x08, 0x31, 0xEE, 0xEE, 0xEE, 0xEE, 0xEE]),
    ] {
        let mut p = loaded(P);
        lend(&mut p, 7, Voice { volume: 15, nibble: 0xF, ..Voice::default() });
        let mut host = Host::new(p);
        host.samples = vec![0xEE; lent];
        t.eq("a run of 15 clocks", host.call(HostCall::Run(15)), word);
        t.eq("its sample bytes", &host.samples, &left);
    }
}

/// N20, a host's read, write, preview, run and reset: everything wrong, then one thing after another mended.
fn refusals(t: &mut Checks) {
    let fit = image::encode(&loaded(P));
    let mut bad = fit;
    // The counter of updates, bits 1217..1220, is then 15.
    bad[152] |= 0x78;
    let images: [&[u8]; 4] = [&fit[..306], &bad, &fit, &fit];
    for (call, answers) in [
        (HostCall::Read(0x47FF), [1, 2, 7, 8]),
        (HostCall::Write(0x47FF, 1), [1, 2, 7, 8]),
        (HostCall::Preview(0x47FF, 1), [1, 2, 7, 8]),
        (HostCall::Run((1 << 32) + 5), [1, 2, 10, 10]),
        (HostCall::Run(65_536), [1, 2, 10, 10]),
        (HostCall::Run(29_782), [1, 2, 10, 10]),
        (HostCall::Run(29_781), [1, 2, 11, 11]),
        (HostCall::Reset(2), [1, 2, 3, 3]),
    ] {
        for (step, (image, answer)) in images.into_iter().zip(answers).enumerate() {
            let mut host = Host::new(loaded(P));
            host.lend_image(image);
            if step < 3 {
                host.lend_arena(&[0x55; 53_247]);
            }
            let arena = host.arena().to_vec();
            t.eq(&format!("{call:X?}, step {step}"), host.call(call), answer);
            t.holds("it alters nothing", host.image() == image && host.arena() == arena);
        }
    }
}

/// N20, a host's load; H4: whatever bytes the image has, if it has 307 or 308.
fn loads(t: &mut Checks) {
    let wrong = Load { mapper: 20, ..P };
    for (len, load, answer) in
        [(309, wrong, 1), (306, wrong, 1), (LEN, wrong, 4), (OPTIONS_LEN, wrong, 4), (LEN, Load { battery: 0, ..P }, 6), (LEN, P, 7)]
    {
        let mut host = Host::new(loaded(N175));
        host.lend_image(&vec![0xFF; len]);
        t.eq("a refused load", host.call(HostCall::Load(load)), answer);
        t.holds("it alters nothing", host.image() == vec![0xFF; len] && host.arena() == loaded(N175).arena());
    }
    let mut host = Host::new(loaded(N175));
    host.lend_image(&[0xFF; LEN]);
    host.lend_arena(&[0xFF; 53_248]);
    t.eq("a load over any bytes", host.call(HostCall::Load(P)), 0);
    t.holds("its image is a fresh state's", host.image() == image::encode(&loaded(P)));
    t.holds("its arena is zero", host.arena() == [0; 53_248]);
}
