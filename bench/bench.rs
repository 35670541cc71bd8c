// SPDX-License-Identifier: MIT OR Apache-2.0
//! The proved run against the Rust's `Audio`, stepped clock by clock and update by update, in one process.
//! Samples are compared bit by bit before anything is timed. Clock by clock is measured twice: with one call for each clock, as an emulator
//! steps the chip between the cycles of its CPU, and with all clocks of a run in one loop that the compiler sees whole.

use std::hint::black_box;
use std::time::Instant;

mod reference {
    /// Stands in for the crate's own array type.
    #[derive(Debug, Clone)]
    pub struct ConstArray<T, const N: usize>(pub [T; N]);

    impl<const N: usize> ConstArray<u8, N> {
        pub fn new() -> Self {
            Self([0; N])
        }
    }

    impl<T, const N: usize> std::ops::Deref for ConstArray<T, N> {
        type Target = [T; N];
        fn deref(&self) -> &Self::Target {
            &self.0
        }
    }

    impl<T, const N: usize> std::ops::DerefMut for ConstArray<T, N> {
        fn deref_mut(&mut self) -> &mut Self::Target {
            &mut self.0
        }
    }

    include!("../target/bench/audio.rs");

    impl Audio {
        #[inline(never)]
        fn step(&mut self) {
            self.clock();
        }

        /// One call for each clock.
        pub fn by_calls(&mut self, clocks: u32, samples: &mut [f32]) -> usize {
            let mut made = 0;
            for _ in 0..clocks {
                self.step();
                if self.update_counter == 0 {
                    samples[made] = self.output();
                    made += 1;
                }
            }
            made
        }

        /// All clocks in one loop.
        pub fn by_clocks(&mut self, clocks: u32, samples: &mut [f32]) -> usize {
            let mut made = 0;
            for _ in 0..clocks {
                self.clock();
                if self.update_counter == 0 {
                    samples[made] = self.output();
                    made += 1;
                }
            }
            made
        }

        /// Only the updates, by the steps that `clock` takes on the fifteenth clock.
        pub fn by_updates(&mut self, clocks: u32, samples: &mut [f32]) -> usize {
            let total = u32::from(self.update_counter) + clocks;
            let count = (total / 15) as usize;
            for sample in &mut samples[..count] {
                self.update_channel();
                self.current_channel -= 1;
                if self.current_channel < 7 - self.channel_count() as i8 {
                    self.current_channel = 7;
                }
                *sample = self.output();
            }
            self.update_counter = (total % 15) as u8;
            count
        }
    }
}

#[link(name = "sound_bench", kind = "static")]
unsafe extern "C" {
    fn sound_bench_run(ram: *const u8, ram_len: usize, samples: *mut f32, samples_len: usize, clocks: u32) -> u64;
}

fn proved(ram: &[u8; 128], samples: &mut [f32], clocks: u32) -> usize {
    unsafe { sound_bench_run(ram.as_ptr(), ram.len(), samples.as_mut_ptr(), samples.len(), clocks) as usize }
}

fn fresh(ram: &[u8; 128]) -> reference::Audio {
    let mut a = reference::Audio::new();
    *a.ram = *ram;
    a
}

fn by_calls(ram: &[u8; 128], samples: &mut [f32], clocks: u32) -> usize {
    fresh(ram).by_calls(clocks, samples)
}

fn by_clocks(ram: &[u8; 128], samples: &mut [f32], clocks: u32) -> usize {
    fresh(ram).by_clocks(clocks, samples)
}

fn by_updates(ram: &[u8; 128], samples: &mut [f32], clocks: u32) -> usize {
    fresh(ram).by_updates(clocks, samples)
}

/// Sound RAM from a fixed sequence, with `c` in byte 7F.
fn ram_of(seed: u64, c: u8) -> [u8; 128] {
    let mut x = seed.wrapping_mul(0x9E37_79B9_7F4A_7C15) | 1;
    let mut ram = [0; 128];
    for byte in &mut ram {
        x ^= x << 13;
        x ^= x >> 7;
        x ^= x << 17;
        *byte = x as u8;
    }
    ram[0x7F] = (ram[0x7F] & 0x8F) | (c << 4);
    ram
}

type Run = fn(&[u8; 128], &mut [f32], u32) -> usize;

fn nanoseconds(run: Run, rams: &[[u8; 128]], samples: &mut [f32], clocks: u32) -> f64 {
    let start = Instant::now();
    let mut made = 0;
    for ram in rams {
        made += run(black_box(ram), samples, clocks);
        black_box(&samples);
    }
    start.elapsed().as_nanos() as f64 / made as f64
}

fn main() {
    let clocks = 65_536;
    let mut samples = vec![0f32; 4370];
    let mut want = vec![0f32; 4370];
    for seed in 0..400 {
        let ram = ram_of(seed, (seed % 8) as u8);
        let made = by_clocks(&ram, &mut want, clocks);
        for run in [proved as Run, by_calls, by_updates] {
            samples.fill(-1.0);
            assert_eq!(run(&ram, &mut samples, clocks), made);
            assert!((0..made).all(|i| samples[i].to_bits() == want[i].to_bits()));
            assert!(samples[made..].iter().all(|x| *x == -1.0));
        }
    }
    println!("400 sound RAMs of 65,536 clocks: every sample has the Rust's bits");
    let runs = [proved as Run, by_calls, by_clocks, by_updates];
    for c in [0, 3, 7] {
        let rams: Vec<_> = (0..100).map(|seed| ram_of(seed, c)).collect();
        let mut best = [f64::MAX; 4];
        for _ in 0..25 {
            for (best, run) in best.iter_mut().zip(runs) {
                *best = best.min(nanoseconds(run, &rams, &mut samples, clocks));
            }
        }
        let [p, calls, clocks, updates] = best;
        println!("{} channels, ns an update: proved {p:.2}", c + 1);
        for (name, time) in [("a call for each clock", calls), ("clocks in one loop", clocks), ("update by update", updates)] {
            println!("    Rust, {name}: {time:.2}; proved takes {:.3} of it", p / time);
        }
    }
}
