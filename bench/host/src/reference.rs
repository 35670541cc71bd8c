// SPDX-License-Identifier: MIT OR Apache-2.0
//! The unchanged Rust on the same cartridge, stepped clock by clock.

use tetanes::{
    cart::{Cart, GameInfo, NesHeader},
    m019_namco163::{Board, Namco163},
    mapper::Map,
    memory::{Memory, MemoryLayout},
};

pub struct Reference {
    chip: Namco163,
    memory: Memory,
    pub samples: Vec<f32>,
}

impl Reference {
    pub fn load() -> Self {
        Self::load_as(19, 0)
    }

    pub fn load_as(mapper_num: u16, submapper_num: u8) -> Self {
        let mut layout = MemoryLayout::default();
        layout.prg_rom = crate::PRG_ROM;
        layout.prg_ram = crate::PRG_RAM;
        layout.battery_ext = crate::RESERVE;
        layout.chr = crate::CHR;
        layout.ciram = crate::CIRAM;
        let mut cart = Cart {
            header: NesHeader { mapper_num, submapper_num, flags: 0 },
            game_info: Some(GameInfo { mapper_num, submapper_num }),
            memory: Memory::new(layout),
        };
        let Ok(chip) = Namco163::load(&mut cart);
        Self { chip, memory: cart.memory, samples: vec![0.0; crate::MOST_SAMPLES] }
    }

    #[inline(never)]
    pub fn read(&mut self, addr: u16) -> u8 {
        self.chip.prg_read(addr).unwrap_or_else(|| self.memory.prg_peek(addr))
    }

    #[inline(never)]
    pub fn write(&mut self, addr: u16, val: u8) {
        self.memory.prg_write(addr, val);
        self.chip.write_register(&mut self.memory, addr, val);
    }

    /// Puts the counter back, so that each run counts from the same.
    pub fn restart(&mut self, counter: u16) {
        self.chip.regs.irq_counter = counter;
    }

    #[inline(never)]
    fn step(&mut self) {
        self.chip.clock();
    }

    /// One call for each clock, as an emulator steps a board between the cycles of its CPU.
    pub fn run_by_calls(&mut self, clocks: u64) -> u64 {
        self.run(clocks, Self::step)
    }

    /// All clocks in one loop that the compiler sees whole.
    pub fn run_in_a_loop(&mut self, clocks: u64) -> u64 {
        self.run(clocks, |board| board.chip.clock())
    }

    /// H6: the number of samples and the rise, in the bits of the archive's answer.
    #[inline(always)]
    fn run(&mut self, clocks: u64, step: impl Fn(&mut Self)) -> u64 {
        let (mut made, mut rise) = (0, 0);
        let sounds = self.chip.board == Board::Namco163 && !self.chip.audio.disabled;
        for clock in 1..=clocks {
            let before = self.chip.regs.irq_counter;
            step(self);
            if sounds && self.chip.audio.update_counter == 0 {
                self.samples[made] = self.chip.output();
                made += 1;
            }
            let after = self.chip.regs.irq_counter;
            if after == 0xFFFF && after != before {
                rise = clock;
            }
        }
        (made as u64) << 8 | rise << 32
    }
}
