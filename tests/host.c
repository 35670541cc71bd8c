/* SPDX-License-Identifier: MIT OR Apache-2.0 */
/* The thirteen calls and the header's helpers, from C99 and C++11: answers, refusals in their order, and what a refused call leaves as it
 * was. */
#include <stdio.h>
#include <stdlib.h>

#include "namco163.h"

/* T0: layout P, 52 pages; BARE is without PRG-RAM, 44 pages; LARGEST has each size at its limit, 902 pages. */
enum { ARENA = 53248, BARE = 45056, LARGEST = 923648, SAMPLES = 4 * NAMCO163_MOST_SAMPLES + 3 };

static uint8_t image[NAMCO163_OPTIONS_IMAGE_SIZE + 1], arena[ARENA + 1], samples[SAMPLES];
static uint8_t image_before[sizeof image], arena_before[sizeof arena], samples_before[sizeof samples];
static uint64_t directory[NAMCO163_PLACES + 1], directory_before[NAMCO163_PLACES + 1];
static size_t lent = ARENA; /* how much of the arena reads and writes get: as much as the last load */
static size_t image_lent = NAMCO163_IMAGE_SIZE; /* how much of the image calls get: as much as the last load */
static int checks, failures;

#define CHECK(what) check(what, #what, __LINE__)
#define EQUAL(got, expected) equal(got, expected, #got, __LINE__)

static void check(int holds, const char *what, int line) {
    checks++;
    if (holds) return;
    failures++;
    printf("tests/host.c:%d: not so: %s\n", line, what);
}

static void equal(uint64_t got, uint64_t expected, const char *what, int line) {
    checks++;
    if (got == expected) return;
    failures++;
    printf("tests/host.c:%d: %s is %llX and not %llX\n", line, what, (unsigned long long)got, (unsigned long long)expected);
}

static uint64_t load(uint64_t mapper, uint64_t known, uint64_t prg_rom, uint64_t battery) {
    lent = ARENA;
    image_lent = NAMCO163_IMAGE_SIZE;
    return namco163_load(image, NAMCO163_IMAGE_SIZE, arena, ARENA, mapper, 0, 0, known, prg_rom, 8192, battery, 8192, 0, 2048);
}
static uint64_t load_bare(uint64_t mapper, uint8_t submapper, uint64_t known) {
    lent = BARE;
    image_lent = NAMCO163_IMAGE_SIZE;
    return namco163_load(image, NAMCO163_IMAGE_SIZE, arena, BARE, mapper, submapper, 0, known, 32768, 0, 128, 8192, 0, 2048);
}
static uint64_t read_at(unsigned addr) { return namco163_read(image, image_lent, arena, lent, (uint16_t)addr); }
static uint64_t write_at(unsigned addr, unsigned val) {
    return namco163_write(image, image_lent, arena, lent, (uint16_t)addr, (uint8_t)val);
}
static uint64_t preview_of(const uint8_t *of_image, const uint8_t *of_arena, unsigned addr, unsigned val) {
    return namco163_preview(of_image, image_lent, of_arena, lent, (uint16_t)addr, (uint8_t)val);
}
static uint64_t preview(unsigned addr, unsigned val) { return preview_of(image, arena, addr, val); }
static uint64_t run(uint64_t clocks) { return namco163_run(image, image_lent, samples, SAMPLES, clocks); }
static void set_counter(unsigned counter) {
    EQUAL(write_at(0x5000, counter & 0xFF), 0);
    EQUAL(write_at(0x5800, counter >> 8), 0);
}
static uint64_t reset(uint64_t kind) { return namco163_reset(image, image_lent, kind); }

static void keep(void) {
    memcpy(image_before, image, sizeof image);
    memcpy(arena_before, arena, sizeof arena);
    memcpy(samples_before, samples, sizeof samples);
    memcpy(directory_before, directory, sizeof directory);
}

/* Whether nothing that was lent has changed since `keep`. */
static int kept(void) {
    return !memcmp(image_before, image, sizeof image) && !memcmp(arena_before, arena, sizeof arena) &&
           !memcmp(samples_before, samples, sizeof samples) && !memcmp(directory_before, directory, sizeof directory);
}

static void test_sizes(void) {
    struct namco163_arena rom = namco163_arena_of(32768, 8192, 128, 8192, 0, 2048);
    struct namco163_arena ram = namco163_arena_of(32768, 8192, 128, 8192, 1, 2048);
    EQUAL(namco163_arena_length(32768, 8192, 128, 8192, 2048), ARENA);
    EQUAL(namco163_arena_length(524288, 65536, 1024, 262144, 4096), 858112);
    EQUAL(namco163_arena_length(524288, 131072, 1024, 262144, 4096), LARGEST);
    EQUAL(namco163_arena_length(32768, 0, 128, 8192, 2048), BARE);
    EQUAL(namco163_arena_length(0, 0, 0, 0, 0), 3072);
    EQUAL(namco163_arena_length(1, 1025, 1, 0, 1), 6144);
    EQUAL(namco163_arena_length(524289, 0, 0, 0, 0), 0);
    EQUAL(namco163_arena_length(0, 65537, 0, 0, 0), 69632);
    EQUAL(namco163_arena_length(0, 131072, 0, 0, 0), 134144);
    EQUAL(namco163_arena_length(0, 131073, 0, 0, 0), 0);
    EQUAL(namco163_arena_length(0, 0, 1025, 0, 0), 0);
    EQUAL(namco163_arena_length(0, 0, 0, 262145, 0), 0);
    EQUAL(namco163_arena_length(0, 0, 0, 0, 4097), 0);
    EQUAL(namco163_arena_length((uint64_t)-1, 0, 0, 0, 0), 0);
    CHECK(rom.prg_rom == 1024 && rom.chr == 33792 && rom.prg_ram == 41984 && rom.battery == 50176 && rom.ciram == 51200);
    CHECK(ram.prg_rom == 1024 && ram.prg_ram == 33792 && ram.battery == 41984 && ram.chr == 43008 && ram.ciram == 51200);
    CHECK(rom.length == ARENA && ram.length == ARENA);
    EQUAL(namco163_most_samples(0), 0);
    EQUAL(namco163_most_samples(1), 1);
    EQUAL(namco163_most_samples(15), 1);
    EQUAL(namco163_most_samples(16), 2);
    EQUAL(NAMCO163_CLOCK_LIMIT, 29781);
    EQUAL(NAMCO163_MOST_SAMPLES, 1986);
    EQUAL(NAMCO163_PRG_RAM_LIMIT, 131072);
    EQUAL(namco163_most_samples(NAMCO163_CLOCK_LIMIT), NAMCO163_MOST_SAMPLES);
    CHECK(!strcmp(namco163_refusal_text(0), "accepted") && !strcmp(namco163_refusal_text(12), "no battery is in use"));
    CHECK(!strcmp(namco163_refusal_text(NAMCO163_DIRECTORY_FULL), "all 256 places of the directory are held"));
    CHECK(!strcmp(namco163_refusal_text(15), "no refusal has this number"));
    CHECK(!strcmp(namco163_refusal_text(NAMCO163_CLOCKS), "the run is longer than 29781 clocks"));
}

/* H4, R5, H1: a load does not read the image, zeroes the arena, and writes the image of the new state. */
static void test_load(void) {
    static const uint8_t start[8] = {0x00, 0x00, 0x00, 0x08, 0x00, 0x98, 0x00, 0x80}, end[4] = {0x08, 0x04, 0x41, 0x05};
    size_t zeros = 0;
    memset(image, 0xA5, sizeof image);
    memset(arena, 0xA5, sizeof arena);
    EQUAL(load(19, 1, 32768, 128), 0);
    while (zeros < sizeof arena && arena[zeros] == 0) zeros++;
    EQUAL(zeros, ARENA);
    CHECK(image[NAMCO163_IMAGE_SIZE] == 0xA5 && arena[ARENA] == 0xA5);
    CHECK(!memcmp(image, start, sizeof start) && image[151] == 0 && image[152] == 7 && !memcmp(image + 303, end, sizeof end));
    EQUAL(namco163_prg_entry(image, 0xE000).offset, 25 * 1024);
    EQUAL(namco163_prg_entry(image, 0x6400).offset, 42 * 1024);
    CHECK(namco163_prg_entry(image, 0x6400).writable && !namco163_prg_entry(image, 0xE000).writable);
    EQUAL(namco163_prg_entry(image, 0x5C00).offset, 0);
    EQUAL(namco163_chr_entry(image, 0x3C00).offset, 33 * 1024);
    keep();
    EQUAL(load(19, 256, 32768, 128), 0);
    CHECK(kept());
    EQUAL(load(19, (uint64_t)1 << 32, 32768, 128), 0);
    CHECK(kept());
}

/* H6: a read's byte, a write's masks. */
static void test_answers(void) {
    uint64_t answer = write_at(0x8000, 0xE1);
    EQUAL(answer, 0x100);
    CHECK(namco163_chr_mask(answer) == 1 && namco163_prg_mask(answer) == 0);
    EQUAL(namco163_chr_entry(image, 0x4000).offset, 51 * 1024);
    CHECK(namco163_chr_entry(image, 0x0000).writable);
    answer = write_at(0xE000, 0x3F);
    EQUAL(answer, 0xFF00000000);
    CHECK(namco163_chr_mask(answer) == 0 && namco163_prg_mask(answer) == 0xFF00000000);
    arena[25 * 1024 + 5] = 0x77;
    EQUAL(read_at(0x8005), 0x7700);
    EQUAL(namco163_byte(read_at(0xE005)), 0x77);
    EQUAL(write_at(0x6403, 0x5A), 0);
    EQUAL(arena[42 * 1024 + 3], 0x5A);
    EQUAL(write_at(0xF800, 0xFF), 0);
    EQUAL(write_at(0x4800, 0x5A), 0);
    EQUAL(image[23 + 0x7F], 0x5A);
    EQUAL(read_at(0x4FFF), 0);
    EQUAL(image[151] >> 1, 0x01);
    EQUAL(load(19, 0, 32768, 128), 0);
    EQUAL(write_at(0xE000, 0x80), 0xFFFF0000);
    CHECK(namco163_chr_mask(0xFFFF0000) == 0xFF00 && namco163_prg_mask(0xFFFF0000) == 0xFF000000);
}

/* Volume 15 on channel 7 alone, and a wave of zeros: each sample is 3720 * 0.0001, bits 3EBE76C8. */
static const uint8_t level_bytes[4] = {0x3E, 0xBE, 0x76, 0xC8};

/* Whether the samples lent hold so many of that level and then the bytes A5 that they were filled with. */
static int made(size_t count) {
    size_t at = 0;
    while (at < 4 * count && samples[at] == level_bytes[at % 4]) at++;
    if (at != 4 * count) return 0;
    while (at < sizeof samples && samples[at] == 0xA5) at++;
    return at == sizeof samples;
}

/* C4, C5: the longest run, and a rise in the run behind it, on its last clock, and on the clock after it. */
static void test_run(void) {
    const float level = namco163_sample(level_bytes);
    uint64_t answer;
    CHECK(level > 0.3719f && level < 0.3721f);
    EQUAL(load(19, 1, 32768, 128), 0);
    EQUAL(write_at(0xF800, 0x7F), 0);
    EQUAL(write_at(0x4800, 0x0F), 0);
    EQUAL(write_at(0x5800, 0x80), 0);
    memset(samples, 0xA5, sizeof samples);
    answer = run(NAMCO163_CLOCK_LIMIT);
    EQUAL(answer, 0x7C100);
    CHECK(namco163_samples(answer) == 1985 && namco163_rise(answer) == 0 && namco163_irq_line(image) == 0);
    CHECK(image[0] == 0xF4 && image[1] == 0x55);
    CHECK(made(1985));
    memset(samples, 0xA5, sizeof samples);
    answer = run(2986);
    EQUAL(answer, 0xBAA0000C700);
    CHECK(namco163_samples(answer) == 199 && namco163_rise(answer) == 2986 && namco163_irq_line(image) == 1);
    CHECK(made(199));
    set_counter(0x8BAA);
    EQUAL(namco163_irq_line(image), 0);
    EQUAL(namco163_rise(run(NAMCO163_CLOCK_LIMIT)), 29781);
    EQUAL(namco163_irq_line(image), 1);
    set_counter(0x8BA9);
    EQUAL(namco163_rise(run(NAMCO163_CLOCK_LIMIT)), 0);
    CHECK(image[0] == 0xFF && image[1] == 0xFE && namco163_irq_line(image) == 0);
    EQUAL(namco163_rise(run(1)), 1);
    EQUAL(namco163_irq_line(image), 1);
    EQUAL(write_at(0x5000, 0xFF), 0);
    EQUAL(namco163_irq_line(image), 0);
    keep();
    EQUAL(run(0), 0);
    CHECK(kept());
}

/* C7: a soft reset keeps the IRQ line, a hard one takes it down; both clear the sound RAM. */
static void test_reset(void) {
    EQUAL(write_at(0x5000, 0xFE), 0);
    EQUAL(write_at(0x5800, 0xFF), 0);
    EQUAL(namco163_rise(run(2)), 1);
    EQUAL(reset(NAMCO163_SOFT), 0);
    EQUAL(namco163_irq_line(image), 1);
    EQUAL(read_at(0x5800), 0xFF00);
    EQUAL(image[23 + 0x7F], 0);
    EQUAL(write_at(0x4800, 0x5A), 0);
    EQUAL(reset(NAMCO163_HARD), 0);
    EQUAL(namco163_irq_line(image), 0);
    EQUAL(read_at(0x5800), 0);
    EQUAL(image[23], 0);
}

/* Sets so many bits of the image from one on (H1), as a lent image may have them. */
static void lend_bits(unsigned at, unsigned width, uint32_t value) {
    unsigned b;
    for (b = 0; b < width; b++) {
        uint8_t mask = (uint8_t)(0x80 >> ((at + b) % 8));
        if (value >> (width - 1 - b) & 1) image[(at + b) / 8] |= mask;
        else image[(at + b) / 8] &= (uint8_t)~mask;
    }
}

/* Sets entry k of both tables, PRG before CHR. */
static void lend_entry(unsigned k, unsigned page, unsigned writable) { lend_bits(1544 + 11 * k, 11, page * 2 + writable); }

/* Sets PRG entries from `first` on to consecutive pages with the writable flag. */
static void lend_prg(unsigned first, unsigned page, unsigned count) {
    unsigned k;
    for (k = 0; k < count; k++) lend_entry(first + k, page + k, 1);
}

/* Images that no list of calls from a load makes (R10): stores by the table as it was, at E000, 8000 and 4800 (L7); a rise while the line
 * is up (C1). */
static void test_lent_states(void) {
    EQUAL(load(19, 1, 32768, 128), 0);
    lend_prg(56, 41, 8); /* PRG-RAM at E000 */
    EQUAL(namco163_prg_entry(image, 0xE000).offset, 41 * 1024);
    keep();
    EQUAL(write_at(0xE000, 0x02), 0xFF0000FF00000000);
    EQUAL(arena[41 * 1024], 0x02);
    arena[41 * 1024] = 0;
    CHECK(!memcmp(arena, arena_before, sizeof arena));
    CHECK(namco163_prg_entry(image, 0xE000).offset == 25 * 1024 && namco163_prg_entry(image, 0xFC00).offset == 32 * 1024);
    EQUAL(load(19, 1, 32768, 128), 0);
    lend_prg(32, 1, 8); /* PRG-ROM at 8000, writable */
    EQUAL(write_at(0x8000, 0x02), 0xFF00000100);
    EQUAL(arena[1024], 0x02);
    EQUAL(namco163_chr_entry(image, 0x0000).offset, 35 * 1024);
    EQUAL(load(19, 1, 32768, 128), 0);
    lend_prg(18, 41, 1); /* PRG-RAM at 4800 */
    EQUAL(write_at(0x4800, 0x5A), 0);
    CHECK(arena[41 * 1024] == 0x5A && image[23] == 0x5A);
    EQUAL(namco163_prg_entry(image, 0x4800).offset, 41 * 1024);
    EQUAL(load(19, 1, 32768, 128), 0);
    image[0] = 0xFF;
    image[1] = 0xF0;
    image[2] |= 0x80; /* counter FFF0, the line up */
    EQUAL(namco163_rise(run(100)), 15);
    CHECK(image[0] == 0xFF && image[1] == 0xFF && image[2] & 0x80);
}

/* Whether each entry of 6000..7FFF shows the zero page, with the flag or without. */
static int zero_page_at_6000(int writable) {
    unsigned addr;
    for (addr = 0x6000; addr < 0x8000; addr += 0x400) {
        struct namco163_page page = namco163_prg_entry(image, (uint16_t)addr);
        if (page.offset != 0 || page.writable != writable) return 0;
    }
    return 1;
}

/* Whether what is written to 6000..7FFF is dropped: it reads 00, and the arena of zeros stays. */
static int drops(unsigned val) {
    size_t zeros = 0;
    if (write_at(0x6000, val) || write_at(0x7FFF, val) || read_at(0x6000) || read_at(0x6400) || read_at(0x7FFF)) return 0;
    while (zeros < lent && arena[zeros] == 0) zeros++;
    return zeros == lent && zero_page_at_6000(0);
}

/* H1: the written flag. */
static int written(void) { return image[7] >> 6 & 1; }

/* M5: without PRG-RAM nothing is writable at 6000, and no write changes those entries: a 163, a 175 with protect FE, 01 and FF, a 163 that
 * becomes a settled 340, an Unknown that becomes a 175 and a 163. */
static void test_no_prg_ram(void) {
    static const uint8_t protects[3] = {0xFE, 0x01, 0xFF};
    uint64_t answer;
    size_t k;
    EQUAL(load_bare(19, 0, 1), 0);
    CHECK(zero_page_at_6000(0) && !written());
    CHECK(drops(0xAA) && written());
    EQUAL(write_at(0xE000, 0x01), 0xFF00000000);
    CHECK(drops(0xAA));
    EQUAL(load_bare(210, 1, 0), 0);
    CHECK(drops(0x55));
    for (k = 0; k < sizeof protects; k++) {
        EQUAL(write_at(0xC000, protects[k]), 0);
        CHECK(drops(0x55));
    }
    EQUAL(load_bare(19, 0, 0), 0);
    EQUAL(write_at(0x6000, 0x5A), 0);
    answer = write_at(0xE000, 0x80);
    CHECK(namco163_prg_mask(answer) == 0 && namco163_chr_mask(answer) == 0xFF00);
    CHECK(namco163_board(image) == NAMCO163_340 && namco163_settled(image) && drops(0x5A));
    EQUAL(write_at(0x4800, 0), 0);
    EQUAL(namco163_board(image), NAMCO163_340);
    EQUAL(load_bare(210, 0, 0), 0);
    EQUAL(write_at(0xC000, 0x01), 0);
    CHECK(namco163_board(image) == NAMCO163_175 && drops(0x5A));
    answer = write_at(0xC800, 0xE1);
    CHECK(namco163_prg_mask(answer) == 0 && namco163_chr_mask(answer) == 0xFF00);
    CHECK(namco163_board(image) == NAMCO163_163 && drops(0x5A));
}

/* L1: board and settled after each kind of load. */
static void test_loaded_boards(void) {
    static const struct {
        uint64_t mapper, known;
        uint8_t submapper;
        unsigned board;
        int settled;
    } loads[] = {
        {19, 1, 0, NAMCO163_163, 1},
        {19, 0, 0, NAMCO163_163, 0},
        {19, 0, 2, NAMCO163_163, 0},
        {210, 0, 1, NAMCO163_175, 1},
        {210, 0, 2, NAMCO163_340, 1},
        {210, 0, 0, NAMCO163_UNKNOWN, 0},
        {210, 1, 0, NAMCO163_UNKNOWN, 0},
        {210, 1, 3, NAMCO163_UNKNOWN, 0},
    };
    size_t k;
    for (k = 0; k < sizeof loads / sizeof loads[0]; k++) {
        EQUAL(load_bare(loads[k].mapper, loads[k].submapper, loads[k].known), 0);
        EQUAL(namco163_board(image), loads[k].board);
        EQUAL(namco163_settled(image), loads[k].settled);
    }
}

/* Whether some write to one of L11's ranges changes the type of the board in image_before, which is lent anew for each. */
static int some_write_changes(void) {
    static const uint16_t addrs[] = {0x4800, 0x5000, 0x5800, 0x6000, 0x8000, 0xC000, 0xC800, 0xE000, 0xE800, 0xF000, 0xF800};
    unsigned was = namco163_board(image_before), val;
    size_t k;
    for (k = 0; k < sizeof addrs / sizeof addrs[0]; k++) {
        for (val = 0; val < 256; val++) {
            memcpy(image, image_before, sizeof image);
            if (namco163_refusal(write_at(addrs[k], val)) || namco163_board(image) != was) return 1;
        }
    }
    return 0;
}

/* L16, L17: settled says exactly that no write changes the type, and a reset keeps it: bits 2..3 of the kind are the type, bit 1 is
 * whether it is detected, bit 0 the written flag. */
static void check_settled(unsigned kind) {
    unsigned type = kind >> 2, detecting = kind >> 1 & 1, flag = kind & 1, reset_kind;
    EQUAL(load_bare(19, 0, 1), 0);
    image[3] = (uint8_t)((image[3] & ~0x18u) | type << 3);
    image[6] = (uint8_t)((image[6] & ~0x04u) | detecting << 2);
    image[7] = (uint8_t)((image[7] & ~0x40u) | flag << 6);
    memcpy(image_before, image, sizeof image);
    EQUAL(namco163_board(image), type);
    EQUAL(namco163_settled(image_before), !some_write_changes());
    for (reset_kind = 0; reset_kind < 2; reset_kind++) {
        memcpy(image, image_before, sizeof image);
        EQUAL(reset(reset_kind), 0);
        EQUAL(namco163_board(image), type);
        EQUAL(namco163_settled(image), !detecting);
    }
}

static void test_settled(void) {
    unsigned kind;
    for (kind = 0; kind < 16; kind++) check_settled(kind);
}

/* L16: only the 340 settles, and only when it was written: D by E000=80 and 6000=01, in both orders; a reset lets it go. */
static void test_settling(void) {
    EQUAL(load_bare(19, 0, 0), 0);
    CHECK(namco163_refusal(write_at(0xE000, 0x80)) == 0 && namco163_board(image) == NAMCO163_340 && !namco163_settled(image));
    CHECK(namco163_refusal(write_at(0x6000, 0x01)) == 0 && namco163_settled(image));
    CHECK(namco163_refusal(write_at(0x4800, 0x00)) == 0 && namco163_board(image) == NAMCO163_340);
    EQUAL(reset(NAMCO163_SOFT), 0);
    CHECK(namco163_board(image) == NAMCO163_340 && !namco163_settled(image));
    CHECK(namco163_refusal(write_at(0xC000, 0x01)) == 0 && namco163_board(image) == NAMCO163_175);
    EQUAL(load_bare(19, 0, 0), 0);
    CHECK(namco163_refusal(write_at(0x6000, 0x01)) == 0 && !namco163_settled(image));
    CHECK(namco163_refusal(write_at(0xE000, 0x80)) == 0 && namco163_board(image) == NAMCO163_340 && namco163_settled(image));
}

/* M5, R10: an image of an earlier version, with the zero page writable at 6000, stores there until a write remaps; the byte stays. */
static void test_lent_zero_page(void) {
    unsigned k;
    EQUAL(load_bare(19, 0, 1), 0);
    for (k = 24; k < 32; k++) lend_prg(k, 0, 1);
    CHECK(zero_page_at_6000(1));
    EQUAL(write_at(0x6000, 0xAA), 0);
    CHECK(arena[0] == 0xAA && zero_page_at_6000(1));
    EQUAL(read_at(0x6000), 0xAA00);
    EQUAL(read_at(0x6400), 0xAA00);
    EQUAL(write_at(0x4800, 0x11), 0);
    EQUAL(write_at(0xF800, 0x22), 0);
    EQUAL(reset(NAMCO163_SOFT), 0);
    CHECK(zero_page_at_6000(1));
    EQUAL(load_bare(19, 0, 1), 0);
    for (k = 24; k < 32; k++) lend_prg(k, 0, 1);
    EQUAL(write_at(0x6000, 0xAA), 0);
    EQUAL(write_at(0xE000, 0x00), 0xFF000000);
    CHECK(arena[0] == 0xAA && zero_page_at_6000(0));
    EQUAL(read_at(0x6000), 0xAA00);
    EQUAL(write_at(0x6000, 0x55), 0);
    EQUAL(arena[0], 0xAA);
    EQUAL(read_at(0x6400), 0xAA00);
    EQUAL(write_at(0xE000, 0x00), 0);
}

/* L18: whether two previews answer this word and leave all that is lent, and the write then answers it too. */
static int previewed(unsigned addr, unsigned val, uint64_t word) {
    keep();
    if (preview(addr, val) != word || !kept() || preview(addr, val) != word || !kept()) return 0;
    return write_at(addr, val) == word && (namco163_refusal(word) || !kept());
}

/* L18, H6: a preview has the write's word; what it previews is not stored and makes no other board. */
static void test_preview(void) {
    EQUAL(load(19, 1, 32768, 128), 0);
    CHECK(previewed(0x8000, 0xE1, 0x100));
    CHECK(previewed(0xE000, 0x3F, 0xFF00000000));
    EQUAL(preview(0xE000, 0x3F), 0);
    EQUAL(preview(0x6000, 0x12), 0);
    EQUAL(read_at(0x6000), 0);
    CHECK(previewed(0x6000, 0x12, 0));
    EQUAL(read_at(0x6000), 0x1200);
    CHECK(previewed(0x47FF, 0x00, NAMCO163_ADDRESS));
    EQUAL(load(19, 0, 32768, 128), 0);
    EQUAL(preview(0xE000, 0x80), 0xFFFF0000);
    EQUAL(namco163_board(image), NAMCO163_163);
    CHECK(previewed(0xE000, 0x80, 0xFFFF0000));
    EQUAL(namco163_board(image), NAMCO163_340);
    EQUAL(preview(0x6000, 0x01), 0);
    CHECK(!namco163_settled(image) && namco163_prg_mask(preview(0xC000, 0x01)) == 0xFF000000);
    EQUAL(namco163_load(image, 307, arena, ARENA, 210, 1, 0, 0, 32768, 8192, 128, 8192, 0, 2048), 0);
    CHECK(previewed(0xC000, 0x01, 0xFF000000));
    EQUAL(preview(0xC000, 0xFF), 0);
    EQUAL(preview(0xDFFF, 0xFE), 0xFF000000);
    EQUAL(load_bare(210, 1, 0), 0);
    CHECK(previewed(0xC000, 0x01, 0) && zero_page_at_6000(0));
}

/* N20, L18: refusals of a preview in their order, 1 2 7 8; each is the write's, and all that is lent stays. */
static void test_refused_previews(void) {
    const uint8_t *lent_image = image, *lent_arena = arena;
    EQUAL(load(19, 1, 32768, 128), 0);
    image[152] |= 0x78; /* an update counter of 15 */
    keep();
    EQUAL(namco163_preview(lent_image, 306, lent_arena, 0, 0, 0), NAMCO163_IMAGE_LENGTH);
    EQUAL(namco163_preview(lent_image, 309, lent_arena, ARENA, 0x8000, 0xE1), NAMCO163_IMAGE_LENGTH);
    EQUAL(namco163_preview(lent_image, 307, lent_arena, 0, 0, 0), NAMCO163_OUT_OF_RANGE);
    EQUAL(preview_of(lent_image, lent_arena, 0x8000, 0xE1), NAMCO163_OUT_OF_RANGE);
    CHECK(kept());
    EQUAL(load(19, 1, 32768, 128), 0);
    keep();
    EQUAL(namco163_preview(lent_image, 307, lent_arena, ARENA - 1, 0, 0), NAMCO163_ARENA_LENGTH);
    EQUAL(namco163_preview(lent_image, 307, lent_arena, ARENA + 1, 0x8000, 0xE1), NAMCO163_ARENA_LENGTH);
    EQUAL(preview_of(lent_image, lent_arena, 0x0000, 0x00), NAMCO163_ADDRESS);
    EQUAL(preview_of(lent_image, lent_arena, 0x47FF, 0xFF), NAMCO163_ADDRESS);
    EQUAL(preview_of(lent_image, lent_arena, 0x4800, 0xFF), 0);
    CHECK(kept());
}

/* ---- The directory of blocks */

static uint64_t load_blocks(uint64_t mapper, uint8_t submapper, uint64_t known, uint64_t prg_rom, uint64_t prg_ram) {
    lent = namco163_arena_length(prg_rom, prg_ram, 128, 8192, 2048);
    image_lent = NAMCO163_IMAGE_SIZE;
    return namco163_load_blocks(image, NAMCO163_IMAGE_SIZE, arena, lent, directory, NAMCO163_PLACES, mapper, submapper, 0, known, prg_rom,
                                prg_ram, 128, 8192, 0, 2048, 0, 0, 0);
}
static uint64_t load_p_blocks(void) { return load_blocks(19, 0, 1, 32768, 8192); }
static uint64_t add(unsigned start, uint64_t length, uint32_t number) {
    return namco163_register(directory, NAMCO163_PLACES, (uint16_t)start, length, number);
}
static uint64_t lookup(unsigned start) { return namco163_lookup(directory, NAMCO163_PLACES, (uint16_t)start); }
static uint64_t find(unsigned start) { return namco163_find(directory, NAMCO163_PLACES, (uint16_t)start); }
static uint64_t write_blocks(unsigned addr, unsigned val) {
    return namco163_write_blocks(image, image_lent, arena, lent, directory, NAMCO163_PLACES, (uint16_t)addr, (uint8_t)val);
}
static uint64_t stored(uint64_t offset) { return namco163_stored(image, image_lent, directory, NAMCO163_PLACES, offset); }

/* Registers a block of 16 bytes at each start, with its place in the list as its number. */
static void add_each(const uint16_t *starts, size_t count) {
    size_t k;
    for (k = 0; k < count; k++) EQUAL(add(starts[k], 16, (uint32_t)k), 0);
}

/* Which of the starts are held: bit k is set for starts[k]. A find answers what a lookup does. */
static uint64_t held(const uint16_t *starts, size_t count) {
    uint64_t mask = 0;
    size_t k;
    for (k = 0; k < count; k++) {
        uint64_t answer = lookup(starts[k]);
        EQUAL(find(starts[k]), answer);
        EQUAL(namco163_refusal(answer), 0);
        if (namco163_block_length(answer)) mask |= (uint64_t)1 << k;
    }
    return mask;
}

/* How many places are held. */
static size_t places_held(void) {
    size_t k, count = 0;
    for (k = 0; k < NAMCO163_PLACES; k++) count += directory[k] != 0;
    return count;
}

/* K1, K3, K4, N8, N13: the edges of a registering, and the words of a lookup. */
static void test_register(void) {
    static const struct {
        unsigned start;
        uint64_t length;
        unsigned refusal;
    } edges[] = {
        {0x0000, 1, NAMCO163_ADDRESS}, {0x47FF, 1, NAMCO163_ADDRESS}, {0x47FF, 0, NAMCO163_ADDRESS}, {0x4800, 1, NAMCO163_BLOCK},
        {0x5FFF, 1, NAMCO163_BLOCK}, {0x5FFF, 2, NAMCO163_BLOCK}, {0x6000, 0, NAMCO163_BLOCK}, {0x6000, 1, 0}, {0x6000, 4096, 0},
        {0x6000, 4097, NAMCO163_BLOCK}, {0x6000, 65537, NAMCO163_BLOCK}, {0x6000, ((uint64_t)1 << 32) + 1, NAMCO163_BLOCK},
        {0x6000, (uint64_t)-1, NAMCO163_BLOCK}, {0xF000, 4096, 0}, {0xF001, 4096, NAMCO163_BLOCK}, {0xFFFF, 1, 0},
        {0xFFFF, 2, NAMCO163_BLOCK},
    };
    size_t k;
    EQUAL(NAMCO163_PLACES, 256);
    for (k = 0; k < sizeof edges / sizeof edges[0]; k++) {
        memset(directory, 0, sizeof directory);
        EQUAL(add(edges[k].start, edges[k].length, 7), edges[k].refusal);
        EQUAL(places_held(), edges[k].refusal == 0);
    }
    memset(directory, 0, sizeof directory);
    EQUAL(add(0x8000, 16, 0xDEADBEEF), 0);
    EQUAL(lookup(0x8000), 0xDEADBEEF00001000);
    CHECK(namco163_block_length(lookup(0x8000)) == 16 && namco163_block_number(find(0x8000)) == 0xDEADBEEF);
    EQUAL(directory[0], 0x80000010DEADBEEF);
    EQUAL(add(0xFFFF, 1, 0), 0);
    EQUAL(lookup(0xFFFF), 0x100);
    EQUAL(directory[1], 0xFFFF000100000000);
    keep();
    EQUAL(lookup(0x8001), 0);
    EQUAL(lookup(0x47FF), NAMCO163_ADDRESS);
    EQUAL(find(0x47FF), 0);
    EQUAL(lookup(0x5FFF), 0);
    CHECK(kept());
    EQUAL(add(0x8000, 4096, 1), 0);
    EQUAL(lookup(0x8000), 0x100100000);
    CHECK(directory[0] == 0x8000100000000001 && places_held() == 2);
    EQUAL(add(0x6000, 1, 2), 0);
    CHECK(directory[0] == 0x6000000100000002 && directory[1] == 0x8000100000000001 && directory[2] == 0xFFFF000100000000);
}

/* K3, K5: whether starts ascend from the first place on, and the free places are behind them. */
static int in_order(void) {
    size_t k;
    for (k = 1; k < NAMCO163_PLACES; k++)
        if (directory[k] != 0 && (directory[k - 1] == 0 || directory[k - 1] >> 48 >= directory[k] >> 48)) return 0;
    return 1;
}

/* N13, N14: 256 blocks held; a held start replaces, a new one is refused, and a dropped place is used again. */
static void test_full_directory(void) {
    unsigned k;
    EQUAL(load_p_blocks(), 0);
    for (k = NAMCO163_PLACES; k-- > 0;) EQUAL(add(0x6000 + 0x40 * k, 1, k), 0);
    CHECK(in_order());
    keep();
    EQUAL(add(0xFFFF, 1, 0), NAMCO163_DIRECTORY_FULL);
    EQUAL(add(0xFFFF, 0, 0), NAMCO163_BLOCK);
    EQUAL(add(0x5000, 1, 0), NAMCO163_BLOCK);
    EQUAL(add(0x47FF, 1, 0), NAMCO163_ADDRESS);
    CHECK(kept());
    EQUAL(add(0x9FC0, 2, 9), 0);
    EQUAL(lookup(0x9FC0), 0x900000200);
    EQUAL(write_blocks(0xE000, 0x05), 0xFF00000000);
    EQUAL(places_held(), 128);
    CHECK(in_order());
    for (k = 0; k < 128; k++) EQUAL(add(0xF000 + k, 1, k), 0);
    CHECK(in_order());
    EQUAL(add(0xFFFF, 1, 0), NAMCO163_DIRECTORY_FULL);
    CHECK(directory[0] != 0 && directory[NAMCO163_PLACES] == 0);
}

/* K5: on a fresh P, by an entry or by a store, in a block's first page or in its second. */
static void test_dropped(void) {
    static const uint16_t starts[8] = {0x6000, 0x63F8, 0x6400, 0x8000, 0x9FFF, 0xA000, 0xF000, 0xFFFF};
    static const uint64_t lengths[8] = {16, 16, 1024, 4096, 2, 1, 4096, 1};
    size_t k;
    EQUAL(load_p_blocks(), 0);
    for (k = 0; k < 8; k++) EQUAL(add(starts[k], lengths[k], (uint32_t)k), 0);
    EQUAL(held(starts, 8), 0xFF);
    EQUAL(write_blocks(0x67FF, 0x00), 0);
    EQUAL(held(starts, 8), 0xF9);
    EQUAL(write_blocks(0x63FF, 0x00), 0);
    EQUAL(held(starts, 8), 0xF8);
    EQUAL(write_blocks(0xE000, 0x04), 0);
    EQUAL(held(starts, 8), 0xF8);
    EQUAL(write_blocks(0x8000, 0xE1), 0x100);
    EQUAL(held(starts, 8), 0xF8);
    EQUAL(write_blocks(0xE000, 0x05), 0xFF00000000);
    EQUAL(held(starts, 8), 0xE0);
    EQUAL(write_blocks(0xE800, 0x01), 0xFF0000000000);
    EQUAL(held(starts, 8), 0xC0);
    keep();
    EQUAL(read_at(0x6000), 0);
    EQUAL(preview(0xE000, 0x02), 0xFF00000000);
    CHECK(kept());
}

/* K5: 6400=55 with PRG-RAM of 8, 3, 1 and 0 pages, a block at each page of 6000..7FFF; without any also by a lent image that stores
 * there. */
static void test_short_prg_ram(void) {
    static const uint16_t starts[9] = {0x6000, 0x6400, 0x6800, 0x6C00, 0x7000, 0x7400, 0x7800, 0x7C00, 0x8000};
    static const struct {
        uint64_t prg_ram, held;
    } sizes[4] = {{8192, 0x1FD}, {3072, 0x16D}, {1024, 0x100}, {0, 0x1FF}};
    unsigned k;
    for (k = 0; k < 4; k++) {
        EQUAL(load_blocks(19, 0, 1, 32768, sizes[k].prg_ram), 0);
        add_each(starts, 9);
        EQUAL(write_blocks(0x6400, 0x55), 0);
        EQUAL(held(starts, 9), sizes[k].held);
    }
    for (k = 24; k < 32; k++) lend_entry(k, 0, 1);
    EQUAL(write_blocks(0x6400, 0x55), 0);
    EQUAL(held(starts, 9), 0x100);
}

/* K5: what a 175 and a 340 store, a reset, and a board that is detected. */
static void test_dropped_boards(void) {
    static const uint16_t starts[2] = {0x6000, 0x8000};
    EQUAL(load_blocks(210, 1, 0, 32768, 8192), 0);
    add_each(starts, 2);
    EQUAL(write_blocks(0x6000, 0x55), 0);
    EQUAL(held(starts, 2), 3);
    EQUAL(write_blocks(0xC000, 0x01), 0xFF000000);
    EQUAL(held(starts, 2), 2);
    add_each(starts, 2);
    EQUAL(reset(NAMCO163_HARD), 0);
    EQUAL(held(starts, 2), 3);
    EQUAL(namco163_prg_mask(write_blocks(0x8000, 0x00)), 0xFF000000);
    EQUAL(held(starts, 2), 2);
    EQUAL(load_blocks(210, 2, 0, 32768, 8192), 0);
    add_each(starts, 2);
    EQUAL(write_blocks(0x6000, 0x55), 0);
    EQUAL(held(starts, 2), 3);
    EQUAL(load_blocks(19, 0, 0, 32768, 8192), 0);
    add_each(starts, 2);
    EQUAL(write_blocks(0xE000, 0x80), 0xFFFF0000);
    EQUAL(held(starts, 2), 2);
}

/* K5, R10: stores that no list of calls from a load makes, by lent images. */
static void test_dropped_lent(void) {
    static const uint16_t starts[7] = {0x6000, 0x6400, 0x8000, 0xA000, 0xA400, 0xC000, 0xE000};
    EQUAL(load_p_blocks(), 0);
    lend_entry(56, 41, 1);
    add_each(starts, 7);
    EQUAL(write_blocks(0xE000, 0x02), 0x10000FF00000000);
    EQUAL(arena[41 * 1024], 0x02);
    EQUAL(held(starts, 7), 0x3A);
    EQUAL(load_p_blocks(), 0);
    lend_entry(18, 41, 1);
    add_each(starts, 7);
    EQUAL(write_blocks(0x4800, 0x5A), 0);
    CHECK(arena[41 * 1024] == 0x5A && image[23] == 0x5A);
    EQUAL(held(starts, 7), 0x7E);
    EQUAL(load_p_blocks(), 0);
    lend_prg(32, 1, 8);
    add_each(starts, 7);
    EQUAL(namco163_prg_mask(write_blocks(0x8000, 0x02)), 0xFF00000000);
    EQUAL(arena[1024], 0x02);
    EQUAL(held(starts, 7), 0x53);
}

/* K5: stores of the host's own: ROM that shows at several addresses, CIRAM by a CHR entry, and the reserve, by lent entries; behind the
 * arena nothing. */
static void test_stored(void) {
    static const uint16_t starts[7] = {0x6000, 0x8000, 0x8400, 0xA000, 0xC000, 0xE000, 0xFFF0};
    EQUAL(load_p_blocks(), 0);
    add_each(starts, 7);
    EQUAL(stored(ARENA), 0);
    EQUAL(stored(((uint64_t)1 << 32) + 1024), 0);
    EQUAL(stored((uint64_t)-1), 0);
    EQUAL(stored(ARENA - 1), 0);
    EQUAL(stored(0), 0);
    EQUAL(held(starts, 7), 0x7F);
    EQUAL(stored(1024), 0);
    EQUAL(held(starts, 7), 0x65);
    EQUAL(load_blocks(19, 0, 1, 1024, 8192), 0);
    add_each(starts, 7);
    EQUAL(stored(1027), 0);
    EQUAL(held(starts, 7), 0x01);
    EQUAL(load_p_blocks(), 0);
    lend_entry(32, 50, 0);
    lend_entry(64 + 8, 50, 1);
    lend_entry(40, 49, 0);
    add_each(starts, 7);
    arena[namco163_chr_entry(image, 0x2005).offset + 5] = 0x77;
    EQUAL(stored(namco163_chr_entry(image, 0x2005).offset + 5), 0);
    EQUAL(held(starts, 7), 0x7D);
    EQUAL(read_at(0x8005), 0x7700);
    arena[49 * 1024 + 2] = 0x33;
    EQUAL(stored(49 * 1024 + 2), 0);
    EQUAL(held(starts, 7), 0x75);
    EQUAL(read_at(0xA002), 0x3300);
}

/* K7: a load reads no place; it zeroes 256 and alters image and arena as without a directory. */
static void test_load_blocks(void) {
    EQUAL(load(19, 1, 32768, 128), 0);
    memset(directory, 0xA5, sizeof directory);
    keep();
    memset(image, 0xA5, NAMCO163_IMAGE_SIZE);
    memset(arena, 0xA5, ARENA);
    EQUAL(load_p_blocks(), 0);
    CHECK(!memcmp(image, image_before, sizeof image) && !memcmp(arena, arena_before, sizeof arena));
    CHECK(places_held() == 0 && directory[NAMCO163_PLACES] == directory_before[0]);
}

/* N2, K2: every call that reads a directory of so many places refuses it, before its other numbers, and alters nothing. */
static void check_unfit(size_t places) {
    keep();
    EQUAL(namco163_register(directory, places, 0x47FF, 0, 0), NAMCO163_OUT_OF_RANGE);
    EQUAL(namco163_register(directory, places, 0x6000, 1, 0), NAMCO163_OUT_OF_RANGE);
    EQUAL(namco163_lookup(directory, places, 0x47FF), NAMCO163_OUT_OF_RANGE);
    EQUAL(namco163_lookup(directory, places, 0x6000), NAMCO163_OUT_OF_RANGE);
    EQUAL(namco163_write_blocks(image, 307, arena, 0, directory, places, 0, 0), NAMCO163_OUT_OF_RANGE);
    EQUAL(namco163_write_blocks(image, 307, arena, lent, directory, places, 0xE000, 0x01), NAMCO163_OUT_OF_RANGE);
    EQUAL(namco163_write_blocks(image, 306, arena, lent, directory, places, 0xE000, 0x01), NAMCO163_IMAGE_LENGTH);
    EQUAL(namco163_stored(image, 307, directory, places, 1024), NAMCO163_OUT_OF_RANGE);
    EQUAL(namco163_stored(image, 306, directory, places, 1024), NAMCO163_IMAGE_LENGTH);
    CHECK(kept());
}

/* A start twice with places apart, a number without a start, a block below 6000, beyond FFFF, of length 0 and 4,097; 255 and 257 places. */
static void test_unfit_directories(void) {
    static const uint64_t unfit[] = {7, 0x5FFF000100000000, 0xFFFF000200000000, 0x6000000000000007, 0x6000100100000000};
    size_t k;
    EQUAL(load_p_blocks(), 0);
    for (k = 0; k < sizeof unfit / sizeof unfit[0]; k++) {
        memset(directory, 0, sizeof directory);
        directory[200] = unfit[k];
        check_unfit(NAMCO163_PLACES);
    }
    memset(directory, 0, sizeof directory);
    directory[3] = 0x8000001000000007;
    directory[200] = 0x8000002000000008;
    check_unfit(NAMCO163_PLACES);
    EQUAL(find(0x8000), 0x700001000);
    directory[200] = 0;
    EQUAL(lookup(0x8000), 0x700001000);
    check_unfit(NAMCO163_PLACES - 1);
    check_unfit(NAMCO163_PLACES + 1);
    check_unfit(0);
    EQUAL(namco163_find(directory, 3, 0x8000), 0);
    EQUAL(namco163_find(directory, 4, 0x8000), 0x700001000);
}

/* N20: refusals with a fit directory in their order: of a load 1 2 4 5 6 7, of a write 1 2 7 8, of stored 1 2. */
static void test_refused_blocks(void) {
    EQUAL(load_p_blocks(), 0);
    EQUAL(add(0x8000, 16, 7), 0);
    keep();
    EQUAL(namco163_load_blocks(image, 306, arena, 0, directory, 255, 20, 0, 0, 1, 524289, 0, 0, 0, 0, 0, 0, 0, 0), NAMCO163_IMAGE_LENGTH);
    EQUAL(namco163_load_blocks(image, 307, arena, 0, directory, 255, 20, 0, 0, 1, 524289, 0, 0, 0, 0, 0, 0, 0, 0), NAMCO163_OUT_OF_RANGE);
    EQUAL(namco163_load_blocks(image, 307, arena, lent, directory, 257, 19, 0, 0, 1, 32768, 8192, 128, 8192, 0, 0, 0, 0, 0),
          NAMCO163_OUT_OF_RANGE);
    EQUAL(namco163_load_blocks(image, 307, arena, 0, directory, 256, 20, 0, 0, 1, 524289, 0, 0, 0, 0, 0, 0, 0, 0), NAMCO163_MAPPER);
    EQUAL(namco163_load_blocks(image, 307, arena, 0, directory, 256, 19, 0, 0, 1, 524289, 0, 0, 0, 0, 0, 0, 0, 0), NAMCO163_SIZE);
    EQUAL(namco163_load_blocks(image, 307, arena, 0, directory, 256, 19, 0, 0, 1, 32768, 0, 0, 0, 0, 0, 0, 0, 0), NAMCO163_NO_BATTERY);
    EQUAL(namco163_load_blocks(image, 307, arena, 0, directory, 256, 19, 0, 0, 1, 32768, 8192, 128, 8192, 0, 2048, 0, 0, 0),
          NAMCO163_ARENA_LENGTH);
    EQUAL(namco163_write_blocks(image, 309, arena, 0, directory, 256, 0, 0), NAMCO163_IMAGE_LENGTH);
    EQUAL(namco163_write_blocks(image, 307, arena, ARENA - 1, directory, 256, 0, 0), NAMCO163_ARENA_LENGTH);
    EQUAL(namco163_write_blocks(image, 307, arena, ARENA + 1, directory, 256, 0xE000, 1), NAMCO163_ARENA_LENGTH);
    EQUAL(write_blocks(0x47FF, 0), NAMCO163_ADDRESS);
    EQUAL(namco163_stored(image, 309, directory, 256, 1024), NAMCO163_IMAGE_LENGTH);
    CHECK(kept());
    image[152] |= 0x78; /* an update counter of 15 */
    keep();
    EQUAL(namco163_write_blocks(image, 307, arena, 0, directory, 256, 0, 0), NAMCO163_OUT_OF_RANGE);
    EQUAL(stored(1024), NAMCO163_OUT_OF_RANGE);
    CHECK(kept());
}

/* ---- Options, and the two lengths of an image */

/* A load of layout P with so much PRG-RAM, by an image of so many bytes and the call with options, of which it chooses the edition. */
static uint64_t load_edition(size_t image_len, uint64_t mapper, uint8_t submapper, uint64_t known, uint64_t prg_ram, uint64_t yes) {
    lent = namco163_arena_length(32768, prg_ram, 128, 8192, 2048);
    image_lent = image_len;
    return namco163_load_options(image, image_len, arena, lent, mapper, submapper, 0, known, 32768, prg_ram, 128, 8192, 0, 2048, yes, 0, 0);
}
/* P, D and U of the new edition. */
static uint64_t load_new(uint64_t mapper, uint64_t known) { return load_edition(308, mapper, 0, known, 8192, 1); }

/* Which of PRG entries 24..31 take stores: bit k is set for entry 24 + k. */
static unsigned open_entries(void) {
    unsigned mask = 0, k;
    for (k = 0; k < 8; k++) mask |= (unsigned)namco163_entry(image, 24 + k).writable << k;
    return mask;
}

/* Whether PRG entries 24..31 show so many pages from page 41 on, again and again; of no page, byte 0. */
static int work_ram(unsigned pages) {
    unsigned k;
    for (k = 0; k < 8; k++)
        if (namco163_entry(image, 24 + k).offset != (pages ? (41 + k % pages) * 1024u : 0u)) return 0;
    return 1;
}

/* The protect byte and the sound address, as the image has them (H1). */
static unsigned protect(void) { return (unsigned)((image[2] << 8 | image[3]) >> 5 & 0xFF); }
static unsigned sound_address(void) { return image[151] >> 1; }

/* A write, its word, and which entries of 24..31 are open behind it. */
struct step {
    unsigned addr, val;
    uint64_t word;
    unsigned open;
};
static void make(const struct step *steps, size_t count) {
    size_t k;
    for (k = 0; k < count; k++) {
        EQUAL(preview(steps[k].addr, steps[k].val), steps[k].word);
        EQUAL(write_at(steps[k].addr, steps[k].val), steps[k].word);
        EQUAL(open_entries(), steps[k].open);
    }
}
#define MAKE(steps) make(steps, sizeof(steps) / sizeof(steps)[0])

static void test_options(void) {
    static const uint8_t zeros[NAMCO163_OPTIONS_IMAGE_SIZE] = {0};
    EQUAL(NAMCO163_IMAGE_SIZE, 307);
    EQUAL(NAMCO163_OPTIONS_IMAGE_SIZE, 308);
    EQUAL(namco163_options(zeros, 308), 0);
    CHECK(NAMCO163_F800_PROTECTS == 0x80 && NAMCO163_SIGNED_LEVELS == 0x40 && NAMCO163_PLAIN_SUM == 0x20);
    EQUAL(load_new(19, 1), 0);
    EQUAL(image[307], 0x80);
    EQUAL(namco163_options(image, 308), NAMCO163_F800_PROTECTS);
    EQUAL(namco163_options(image, 307), 0);
    EQUAL(load_edition(308, 19, 0, 1, 8192, 0), 0);
    EQUAL(image[307], 0x00);
    EQUAL(namco163_options(image, 308), 0);
    CHECK(!strcmp(namco163_refusal_text(1),
                  "the image is neither 307 nor 308 bytes long, or 307 where an option or the PRG-RAM wants the 308th"));
    CHECK(!strcmp(namco163_refusal_text(2), "the image holds a field out of range or an unused option bit, or the directory is unfit"));
}

/* Numbers that are a yes, though their low 32 bits are 0. */
#define BIT_32 ((uint64_t)1 << 32)
#define BIT_63 ((uint64_t)1 << 63)

/* N1, N20, H10: loads into images of each length, by the call with options and by that with a directory. What a refused one was lent stays;
 * an accepted one writes no byte behind its image. */
static void test_option_loads(void) {
    static const struct {
        size_t image_len;
        uint64_t mapper, prg_rom, battery, yes[3], answer;
        unsigned options; /* of an accepted load, what byte 307 becomes */
    } loads[] = {
        {307, 19, 32768, 128, {0, 0, 0}, 0, 0xA5}, {308, 19, 32768, 128, {0, 0, 0}, 0, 0x00}, {308, 19, 32768, 128, {1, 0, 0}, 0, 0x80},
        {308, 19, 32768, 128, {0, 1, 0}, 0, 0x40}, {308, 19, 32768, 128, {0, 0, 1}, 0, 0x20}, {308, 210, 32768, 128, {0, 2, 3}, 0, 0x60},
        {308, 19, 32768, 128, {256, 0, 256}, 0, 0xA0}, {308, 210, 32768, 128, {BIT_63, BIT_63, 0}, 0, 0xC0},
        {308, 19, 32768, 128, {BIT_32, BIT_32, BIT_32}, 0, 0xE0}, {307, 19, 32768, 128, {1, 0, 0}, 1, 0},
        {307, 19, 32768, 128, {0, 1, 0}, 1, 0}, {307, 19, 32768, 128, {0, 0, 1}, 1, 0}, {307, 19, 32768, 128, {BIT_32, 0, 0}, 1, 0},
        {307, 19, 32768, 128, {0, BIT_32, 0}, 1, 0}, {307, 19, 32768, 128, {0, 0, BIT_63}, 1, 0}, {307, 20, 524289, 0, {1, 0, 0}, 1, 0},
        {307, 20, 524289, 0, {0, 1, 1}, 1, 0}, {307, 20, 524289, 0, {0, 0, 0}, 4, 0}, {308, 20, 524289, 0, {1, 1, 1}, 4, 0},
        {308, 19, 524289, 0, {0, 1, 0}, 5, 0}, {308, 19, BIT_32 + 32768, 128, {1, 0, 0}, 5, 0}, {308, 19, 32768, 0, {0, 0, 1}, 6, 0},
        {308, 19, 1024, 128, {1, 1, 0}, 7, 0}, {306, 19, 32768, 128, {0, 0, 0}, 1, 0}, {309, 19, 32768, 128, {0, 0, 0}, 1, 0},
        {306, 19, 32768, 128, {1, 0, 0}, 1, 0}, {309, 20, 32768, 128, {0, 1, 1}, 1, 0}, {0, 19, 32768, 128, {0, 0, 0}, 1, 0},
    };
    size_t k;
    for (k = 0; k < 2 * sizeof loads / sizeof loads[0]; k++) {
        size_t at = k / 2, len = loads[at].image_len;
        uint64_t rom = loads[at].prg_rom, mapper = loads[at].mapper, bytes = loads[at].battery;
        const uint64_t *yes = loads[at].yes;
        memset(image, 0xA5, sizeof image);
        memset(directory, 0, sizeof directory);
        keep();
        EQUAL(k % 2 ? namco163_load_blocks(image, len, arena, ARENA, directory, 256, mapper, 0, 0, 1, rom, 8192, bytes, 8192, 0, 0,
                                           yes[0], yes[1], yes[2])
                    : namco163_load_options(image, len, arena, ARENA, mapper, 0, 0, 1, rom, 8192, bytes, 8192, 0, 0,
                                            yes[0], yes[1], yes[2]),
              loads[at].answer);
        if (loads[at].answer) CHECK(kept());
        else CHECK(image[307] == loads[at].options && image[308] == 0xA5);
    }
    EQUAL(namco163_load_blocks(image, 307, arena, ARENA, directory, 255, 19, 0, 0, 1, 32768, 8192, 128, 8192, 0, 2048, 1, 0, 0), 1);
    EQUAL(namco163_load_blocks(image, 307, arena, ARENA, directory, 255, 19, 0, 0, 1, 32768, 8192, 128, 8192, 0, 2048, 0, 0, 1), 1);
    EQUAL(namco163_load_blocks(image, 308, arena, ARENA, directory, 255, 19, 0, 0, 1, 32768, 8192, 128, 8192, 0, 2048, 0, 1, 1), 2);
    EQUAL(namco163_load(image, 308, arena, ARENA, 19, 0, 0, 1, 32768, 8192, 128, 8192, 0, 2048), 0);
    CHECK(image[307] == 0 && image[308] == 0xA5);
}

/* H1, H9: the image of a fresh P in both editions: entries 24..31 and the options; the first 307 bytes are those of the shorter one. */
static void test_fresh_editions(void) {
    static const uint8_t new_entries[11] = {0x0A, 0x41, 0x50, 0x2B, 0x05, 0x80, 0xB4, 0x17, 0x02, 0xF0, 0x60};
    static const uint8_t old_entries[11] = {0x0A, 0x61, 0x54, 0x2B, 0x85, 0x90, 0xB6, 0x17, 0x42, 0xF8, 0x61};
    EQUAL(load_new(19, 1), 0);
    CHECK(!memcmp(image + 226, new_entries, 11) && image[307] == 0x80);
    CHECK(open_entries() == 0 && work_ram(8));
    EQUAL(write_at(0x6000, 0x11), 0);
    EQUAL(read_at(0x6000), 0);
    EQUAL(load_edition(308, 19, 0, 1, 8192, 0), 0);
    CHECK(!memcmp(image + 226, old_entries, 11) && image[307] == 0x00);
    CHECK(open_entries() == 0xFF && work_ram(8));
    keep();
    EQUAL(load(19, 1, 32768, 128), 0);
    CHECK(!memcmp(image, image_before, 307));
}

/* L20, L21: one byte after the other on a fresh P; writes that map keep the flags. */
static void test_f800(void) {
    static const struct step steps[] = {
        {0xF800, 0x40, 0xFF000000, 0xFF}, {0xF800, 0x41, 0x3000000, 0xFC}, {0xFFFF, 0x48, 0xC3000000, 0x3F},
        {0xF800, 0x4F, 0x3F000000, 0x00}, {0xF800, 0x4E, 0x3000000, 0x03}, {0xF800, 0x00, 0x3000000, 0x00},
        {0xF800, 0xC0, 0, 0x00},          {0xF800, 0x50, 0, 0x00},         {0xF800, 0x44, 0xCF000000, 0xCF},
        {0xF800, 0x44, 0, 0xCF},          {0x8000, 0x00, 0, 0xCF},         {0xE000, 0x01, 0xFF00000000, 0xCF},
        {0x4800, 0x00, 0, 0xCF},          {0x6000, 0x61, 0, 0xCF},         {0x7000, 0x62, 0, 0xCF},
    };
    unsigned byte, part;
    EQUAL(load_new(19, 1), 0);
    MAKE(steps);
    CHECK(read_at(0x6000) == 0x6100 && read_at(0x7000) == 0 && work_ram(8));
    EQUAL(load(19, 1, 32768, 128), 0);
    for (byte = 0; byte < 10; byte++) {
        EQUAL(write_at(steps[byte].addr, steps[byte].val), 0);
        CHECK(open_entries() == 0xFF && protect() == steps[byte].val);
    }
    for (byte = 0; byte < 256; byte++) {
        EQUAL(load_new(19, 1), 0);
        CHECK(namco163_refusal(write_at(0xF800, byte)) == 0 && protect() == byte && sound_address() == (byte & 0x7F));
        for (part = 0; part < 4; part++) {
            unsigned addr = 0x6000 + 0x800 * part;
            uint64_t stays = byte >> 4 == 4 && !(byte >> part & 1) ? 0x5A00 : 0;
            CHECK(write_at(addr, 0x5A) == 0 && write_at(addr + 0x7FF, 0x5A) == 0);
            CHECK(read_at(addr) == stays && read_at(addr + 0x7FF) == stays);
        }
    }
}

/* C7, C8, L22: a hard reset stores 0 and maps nothing, a soft one keeps the byte; then F800 also brings CHR entries 8..15. */
static void test_f800_resets(void) {
    static const struct step before[] = {{0xF800, 0x40, 0xFF000000, 0xFF}, {0xC000, 0x05, 0x110000, 0xFF}};
    static const struct step hard[] = {{0x6000, 0xAA, 0, 0xFF}, {0xF800, 0x00, 0xFFFF0000, 0}, {0x8000, 0x00, 0, 0}, {0x6000, 0xBB, 0, 0}};
    static const struct step old_before[] = {{0xF800, 0x40, 0, 0xFF}, {0xC000, 0x05, 0x110000, 0xFF}};
    static const struct step old_hard[] = {
        {0x6000, 0xAA, 0, 0xFF}, {0xF800, 0x00, 0, 0xFF}, {0x8000, 0x00, 0xFF0000, 0xFF}, {0x6000, 0xBB, 0, 0xFF}};
    static const struct step soft[] = {{0x6001, 0xAB, 0, 0xFF}, {0xF800, 0x42, 0xCFF0000, 0xF3}};
    EQUAL(load_new(19, 1), 0);
    MAKE(before);
    EQUAL(reset(NAMCO163_HARD), 0);
    CHECK(open_entries() == 0xFF && protect() == 0 && namco163_options(image, 308) == NAMCO163_F800_PROTECTS);
    MAKE(hard);
    EQUAL(read_at(0x6000), 0xAA00);
    EQUAL(load(19, 1, 32768, 128), 0);
    MAKE(old_before);
    EQUAL(reset(NAMCO163_HARD), 0);
    MAKE(old_hard);
    EQUAL(read_at(0x6000), 0xBB00);
    EQUAL(load_new(19, 1), 0);
    MAKE(before);
    EQUAL(reset(NAMCO163_SOFT), 0);
    CHECK(open_entries() == 0xFF && protect() == 0x40 && sound_address() == 0);
    MAKE(soft);
    EQUAL(read_at(0x6001), 0xAB00);
}

/* L6, L16, L20: a board that detects. A dropped store settles a 340, which takes no F800; a 163's or 175's byte serves the next 163. */
static void test_f800_detection(void) {
    static const struct step settling[] = {{0x6000, 0x55, 0, 0}, {0xE000, 0x80, 0xFFFF0000, 0}, {0xF800, 0x40, 0, 0}};
    static const struct step found[] = {{0xF800, 0x4D, 0xFFCC0000, 0x0C}};
    static const struct step serving[] = {
        {0xF800, 0x40, 0xFF000000, 0xFF}, {0xE000, 0x80, 0xFFFF0000, 0x00}, {0x4800, 0x00, 0xFFFF0000, 0xFF},
        {0xE000, 0x80, 0xFFFF0000, 0x00}, {0xC000, 0x03, 0xFF000000, 0xFF}, {0xC800, 0xE0, 0xFFDD0000, 0x00},
    };
    EQUAL(load_new(19, 0), 0);
    MAKE(settling);
    CHECK(namco163_board(image) == NAMCO163_340 && namco163_settled(image) && protect() == 0 && sound_address() == 0);
    EQUAL(read_at(0x6000), 0);
    EQUAL(reset(NAMCO163_SOFT), 0);
    MAKE(found);
    EQUAL(namco163_board(image), NAMCO163_163);
    EQUAL(load_new(19, 0), 0);
    MAKE(serving);
    CHECK(namco163_board(image) == NAMCO163_163 && protect() == 0x03);
}

/* L11, L20, L21: an Unknown becomes a 163, by way of a 175 or at once, in both editions. */
static void test_f800_unknown(void) {
    static const struct step odd[] = {{0xC000, 0x01, 0xFF000000, 0xFF}, {0xC800, 0xE1, 0xFFFF0000, 0x00}, {0xF800, 0x40, 0xFF000000, 0xFF}};
    static const struct step old_odd[] = {{0xC000, 0x01, 0xFF000000, 0xFF}, {0xC800, 0xE1, 0xFF0000, 0xFF}, {0xF800, 0x40, 0, 0xFF}};
    static const struct step even[] = {{0xC000, 0x40, 0xFF000000, 0x00}, {0x5000, 0x00, 0xFFFF0000, 0xFF}};
    static const struct step by_4800[] = {{0x4800, 0x00, 0xFFFF0000, 0x00}};
    static const struct step old_by_4800[] = {{0x4800, 0x00, 0xFFFF0000, 0xFF}};
    static const struct step by_f800[] = {{0xF800, 0x47, 0xFFFF0000, 0xC0}};
    static const struct step old_by_f800[] = {{0xF800, 0x47, 0xFFFF0000, 0xFF}};
    EQUAL(load_new(210, 0), 0);
    MAKE(odd);
    EQUAL(load(210, 0, 32768, 128), 0);
    MAKE(old_odd);
    EQUAL(load_new(210, 0), 0);
    MAKE(even);
    EQUAL(load_new(210, 0), 0);
    MAKE(by_4800);
    EQUAL(load(210, 0, 32768, 128), 0);
    MAKE(old_by_4800);
    EQUAL(load_new(210, 0), 0);
    MAKE(by_f800);
    EQUAL(load(210, 0, 32768, 128), 0);
    MAKE(old_by_f800);
}

/* L21: a fixed 175 and a fixed 340 are alike in both editions. On a 175 that a hard reset left open F800 maps nothing. */
static void test_f800_fixed(void) {
    static const struct step n175[] = {
        {0xF800, 0x40, 0, 0}, {0xC000, 0x40, 0, 0}, {0xC000, 0x41, 0xFF000000, 0xFF}, {0xF800, 0x4F, 0, 0xFF}};
    static const struct step waiting[] = {{0xF800, 0x00, 0, 0xFF}, {0x8000, 0x00, 0xFF000000, 0}};
    static const struct step n340[] = {{0xF800, 0x40, 0, 0}, {0xC000, 0x41, 0, 0}};
    uint64_t yes;
    for (yes = 0; yes < 2; yes++) {
        EQUAL(load_edition(308, 210, 1, 0, 8192, yes), 0);
        MAKE(n175);
        CHECK(protect() == 0x41 && namco163_options(image, 308) == (yes ? NAMCO163_F800_PROTECTS : 0));
        EQUAL(reset(NAMCO163_HARD), 0);
        MAKE(waiting);
        EQUAL(load_edition(308, 210, 2, 0, 8192, yes), 0);
        MAKE(n340);
        EQUAL(protect(), 0);
    }
}

/* M1, L20: parts are of addresses; PRG-RAM of 1, 2 and 3 pages, and of none (M5). */
static void test_f800_short(void) {
    unsigned pages;
    for (pages = 1; pages < 4; pages++) {
        EQUAL(load_edition(308, 19, 0, 1, 1024 * pages, 1), 0);
        EQUAL(write_at(0xF800, 0x4E), 0x3000000);
        CHECK(open_entries() == 0x03 && work_ram(pages));
    }
    EQUAL(load_edition(308, 19, 0, 1, 1024, 1), 0);
    EQUAL(write_at(0xF800, 0x4E), 0x3000000);
    EQUAL(write_at(0x7C00, 0x11), 0);
    EQUAL(read_at(0x6000), 0);
    EQUAL(write_at(0x6000, 0x22), 0);
    CHECK(read_at(0x6000) == 0x2200 && read_at(0x6400) == 0x2200 && read_at(0x7C00) == 0x2200);
    EQUAL(load_edition(308, 19, 0, 1, 0, 1), 0);
    for (pages = 0x40; pages < 0x50; pages++) {
        CHECK(write_at(0xF800, pages) == 0 && open_entries() == 0 && work_ram(0));
        CHECK(write_at(0x6000, 0x22) == 0 && read_at(0x6000) == 0 && arena[0] == 0);
    }
}

/* K5: a flag that changes drops the blocks over it; a store that is dropped drops none; an open address drops those of a protected one
 * that shows the same page. */
static void test_f800_blocks(void) {
    static const uint16_t starts[6] = {0x6000, 0x6400, 0x6800, 0x77F8, 0x7C00, 0x8000};
    EQUAL(load_new(19, 1), 0);
    memset(directory, 0, sizeof directory);
    add_each(starts, 6);
    EQUAL(write_blocks(0x6000, 0x55), 0);
    EQUAL(write_blocks(0xF800, 0x0F), 0);
    EQUAL(held(starts, 6), 0x3F);
    EQUAL(write_blocks(0xF800, 0x4E), 0x3000000);
    EQUAL(held(starts, 6), 0x3C);
    EQUAL(write_blocks(0xF800, 0x46), 0xC0000000);
    EQUAL(held(starts, 6), 0x24);
    EQUAL(load_edition(308, 19, 0, 1, 1024, 1), 0);
    EQUAL(write_at(0xF800, 0x4E), 0x3000000);
    memset(directory, 0, sizeof directory);
    add_each(starts, 6);
    EQUAL(write_blocks(0x7C00, 0x55), 0);
    EQUAL(held(starts, 6), 0x3F);
    EQUAL(write_blocks(0x6000, 0x55), 0);
    EQUAL(held(starts, 6), 0x20);
    EQUAL(load_p_blocks(), 0);
    add_each(starts, 6);
    EQUAL(write_blocks(0xF800, 0x41), 0);
    EQUAL(held(starts, 6), 0x3F);
}

/* N1, N2: what every call that reads an image answers to so many bytes of it; all that is lent stays. */
static void check_image(size_t len, uint64_t answer) {
    keep();
    EQUAL(namco163_read(image, len, arena, 0, 0), answer);
    EQUAL(namco163_write(image, len, arena, 0, 0, 0), answer);
    EQUAL(namco163_preview(image, len, arena, 0, 0, 0), answer);
    EQUAL(namco163_run(image, len, samples, 0, NAMCO163_CLOCK_LIMIT + 1), answer);
    EQUAL(namco163_reset(image, len, 2), answer);
    EQUAL(namco163_write_blocks(image, len, arena, 0, directory, 255, 0, 0), answer);
    EQUAL(namco163_stored(image, len, directory, 255, 0), answer);
    CHECK(kept());
}

/* H10: lengths, unused bits, and images that are lengthened and cut. Calls write back at the length that they were lent. */
static void test_image_lengths(void) {
    unsigned bit;
    uint8_t options;
    EQUAL(load_new(19, 1), 0);
    check_image(306, NAMCO163_IMAGE_LENGTH);
    check_image(309, NAMCO163_IMAGE_LENGTH);
    check_image(0, NAMCO163_IMAGE_LENGTH);
    for (bit = 0; bit < 5; bit++) {
        image[307] = (uint8_t)(0xE0 | 1 << bit);
        check_image(308, NAMCO163_OUT_OF_RANGE);
        image[307] = (uint8_t)(1 << bit);
        check_image(308, NAMCO163_OUT_OF_RANGE);
    }
    for (options = 0; options < 2; options++) {
        EQUAL(load(19, 1, 32768, 128), 0);
        image[307] = 0x00;
        image[308] = 0xA5;
        image_lent = options ? 308 : 307; /* lengthened by 0, or as it was */
        EQUAL(write_at(0xF800, 0x41), 0);
        EQUAL(run(15), 0x100);
        EQUAL(reset(NAMCO163_SOFT), 0);
        CHECK(open_entries() == 0xFF && image[307] == 0x00 && image[308] == 0xA5);
        keep();
        image_lent = 307; /* cut, with the last byte 0 */
        EQUAL(read_at(0x5000), 0);
        CHECK(kept());
    }
    EQUAL(load_new(19, 1), 0);
    image_lent = 307; /* cut, with the last byte not 0: the old edition, with the entries that it had */
    EQUAL(write_at(0xF800, 0x40), 0);
    EQUAL(open_entries(), 0);
    EQUAL(write_at(0x8000, 0x00), 0xFF000000);
    EQUAL(open_entries(), 0xFF);
    EQUAL(image[307], 0x80);
}

/* ---- Signed levels and plain sums */

/* The options of the choices: wrapping average, wrapping sum, signed average, signed sum. */
enum { CHOICES = 4 };
static const unsigned choices[CHOICES] = {0x00, 0x20, 0x40, 0x60};

/* A load of layout P with the options of a byte, into 308 bytes. */
static uint64_t load_with(uint64_t mapper, uint8_t submapper, unsigned options) {
    lent = ARENA;
    image_lent = 308;
    return namco163_load_options(image, 308, arena, ARENA, mapper, submapper, 0, 1, 32768, 8192, 128, 8192, 0, 2048,
                                 options & NAMCO163_F800_PROTECTS, options & NAMCO163_SIGNED_LEVELS, options & NAMCO163_PLAIN_SUM);
}

/* Writes a byte of sound RAM by the port. */
static void set_sound(unsigned addr, unsigned byte) {
    EQUAL(namco163_refusal(write_at(0xF800, addr)), 0);
    EQUAL(namco163_refusal(write_at(0x4800, byte)), 0);
}

/* All eight channels in use, each with this nibble and volume. */
static void set_chord(unsigned nibble, unsigned volume) {
    unsigned k;
    set_sound(0x00, nibble);
    for (k = 0; k < 8; k++) set_sound(0x47 + 8 * k, volume | (k == 7 ? 0x70 : 0));
}

/* Two channels: 7 plays nibble 0 and 6 nibble F, both at volume 15. */
static void set_two_channels(void) {
    set_sound(0x00, 0xF0);
    set_sound(0x7F, 0x1F);
    set_sound(0x76, 0x01);
    set_sound(0x77, 0x0F);
}

/* The bits of the k-th sample that was made last, and of `out` in the image. */
static uint32_t word_at(const uint8_t *bytes) {
    return (uint32_t)bytes[0] << 24 | (uint32_t)bytes[1] << 16 | (uint32_t)bytes[2] << 8 | (uint32_t)bytes[3];
}
static uint32_t sample_bits(size_t k) { return word_at(samples + 4 * k); }
static uint32_t out_bits(void) { return word_at(image + 165); }

/* S13, S17, H11: each set of options on each kind of cartridge is kept by each call; nothing else of a fresh image goes by the choice. */
static void test_option_sets(void) {
    static const struct {
        uint64_t mapper;
        uint8_t submapper;
    } boards[4] = {{19, 0}, {210, 0}, {210, 1}, {210, 2}};
    unsigned k, options;
    for (k = 0; k < 4; k++) {
        for (options = 0; options < 0x100; options += 0x20) {
            EQUAL(load_with(boards[k].mapper, boards[k].submapper, options & 0x80), 0);
            keep();
            EQUAL(load_with(boards[k].mapper, boards[k].submapper, options), 0);
            CHECK(!memcmp(image, image_before, 307) && image[307] == options);
            set_two_channels();
            EQUAL(namco163_refusal(run(100)), 0);
            EQUAL(read_at(0x4800), 0x0F00);
            EQUAL(namco163_options(image, 308), options);
            EQUAL(reset(NAMCO163_SOFT), 0);
            EQUAL(namco163_options(image, 308), options);
            EQUAL(namco163_refusal(run(100)), 0);
            EQUAL(reset(NAMCO163_HARD), 0);
            EQUAL(namco163_options(image, 308), options);
        }
    }
}

/* S14, S15: two channels in each choice, in one run and clock by clock: samples, and outputs 6 and 7, `out` and the options in the image.
 * Then the same image with the options of another choice: outputs that it cannot have are refused by 2. */
static void test_choices(void) {
    static const uint32_t bits[CHOICES][2] = {
        {0x3E3E76C8, 0x3E43D70A}, {0x3EBE76C8, 0x3EC3D70A}, {0xBBC49BA6, 0xBA449BA6}, {0xBC449BA6, 0xBAC49BA6}};
    static const uint8_t outputs[CHOICES][3] = {{0x06, 0x9E, 0x88}, {0x06, 0x9E, 0x88}, {0x06, 0x9F, 0x88}, {0x06, 0x9F, 0x88}};
    static const uint32_t outs[CHOICES] = {0x44EF1000, 0x456F1000, 0xC0F00000, 0xC1700000};
    unsigned k, clock, made, other;
    for (k = 0; k < CHOICES; k++) {
        EQUAL(load_with(19, 0, choices[k]), 0);
        set_two_channels();
        for (clock = made = 0; clock < 45; clock++) {
            made += namco163_samples(run(1));
            CHECK(!made || sample_bits(0) == bits[k][made > 1]);
        }
        EQUAL(made, 3);
        keep();
        EQUAL(load_with(19, 0, choices[k]), 0);
        set_two_channels();
        EQUAL(run(45), 0x300);
        CHECK(sample_bits(0) == bits[k][0] && sample_bits(1) == bits[k][1] && sample_bits(2) == bits[k][1]);
        CHECK(!memcmp(image, image_before, 308) && !memcmp(image + 162, outputs[k], 3) && out_bits() == outs[k]);
        EQUAL(image[307], choices[k]);
        for (other = 0; other < CHOICES; other++) {
            image[307] = (uint8_t)choices[other];
            if (k / 2 != other / 2) check_image(308, NAMCO163_OUT_OF_RANGE);
            else EQUAL(read_at(0x6000), 0);
        }
    }
}

/* S14, S16, C7: behind a reset of either kind the sound is new and the choice the same. */
static void test_choices_reset(void) {
    static const uint8_t zeros[16] = {0};
    static const uint32_t bits[2] = {0x3EBE76C8, 0xBC449BA6};
    unsigned k;
    for (k = 0; k < 2 * CHOICES; k++) {
        unsigned options = choices[k / 2];
        EQUAL(load_with(19, 0, options), 0);
        set_two_channels();
        EQUAL(run(45), 0x300);
        EQUAL(reset(k % 2), 0);
        CHECK(!memcmp(image + 153, zeros, sizeof zeros) && image[307] == options);
        set_sound(0x7F, 0x0F);
        EQUAL(run(15), 0x100);
        EQUAL(sample_bits(0), bits[options >> 6]);
        set_sound(0x7F, 0x00);
        EQUAL(run(15), 0x100);
        CHECK(sample_bits(0) == 0 && out_bits() == 0 && !memcmp(image + 153, zeros, sizeof zeros));
    }
}

/* R11: the ends of a sample: all eight channels at an end of their level. */
static void test_sample_ends(void) {
    static const struct {
        unsigned options, nibble, volume;
        uint32_t bits;
        float sample;
    } ends[] = {
        {0x00, 0x8, 15, 0x00000000, 0.0f},    {0x00, 0x7, 15, 0x3EC3D70A, 0.3825f}, {0x20, 0x0, 0, 0x00000000, 0.0f},
        {0x20, 0x7, 15, 0x4043D70A, 3.06f},   {0x40, 0x0, 15, 0xBC449BA6, -0.012f}, {0x40, 0xF, 15, 0x3C2C0831, 0.0105f},
        {0x40, 0x0, 0, 0x00000000, 0.0f},     {0x60, 0x0, 15, 0xBDC49BA6, -0.096f}, {0x60, 0xF, 15, 0x3DAC0831, 0.084f},
        {0x60, 0x4, 0, 0x00000000, 0.0f},     {0x60, 0x7, 1, 0xBA51B717, -0.0008f},
    };
    size_t k;
    for (k = 0; k < sizeof ends / sizeof ends[0]; k++) {
        EQUAL(load_with(19, 0, ends[k].options), 0);
        set_chord(ends[k].nibble, ends[k].volume);
        EQUAL(run(120), 0x800);
        EQUAL(sample_bits(7), ends[k].bits);
        CHECK(namco163_sample(samples + 28) == ends[k].sample);
    }
}

/* Every call that reads the image takes it: its next refusal shows, and accepted calls write it back as it was. */
static void check_taken(void) {
    keep();
    EQUAL(namco163_read(image, 308, arena, 0, 0), NAMCO163_ARENA_LENGTH);
    EQUAL(namco163_write(image, 308, arena, 0, 0, 0), NAMCO163_ARENA_LENGTH);
    EQUAL(namco163_preview(image, 308, arena, 0, 0, 0), NAMCO163_ARENA_LENGTH);
    EQUAL(run(NAMCO163_CLOCK_LIMIT + 1), NAMCO163_CLOCKS);
    EQUAL(reset(2), NAMCO163_RESET_KIND);
    EQUAL(read_at(0x5000), 0);
    EQUAL(write_at(0x5000, 0), 0);
    EQUAL(run(0), 0);
    CHECK(kept());
}

/* R11, H11: the ends of each output's field and of `out`, by the levels, or by both options, whatever the board. */
static void test_level_ends(void) {
    static const unsigned fields[2][2][4] = {
        {{0, 106, 3720, 3825}, {3826, 3975, 3976, 4095}},
        {{0, 105, 3976, 4095}, {106, 3720, 3825, 3975}},
    };
    static const uint32_t outs[CHOICES][2][4] = {
        {{0, 1, 0x42D20001, 0x456F1000}, {0x456F1001, 0x80000000, 0x80000001, 0x7FC00000}},
        {{0, 1, 0x456F1001, 0x46EF1000}, {0x46EF1001, 0x80000000, 0x80000001, 0x7F800000}},
        {{0, 0x42D20000, 0x80000001, 0xC2F00000}, {0x42D20001, 0x80000000, 0xC2F00001, 0xFF800000}},
        {{0, 0x44520000, 0x80000001, 0xC4700000}, {0x44520001, 0x80000000, 0xC4700001, 0xFFC00000}},
    };
    unsigned k, channel, place;
    for (k = 0; k < 2 * CHOICES; k++) {
        unsigned choice = k / 2;
        EQUAL(load_with(k % 2 ? 210 : 19, (uint8_t)(k % 2), choices[choice] | (k % 2 ? NAMCO163_F800_PROTECTS : 0)), 0);
        for (channel = 0; channel < 8; channel++) {
            for (place = 0; place < 8; place++) {
                lend_bits(1224 + 12 * channel, 12, fields[choice / 2][place / 4][place % 4]);
                if (place < 4) check_taken();
                else check_image(308, NAMCO163_OUT_OF_RANGE);
            }
            lend_bits(1224 + 12 * channel, 12, 0);
        }
        for (place = 0; place < 8; place++) {
            lend_bits(1320, 32, outs[choice][place / 4][place % 4]);
            if (place < 4) check_taken();
            else check_image(308, NAMCO163_OUT_OF_RANGE);
        }
    }
}

/* ---- PRG-RAM of more than 64 pages */

static uint8_t large[LARGEST + 1], large_before[sizeof large];
static size_t large_lent; /* how much of it calls get: as much as the last load */

static void keep_large(void) {
    keep();
    memcpy(large_before, large, sizeof large);
}
static int kept_large(void) { return kept() && !memcmp(large_before, large, sizeof large); }

/* The calls that load: namco163_load, which takes no options, namco163_load_options, namco163_load_blocks. */
enum { PLAIN, WITH_OPTIONS, WITH_BLOCKS, LOADS };

/* Layout P with so much PRG-RAM, into so many bytes, with the options of a byte; sizes beyond a limit are lent no arena. */
static uint64_t load_ram(unsigned by, size_t len, uint64_t mapper, uint8_t submapper, uint64_t ram, unsigned options) {
    uint64_t f800 = options & NAMCO163_F800_PROTECTS, levels = options & NAMCO163_SIGNED_LEVELS, sum = options & NAMCO163_PLAIN_SUM;
    large_lent = namco163_arena_length(32768, ram, 128, 8192, 2048);
    image_lent = len;
    if (by == PLAIN) return namco163_load(image, len, large, large_lent, mapper, submapper, 0, 1, 32768, ram, 128, 8192, 0, 2048);
    if (by == WITH_OPTIONS)
        return namco163_load_options(image, len, large, large_lent, mapper, submapper, 0, 1, 32768, ram, 128, 8192, 0, 2048, f800, levels,
                                     sum);
    return namco163_load_blocks(image, len, large, large_lent, directory, NAMCO163_PLACES, mapper, submapper, 0, 1, 32768, ram, 128, 8192,
                                0, 2048, f800, levels, sum);
}
static uint64_t read_large(unsigned addr) { return namco163_read(image, image_lent, large, large_lent, (uint16_t)addr); }
static uint64_t write_large(unsigned addr, unsigned val) {
    return namco163_write(image, image_lent, large, large_lent, (uint16_t)addr, (uint8_t)val);
}

/* R1, R2, H1, H12: pages, places in the arena, and the count in the image, of which bit 7 is bit 4 of byte 307. */
static void test_ram_sizes(void) {
    static const struct {
        uint64_t ram, arena, pages;
        uint8_t counts[4];
        unsigned last;
    } sizes[] = {
        {8192, 53248, 8, {0x08, 0x04, 0x41, 0x05}, 0x00},      {65536, 110592, 64, {0x08, 0x20, 0x41, 0x05}, 0x00},
        {65537, 111616, 65, {0x08, 0x20, 0xC1, 0x05}, 0x00},   {130048, 175104, 127, {0x08, 0x3F, 0xC1, 0x05}, 0x00},
        {130049, 176128, 128, {0x08, 0x00, 0x41, 0x05}, 0x10}, {131072, 176128, 128, {0x08, 0x00, 0x41, 0x05}, 0x10},
    };
    size_t k;
    for (k = 0; k < sizeof sizes / sizeof sizes[0]; k++) {
        struct namco163_arena at = namco163_arena_of(32768, sizes[k].ram, 128, 8192, 0, 2048);
        EQUAL(at.length, sizes[k].arena);
        CHECK(at.prg_ram == 41984 && at.battery == 41984 + 1024 * sizes[k].pages);
        EQUAL(load_ram(PLAIN, 308, 19, 0, sizes[k].ram, 0), 0);
        EQUAL(large_lent, sizes[k].arena);
        CHECK(!memcmp(image + 303, sizes[k].counts, 4));
        EQUAL(image[307], sizes[k].last);
        EQUAL(namco163_options(image, 308), 0);
        keep_large();
        EQUAL(load_ram(PLAIN, 307, 19, 0, sizes[k].ram, 0), sizes[k].last ? NAMCO163_IMAGE_LENGTH : 0);
        CHECK(kept_large());
    }
}

/* N1, N4, N5, H8, H12: loads into images of each length, by each of the three calls. */
static void test_ram_loads(void) {
    static const struct {
        size_t len;
        uint64_t mapper, ram;
        unsigned options;
        uint64_t answer;
        unsigned last; /* of an accepted load, what byte 307 becomes */
    } loads[] = {
        {307, 19, 65536, 0, 0, 0xA5}, {307, 19, 65537, 0, 0, 0xA5}, {307, 19, 130048, 0, 0, 0xA5}, {307, 20, 130048, 0, 4, 0},
        {307, 19, 130049, 0, 1, 0}, {307, 20, 130049, 0, 1, 0}, {307, 19, 131072, 0, 1, 0}, {307, 20, 131072, 0, 1, 0},
        {307, 19, 131073, 0, 5, 0}, {307, 20, 131073, 0, 4, 0}, {307, 19, BIT_32 + 131072, 0, 5, 0}, {307, 19, BIT_63, 0, 5, 0},
        {307, 19, 65536, 0x80, 1, 0}, {307, 19, 130048, 0x40, 1, 0}, {307, 20, 131073, 0x20, 1, 0}, {307, 19, 131072, 0xE0, 1, 0},
        {308, 19, 65536, 0, 0, 0x00}, {308, 19, 65537, 0, 0, 0x00}, {308, 19, 130048, 0, 0, 0x00}, {308, 19, 130049, 0, 0, 0x10},
        {308, 210, 131072, 0, 0, 0x10}, {308, 19, 131073, 0, 5, 0}, {308, 20, 131073, 0, 4, 0}, {308, 20, 131072, 0, 4, 0},
        {308, 19, BIT_32 + 131072, 0, 5, 0}, {308, 19, 8192, 0xE0, 0, 0xE0}, {308, 19, 131072, 0xE0, 0, 0xF0},
        {308, 19, 131072, 0x80, 0, 0x90}, {308, 19, 130049, 0x40, 0, 0x50}, {308, 210, 130049, 0x20, 0, 0x30},
        {306, 19, 131072, 0, 1, 0}, {309, 19, 131072, 0, 1, 0}, {309, 20, 131073, 0, 1, 0}, {0, 19, 130048, 0, 1, 0},
    };
    size_t k;
    for (k = 0; k < LOADS * sizeof loads / sizeof loads[0]; k++) {
        size_t at = k / LOADS, zeros = 0;
        unsigned by = k % LOADS;
        if (by == PLAIN && loads[at].options) continue;
        memset(image, 0xA5, sizeof image);
        memset(large, 0xA5, sizeof large);
        memset(directory, 0, sizeof directory);
        keep_large();
        EQUAL(load_ram(by, loads[at].len, loads[at].mapper, 0, loads[at].ram, loads[at].options), loads[at].answer);
        if (loads[at].answer) {
            CHECK(kept_large());
        } else {
            while (large[zeros] == 0) zeros++;
            EQUAL(zeros, large_lent);
            CHECK(image[307] == loads[at].last && image[308] == 0xA5);
        }
    }
}

/* R9, N2, H10, H12: counts in an image of P, whose entries lie below page 52; and the image of 128 pages, cut. */
static void test_ram_counts(void) {
    static const struct {
        unsigned high, low, refused;
    } counts[] = {{0, 8, 0}, {0, 64, 0}, {0, 65, 0}, {0, 127, 0}, {1, 0, 0}, {1, 1, 2}, {1, 8, 2}, {1, 64, 2}, {1, 127, 2}};
    size_t k;
    for (k = 0; k < 2 * sizeof counts / sizeof counts[0]; k++) {
        unsigned high = counts[k / 2].high, low = counts[k / 2].low, options = k % 2 ? 0xE0 : 0x00;
        EQUAL(load_ram(WITH_OPTIONS, 308, 19, 0, 8192, options), 0);
        lend_bits(2434, 7, low);
        image[307] = (uint8_t)(options | high << 4);
        large_lent = ARENA + 1024 * (128 * high + low - 8);
        if (counts[k / 2].refused) {
            check_image(308, NAMCO163_OUT_OF_RANGE);
            EQUAL(read_large(0x5000), NAMCO163_OUT_OF_RANGE);
            continue;
        }
        keep_large();
        EQUAL(read_large(0x5000), 0);
        EQUAL(write_large(0x5000, 0), 0);
        EQUAL(run(0), 0);
        EQUAL(namco163_read(image, 308, large, large_lent - 1, 0), NAMCO163_ARENA_LENGTH);
        EQUAL(namco163_read(image, 308, large, large_lent + 1, 0), NAMCO163_ARENA_LENGTH);
        if (!image[307]) EQUAL(namco163_read(image, 307, large, large_lent, 0x5000), 0);
        CHECK(kept_large());
    }
    EQUAL(load(19, 1, 32768, 128), 0);
    image[307] = 0x10;
    check_image(308, NAMCO163_OUT_OF_RANGE);
    EQUAL(load_ram(PLAIN, 308, 19, 0, 131072, 0), 0);
    check_image(307, NAMCO163_OUT_OF_RANGE);
    EQUAL(load_ram(WITH_OPTIONS, 308, 19, 0, 131072, 0xE0), 0);
    check_image(307, NAMCO163_OUT_OF_RANGE);
}

/* R4, R9: the largest layout: what its windows show, and entries at its last page and behind it. */
static void test_ram_largest(void) {
    static const unsigned pages[] = {837, 838, 901, 902, 1023};
    unsigned k;
    image_lent = 308;
    large_lent = LARGEST;
    EQUAL(namco163_load(image, 307, large, LARGEST, 19, 0, 0, 1, 524288, 131072, 1024, 262144, 0, 4096), NAMCO163_IMAGE_LENGTH);
    EQUAL(namco163_load(image, 308, large, LARGEST - 1, 19, 0, 0, 1, 524288, 131072, 1024, 262144, 0, 4096), NAMCO163_ARENA_LENGTH);
    EQUAL(namco163_load(image, 308, large, LARGEST, 19, 0, 0, 1, 524288, 131072, 1024, 262144, 0, 4096), 0);
    EQUAL(image[307], 0x10);
    for (k = 0; k < 8; k++) {
        EQUAL(namco163_entry(image, 24 + k).offset, (769 + k) * 1024);
        EQUAL(namco163_entry(image, 56 + k).offset, (505 + k) * 1024);
        CHECK(namco163_entry(image, 24 + k).writable && !namco163_entry(image, 56 + k).writable);
    }
    for (k = 0; k < sizeof pages / sizeof pages[0]; k++) {
        lend_entry(24, pages[k], 1);
        if (pages[k] < 902) {
            EQUAL(write_large(0x63FF, 0x5A), 0);
            EQUAL(large[pages[k] * 1024 + 1023], 0x5A);
            EQUAL(read_large(0x63FF), 0x5A00);
        } else {
            check_image(308, NAMCO163_OUT_OF_RANGE);
        }
    }
}

/* L13: with more pages 6000..7FFF shows the first eight, on every board and behind writes that map. */
static void test_ram_windows(void) {
    static const uint64_t sizes[] = {65536, 65537, 130048, 131072};
    static const struct {
        uint64_t mapper;
        uint8_t submapper;
        unsigned pages, open;
    } boards[] = {{19, 0, 8, 0xFF}, {210, 0, 0, 0}, {210, 1, 8, 0}, {210, 2, 0, 0}};
    size_t k, s;
    for (s = 0; s < sizeof sizes / sizeof sizes[0]; s++) {
        for (k = 0; k < sizeof boards / sizeof boards[0]; k++) {
            EQUAL(load_ram(PLAIN, 308, boards[k].mapper, boards[k].submapper, sizes[s], 0), 0);
            CHECK(work_ram(boards[k].pages) && open_entries() == boards[k].open);
            EQUAL(write_large(0xF000, 0x02), (uint64_t)0xFF << 48);
            CHECK(work_ram(boards[k].pages) && open_entries() == boards[k].open);
        }
        EQUAL(load_ram(PLAIN, 308, 210, 1, sizes[s], 0), 0);
        EQUAL(write_large(0xC000, 0x01), 0xFF000000);
        CHECK(work_ram(8) && open_entries() == 0xFF);
        EQUAL(write_large(0x7FFF, 0x5A), 0);
        EQUAL(large[41984 + 8191], 0x5A);
        EQUAL(load_ram(WITH_OPTIONS, 308, 19, 0, sizes[s], 0x80), 0);
        EQUAL(write_large(0xF800, 0x4E), 0x3000000);
        CHECK(work_ram(8) && open_entries() == 0x03);
    }
}

/* H10, H12: calls on 128 pages write 308 bytes back, and the count stays. */
static void test_ram_calls(void) {
    unsigned options;
    for (options = 0; options < 0x100; options += 0x20) {
        memset(image, 0xA5, sizeof image);
        EQUAL(load_ram(WITH_OPTIONS, 308, 19, 0, 131072, options), 0);
        EQUAL(namco163_preview(image, 308, large, large_lent, 0x8000, 0xE1), 0x100);
        EQUAL(write_large(0x8000, 0xE1), 0x100);
        EQUAL(run(15), 0x100);
        EQUAL(reset(NAMCO163_SOFT), 0);
        EQUAL(write_large(0x5000, 0x12), 0);
        EQUAL(read_large(0x5000), 0x1200);
        EQUAL(reset(NAMCO163_HARD), 0);
        CHECK(image[307] == (options | 0x10) && image[308] == 0xA5 && namco163_options(image, 308) == options);
        EQUAL(namco163_read(image, 308, large, large_lent - 1024, 0x6000), NAMCO163_ARENA_LENGTH);
    }
}

/* K5, K10: blocks over the last page of PRG-RAM, where a lent entry shows it, and over the first. */
static void test_ram_blocks(void) {
    static const uint16_t starts[2] = {0x6000, 0x6400};
    EQUAL(load_ram(WITH_BLOCKS, 308, 19, 0, 131072, 0), 0);
    lend_entry(24, 168, 1);
    add_each(starts, 2);
    EQUAL(namco163_stored(image, 308, directory, NAMCO163_PLACES, 41 * 1024), 0);
    EQUAL(held(starts, 2), 3);
    EQUAL(namco163_stored(image, 308, directory, NAMCO163_PLACES, large_lent), 0);
    EQUAL(held(starts, 2), 3);
    EQUAL(namco163_stored(image, 308, directory, NAMCO163_PLACES, 169 * 1024 - 1), 0);
    EQUAL(held(starts, 2), 2);
    EQUAL(add(0x6000, 16, 1), 0);
    EQUAL(namco163_write_blocks(image, 308, large, large_lent, directory, NAMCO163_PLACES, 0x6000, 0x5A), 0);
    EQUAL(large[168 * 1024], 0x5A);
    EQUAL(held(starts, 2), 2);
}

/* N20: refusals of a load, in their order: 1 4 5 6 7. */
static void test_refused_loads(void) {
    keep();
    EQUAL(namco163_load(image, 306, arena, 0, 20, 0, 0, 1, 524289, 0, 0, 0, 0, 0), NAMCO163_IMAGE_LENGTH);
    EQUAL(namco163_load(image, 309, arena, ARENA, 19, 0, 0, 1, 32768, 8192, 128, 8192, 0, 2048), NAMCO163_IMAGE_LENGTH);
    EQUAL(load(20, 1, 524289, 0), NAMCO163_MAPPER);
    EQUAL(load(65555, 1, 32768, 128), NAMCO163_MAPPER);
    EQUAL(load(19, 1, 524289, 0), NAMCO163_SIZE);
    EQUAL(load(19, 1, ((uint64_t)1 << 32) + 32768, 128), NAMCO163_SIZE);
    EQUAL(load(19, 1, 32768, 1025), NAMCO163_SIZE);
    EQUAL(load(19, 1, 1024, 0), NAMCO163_NO_BATTERY);
    EQUAL(load(19, 1, 1024, 128), NAMCO163_ARENA_LENGTH);
    EQUAL(namco163_load(image, 307, arena, ARENA + 1, 19, 0, 0, 1, 32768, 8192, 128, 8192, 0, 2048), NAMCO163_ARENA_LENGTH);
    CHECK(kept());
}

/* N20: refusals of the other calls: 1 2 7 8 of reads and writes, 1 2 10 11 of runs, 1 2 3 of resets. */
static void test_refused_calls(void) {
    EQUAL(load(19, 1, 32768, 128), 0);
    EQUAL(run(14), 0);
    keep();
    EQUAL(namco163_read(image, 306, arena, 0, 0), NAMCO163_IMAGE_LENGTH);
    EQUAL(namco163_read(image, 307, arena, ARENA - 1, 0), NAMCO163_ARENA_LENGTH);
    EQUAL(read_at(0x47FF), NAMCO163_ADDRESS);
    EQUAL(namco163_write(image, 309, arena, 0, 0, 0), NAMCO163_IMAGE_LENGTH);
    EQUAL(namco163_write(image, 307, arena, ARENA + 1, 0, 0), NAMCO163_ARENA_LENGTH);
    EQUAL(write_at(0, 0), NAMCO163_ADDRESS);
    EQUAL(namco163_run(image, 0, samples, 0, NAMCO163_CLOCK_LIMIT + 1), NAMCO163_IMAGE_LENGTH);
    EQUAL(namco163_run(image, 307, samples, 0, NAMCO163_CLOCK_LIMIT + 1), NAMCO163_CLOCKS);
    EQUAL(run(NAMCO163_CLOCK_LIMIT + 1), NAMCO163_CLOCKS);
    EQUAL(run(65536), NAMCO163_CLOCKS);
    EQUAL(namco163_run(image, 307, samples, 0, ((uint64_t)1 << 32) + 5), NAMCO163_CLOCKS);
    EQUAL(run(((uint64_t)1 << 32) + 5), NAMCO163_CLOCKS);
    EQUAL(run((uint64_t)-1), NAMCO163_CLOCKS);
    EQUAL(namco163_run(image, 307, samples, 0, NAMCO163_CLOCK_LIMIT), NAMCO163_SAMPLES_LENGTH);
    EQUAL(namco163_run(image, 307, samples, 3, 1), NAMCO163_SAMPLES_LENGTH);
    EQUAL(namco163_run(image, 307, samples, 4 * NAMCO163_MOST_SAMPLES - 1, NAMCO163_CLOCK_LIMIT), NAMCO163_SAMPLES_LENGTH);
    EQUAL(namco163_reset(image, 306, 2), NAMCO163_IMAGE_LENGTH);
    EQUAL(reset(2), NAMCO163_RESET_KIND);
    EQUAL(reset(256), NAMCO163_RESET_KIND);
    image[152] |= 0x78; /* an update counter of 15 */
    memcpy(image_before, image, sizeof image);
    EQUAL(namco163_read(image, 307, arena, 0, 0), NAMCO163_OUT_OF_RANGE);
    EQUAL(namco163_write(image, 307, arena, 0, 0, 0), NAMCO163_OUT_OF_RANGE);
    EQUAL(run(NAMCO163_CLOCK_LIMIT + 1), NAMCO163_OUT_OF_RANGE);
    EQUAL(reset(2), NAMCO163_OUT_OF_RANGE);
    CHECK(kept());
}

/* N11: whole groups of four bytes for the samples of the longest run, with the update counter at 0 and at 14. */
static void test_rooms(void) {
    EQUAL(load(19, 1, 32768, 128), 0);
    keep();
    EQUAL(namco163_run(image, 307, samples, 4 * (NAMCO163_MOST_SAMPLES - 1) - 1, NAMCO163_CLOCK_LIMIT), NAMCO163_SAMPLES_LENGTH);
    CHECK(kept());
    EQUAL(namco163_run(image, 307, samples, 4 * (NAMCO163_MOST_SAMPLES - 1), NAMCO163_CLOCK_LIMIT), 0x7C100);
    EQUAL(load(19, 1, 32768, 128), 0);
    EQUAL(run(14), 0);
    keep();
    EQUAL(namco163_run(image, 307, samples, 4 * NAMCO163_MOST_SAMPLES - 1, NAMCO163_CLOCK_LIMIT), NAMCO163_SAMPLES_LENGTH);
    CHECK(kept());
    EQUAL(namco163_run(image, 307, samples, 4 * NAMCO163_MOST_SAMPLES, NAMCO163_CLOCK_LIMIT), 0x7C200);
}

static void (*const tests[])(void) = {
    test_sizes, test_load, test_answers, test_run, test_rooms, test_reset, test_lent_states, test_no_prg_ram, test_lent_zero_page,
    test_loaded_boards, test_settled, test_settling, test_preview, test_refused_loads, test_refused_calls, test_refused_previews,
    test_register, test_full_directory, test_dropped, test_short_prg_ram, test_dropped_boards, test_dropped_lent, test_stored,
    test_load_blocks, test_unfit_directories, test_refused_blocks, test_options, test_option_loads, test_fresh_editions, test_f800,
    test_f800_resets, test_f800_detection, test_f800_unknown, test_f800_fixed, test_f800_short, test_f800_blocks, test_image_lengths,
    test_option_sets, test_choices, test_choices_reset, test_sample_ends, test_level_ends, test_ram_sizes, test_ram_loads, test_ram_counts,
    test_ram_largest, test_ram_windows, test_ram_calls, test_ram_blocks,
};

int main(void) {
    size_t k;
    for (k = 0; k < sizeof tests / sizeof tests[0]; k++) tests[k]();
    if (failures) printf("%d of %d checks of the C calls failed\n", failures, checks);
    else printf("%d checks of the C calls\n", checks);
    return failures ? EXIT_FAILURE : EXIT_SUCCESS;
}
