/* SPDX-License-Identifier: MIT OR Apache-2.0 */
/* The cartridge boards Namco 163, 175 and 340 of the NES (iNES mappers 19 and 210), for a C or C++ host.
 *
 * A cartridge is two blocks of bytes that the host owns and lends to each call:
 *   image  307 bytes: registers, sound chip, page tables, sizes; or 308, with options or with more than 130,048 bytes of PRG-RAM (see
 *          "Options, and the two lengths of an image" below). The library alone writes it; it may be copied and kept like any bytes.
 *   arena  the cartridge's memory: ROM, RAM and nametables, one after the other.
 * Image and arena together are the whole state, so copies of both are a save state. The library keeps nothing between calls and allocates
 * nothing.
 *
 * A host
 *   1. asks namco163_arena_of for the arena's length and allocates image and arena;
 *   2. calls namco163_load, which fills the arena with zeros and writes the image;
 *   3. copies the cartridge's ROM bytes (and a saved PRG-RAM) into the arena itself, at the places that namco163_arena_of gives;
 *   4. calls namco163_write and namco163_read for each access of the CPU from 4800 on, and namco163_run for the clocks in between.
 *
 * A host that translates code into blocks may also lend a directory of them: see "The directory of blocks" below.
 *
 * Each call answers 64 bits: in bits 0..7 a refusal number, 0 for accepted, and what it found in the others (see the accessors below).
 * Where a call is refused the others are 0, and image, arena, samples and directory are as they were. Any numbers, lengths and bytes may be
 * passed.
 *
 * What the host owes:
 *   - each pointer is to as many bytes (of a directory: places of 64 bits) as the length behind it says, and is not null (also where the
 *     length is 0);
 *   - the blocks passed to one call do not overlap;
 *   - the thread's floating-point environment is C's default: rounding to nearest, exceptions masked. Under FE_DOWNWARD the bits of a
 *     sample may be others, and with FE_INEXACT unmasked a run traps. No other call rounds.
 *
 * The calls lend bytes and no floats: what a call leaves alone keeps every bit, a NaN's payload too. Calls on different blocks may be made
 * by different threads at once. Addresses in these comments are hexadecimal, sizes decimal. */
#ifndef NAMCO163_H
#define NAMCO163_H

#include <stddef.h>
#include <stdint.h>
#include <string.h>

#ifdef __cplusplus
extern "C" {
#endif

/* The version of this header and of the archive that belongs to it. */
#define NAMCO163_VERSION_MAJOR 0
#define NAMCO163_VERSION_MINOR 10
#define NAMCO163_VERSION_PATCH 0
#define NAMCO163_TEXT_OF(x) #x
#define NAMCO163_TEXT(x) NAMCO163_TEXT_OF(x)
#define NAMCO163_VERSION \
    NAMCO163_TEXT(NAMCO163_VERSION_MAJOR) "." NAMCO163_TEXT(NAMCO163_VERSION_MINOR) "." NAMCO163_TEXT(NAMCO163_VERSION_PATCH)

#define NAMCO163_IMAGE_SIZE 307u  /* bytes of an image without options */
#define NAMCO163_OPTIONS_IMAGE_SIZE 308u /* bytes of an image with options, or with 128 pages of PRG-RAM; every call takes either */
#define NAMCO163_PAGE_SIZE 1024u  /* bytes of a page: regions are whole pages, and page table entries show one each */
#define NAMCO163_SAMPLE_SIZE 4u   /* bytes of a sample */
#define NAMCO163_CLOCK_LIMIT 29781u /* clocks of one run, at most */
#define NAMCO163_MOST_SAMPLES 1986u /* samples of one run, at most */
#define NAMCO163_UPDATE_CLOCKS 15u  /* CPU clocks from one sample to the next */

/* The largest sizes that a load accepts, in bytes. */
#define NAMCO163_PRG_ROM_LIMIT 524288u
#define NAMCO163_PRG_RAM_LIMIT 131072u /* more than 130,048 bytes need an image of 308 */
#define NAMCO163_BATTERY_LIMIT 1024u
#define NAMCO163_CHR_LIMIT 262144u
#define NAMCO163_CIRAM_LIMIT 4096u

/* Sizes of the two page tables. PRG page k shows CPU addresses 400 * k on, CHR page k PPU addresses 400 * k on. */
#define NAMCO163_PRG_PAGES 64u
#define NAMCO163_CHR_PAGES 16u

#define NAMCO163_PLACES 256u /* places of a directory of blocks */

/* Bits of the options, the last byte of an image of 308 (namco163_options). */
#define NAMCO163_F800_PROTECTS 0x80u /* writes to F800..FFFF protect the work RAM of a 163 */
#define NAMCO163_SIGNED_LEVELS 0x40u /* a channel's level has a sign */
#define NAMCO163_PLAIN_SUM 0x20u     /* channels are added up and not averaged */

/* Why a call was refused, in the order in which it is checked: the first that holds is the answer. `write`, `load` stand for
 * namco163_write_blocks, namco163_load_options and namco163_load_blocks too. */
enum namco163_refusals {
    NAMCO163_ACCEPTED = 0,
    NAMCO163_IMAGE_LENGTH = 1,   /* every call with an image: its length is neither 307 nor 308; a load: it is 307, and an option is asked
                                  * for, or 130,049 to 131,072 bytes of PRG-RAM, which are 128 pages */
    NAMCO163_OUT_OF_RANGE = 2,   /* read, write, preview, run, reset, stored: the image holds a field that no state has, or sets an unused
                                  * bit of the options; every call with a directory but find: it holds a start twice or a block that cannot
                                  * be registered, or has not 256 places (of namco163_load_blocks this last alone) */
    NAMCO163_RESET_KIND = 3,     /* reset: the kind is neither 0 nor 1 */
    NAMCO163_MAPPER = 4,         /* load: the mapper is neither 19 nor 210 */
    NAMCO163_SIZE = 5,           /* load: a size is above its limit */
    NAMCO163_NO_BATTERY = 6,     /* load: mapper 19 with a battery reserve of 0 bytes */
    NAMCO163_ARENA_LENGTH = 7,   /* load, read, write, preview: the arena's length is not that of the sizes */
    NAMCO163_ADDRESS = 8,        /* read, write, preview, register, lookup: the CPU address is below 4800 */
    NAMCO163_FILL_LENGTH = 9,    /* no C call: a fill is longer than its region */
    NAMCO163_CLOCKS = 10,        /* run: more than 29,781 clocks */
    NAMCO163_SAMPLES_LENGTH = 11, /* run: there is no room for the samples that it makes; whole groups of 4 bytes count */
    NAMCO163_BATTERY_UNUSED = 12, /* no C call: battery sync or restore without a used battery */
    NAMCO163_BLOCK = 13,         /* register: an address of the block is outside 6000..FFFF, or its length is outside 1..4,096 */
    NAMCO163_DIRECTORY_FULL = 14 /* register: all 256 places are held, and none by this start */
};

/* Kinds of a reset. */
enum namco163_reset_kinds { NAMCO163_SOFT = 0, NAMCO163_HARD = 1 };

/* Types of a board. */
enum namco163_boards { NAMCO163_UNKNOWN = 0, NAMCO163_163 = 1, NAMCO163_175 = 2, NAMCO163_340 = 3 };

/* Puts in a cartridge: the image becomes that of its fresh state (whatever it held), the whole arena 0. No reset is part of it.
 *   mapper       19 (Namco 163) or 210 (Namco 175 and 340)
 *   submapper    the NES 2.0 submapper; for mapper 210, 1 is a 175, 2 a 340, and with another number the board is found by what is written
 *   flags        byte 6 of the iNES header: bit 3 four screens, else bit 0 vertical (1) or horizontal (0) mirroring
 *   in_database  0 for no, any other for yes: the game is known, so a board of mapper 19 is a 163 for good; else it may turn out to be
 *                another
 *   prg_rom, prg_ram, battery, chr, ciram   sizes in bytes, each rounded up to whole pages; a CIRAM of 0 means 2048. The battery reserve
 *                holds a 163's sound RAM; 128 is what the chip has, and mapper 19 needs 1 or more
 *   chr_ram      0: CHR is ROM; any other: CHR is RAM
 * Answers the refusal number alone: 0, or 1, 4, 5, 6, 7. */
uint64_t namco163_load(uint8_t *image, size_t image_len, uint8_t *arena, size_t arena_len, uint64_t mapper, uint8_t submapper,
                       uint8_t flags, uint64_t in_database, uint64_t prg_rom, uint64_t prg_ram, uint64_t battery, uint64_t chr,
                       uint64_t chr_ram, uint64_t ciram);

/* ---- Options, and the two lengths of an image
 *
 * A cartridge has three options, each a yes or no, which its load chooses and no later call changes, resets of both kinds included:
 *   f800_protects  what a write to F800..FFFF does to the work RAM of a 163, besides setting the sound address.
 *                  No:  nothing; the work RAM of a 163 takes every store. This is what the emulator does that the library was made from.
 *                  Yes: it protects, as the NESdev wiki has it of the board. A byte of 40..4F opens the work RAM, but for 2 KiB for each
 *                       of bits 0 to 3 that is set: 6000..67FF, 6800..6FFF, 7000..77FF, 7800..7FFF. Any other byte protects all of it, and
 *                       on a fresh 163 all is protected until such a write. A CPU write to a protected address stores nothing; reads, and
 *                       what the host itself puts into the arena, are not hindered.
 *   signed_levels  what a sample nibble of 0..7 is worth, times the channel's volume of 0..15.
 *                  No:  248..255, as in that emulator, so that a channel lies in 0..3825 and a wave that crosses its middle leaps.
 *                  Yes: -8..-1, as the NESdev wiki has it, so that a channel lies in -120..105, and one that starts brings no offset.
 *   plain_sum      how the channels in use become one output.
 *                  No:  their average, as in that emulator: a channel that is added makes each of the others quieter.
 *                  Yes: their sum, so that no channel's loudness depends on how many there are.
 * With f800_protects a write to F800..FFFF can change page table entries: what is open has the writable flag, so masks have the bits of
 * 6000..7FFF where it changes, and blocks there are dropped. After a hard reset the entries stay as they are until the next write that maps
 * pages. On a 175 and a 340 the option shows in nothing. The other two show in samples, and in what the image holds of them, alone;
 * namco163_sample says between which ends a sample lies.
 *
 * Options are kept in the image's 308th byte, so a cartridge with one or more needs an image of NAMCO163_OPTIONS_IMAGE_SIZE; into 307 bytes
 * its load is refused by 1. A cartridge with 128 pages of PRG-RAM, 130,049 to 131,072 bytes, needs it too, since 307 bytes can count 127:
 * bit 4 (10) of the 308th byte is the high bit of the count. It is no option, and a load sets it by the size alone. Any other cartridge may
 * have either length. Every call takes both, and writes the image back at the length that it was lent; 307 bytes are read as an image
 * without options and without that bit.
 *
 * So an image of 307 bytes may be lengthened by one byte of 0, and an image of 308 whose last byte is 0 may be cut to 307: the state is the
 * same. Where the last byte is not 0 an image must not be cut, nor that byte be changed: what comes may be taken, as another cartridge. One
 * of 128 pages, cut, has no PRG-RAM, and is refused by 2 where a page table entry lies beyond the arena that is left. */

/* A load (namco163_load) that chooses the options: of each number 0 is no, any other yes. namco163_load is this with three times 0.
 * Answers the refusal number alone: 0, or 1, 4, 5, 6, 7. */
uint64_t namco163_load_options(uint8_t *image, size_t image_len, uint8_t *arena, size_t arena_len, uint64_t mapper, uint8_t submapper,
                               uint8_t flags, uint64_t in_database, uint64_t prg_rom, uint64_t prg_ram, uint64_t battery, uint64_t chr,
                               uint64_t chr_ram, uint64_t ciram, uint64_t f800_protects, uint64_t signed_levels, uint64_t plain_sum);

/* ---- The other calls */

/* A CPU read of 4800..FFFF. 4800..4FFF is the sound port, and such a read may move the sound address in the image; 5000..5FFF is the IRQ
 * counter, and the rest is memory by the page table. A read from 5000 on changes nothing.
 * Answers the byte (namco163_byte), or refusal 1, 2, 7, 8. */
uint64_t namco163_read(uint8_t *image, size_t image_len, const uint8_t *arena, size_t arena_len, uint16_t addr);

/* A CPU write to 4800..FFFF: stores into the arena where the page is writable (one byte at most), then writes the board's register, in the
 * image. Answers which page table entries changed (namco163_prg_mask, namco163_chr_mask), or refusal 1, 2, 7, 8. What the host has derived
 * from an entry, such as translated code or a pointer, is out of date once its bit is set; namco163_prg_entry and namco163_chr_entry have
 * the new ones. */
uint64_t namco163_write(uint8_t *image, size_t image_len, uint8_t *arena, size_t arena_len, uint16_t addr, uint8_t val);

/* A look before a write: answers the word that namco163_write would answer to the same address and value (namco163_prg_mask,
 * namco163_chr_mask), or refusal 1, 2, 7, 8 as it would, and alters nothing. Of the arena the length alone counts: that a byte
 * would be stored is not in the word. */
uint64_t namco163_preview(const uint8_t *image, size_t image_len, const uint8_t *arena, size_t arena_len, uint16_t addr, uint8_t val);

/* So many CPU clocks, 0..29,781: counts the IRQ counter and plays the sound, in the image. Each 15th enabled clock of a 163 makes one
 * sample; the samples go to the start of `samples`, and the bytes behind them stay. How clocks are cut into runs does not show in samples,
 * rises or state. Answers how many samples were made (namco163_samples), and on which clock of this run, from 1, the counter reached its
 * end and raised the IRQ line, or 0 (namco163_rise); or refusal 1, 2, 10, 11. The line stays up until the counter is written at 5000..5FFF,
 * or until a hard reset. */
uint64_t namco163_run(uint8_t *image, size_t image_len, uint8_t *samples, size_t samples_len, uint64_t clocks);

/* The console's reset: 0 soft (button), 1 hard (power). Both clear the sound chip with its RAM; hard also clears the IRQ counter, takes the
 * line down and clears the select and protect registers. No page table entry changes, but the next write that maps pages shows the first
 * page of CIRAM in all nametables of a 163 and, after a hard reset, protects its work RAM where F800 does. The options stay.
 * Answers the refusal number alone: 0, or 1, 2, 3. */
uint64_t namco163_reset(uint8_t *image, size_t image_len, uint64_t kind);

/* ---- The directory of blocks
 *
 * A recompiler keeps for each block of code that it has translated where the block begins. The directory holds 256 of them at most, and
 * frees the place of each whose bytes may have become others:
 *
 *   uint64_t directory[NAMCO163_PLACES];       owned by the host, lent as `directory, NAMCO163_PLACES`; all 0 is the empty one
 *
 * A block has a CPU start, a length of 1..4,096 bytes and a 32-bit number that is the host's own; it lies in 6000..FFFF whole. Blocks may
 * overlap. A place is 0 where it is free, else start (16 bits), length (16) and number (32), most significant first: a host may read them,
 * and free all by zeros (memset), and leaves their writing to the calls. In a directory that calls alone have written the blocks are in the
 * order of their starts and the free places behind them; of one in another order each call tests longer.
 *
 * What drops blocks:
 *   - namco163_write_blocks: those over a CPU page whose page table entry changes, and those over a CPU page that shows the arena page
 *     into which a byte is stored, also where the byte was the same before. PRG-RAM that is shorter than 8 KiB shows more than once in
 *     6000..7FFF, so a store at one address can drop blocks at others;
 *   - namco163_stored: those over a CPU page that shows the arena page of the byte;
 *   - namco163_load_blocks: all.
 * No other call drops a block, and none goes for another reason; a registering at a held start replaces.
 *
 * A directory is out of date, and a block in it may be over other bytes than it was translated from, where the host
 *   - writes by namco163_write or loads by namco163_load or namco163_load_options, which do not see it;
 *   - stores into the arena itself (ROM bytes behind a load, what the PPU writes) without namco163_stored for that byte;
 *   - goes on with another image or arena, as from a save state: then it clears the directory with zeros. */

/* Registers a block. Where the start is held already, length and number become the new ones, in its place; else it goes where its start
 * belongs in the order of the places, and the blocks behind it move up by a place.
 * Answers the refusal number alone: 0, or 2, 8, 13, 14. */
uint64_t namco163_register(uint64_t *directory, size_t places, uint16_t start, uint64_t length, uint32_t number);

/* The block that is held at a start; an address in a block's middle finds none. Answers length and number (namco163_block_length,
 * namco163_block_number), or 0 for none, or refusal 2, 8. It tests the whole directory each time, for refusal 2. */
uint64_t namco163_lookup(const uint64_t *directory, size_t places, uint16_t start);

/* The same without the tests, and never refused: the fast way, for every jump of the translated code. Of a directory that calls alone have
 * written the answer is namco163_lookup's for every start from 4800 on, and 0 below; of any other it is what the first place with that
 * start holds. */
uint64_t namco163_find(const uint64_t *directory, size_t places, uint16_t start);

/* A load (namco163_load_options) that also empties the directory, whatever it held. With 0 for each of the last three it has no option.
 * Answers the refusal number alone: 0, or 1, 2 (not 256 places), 4, 5, 6, 7. */
uint64_t namco163_load_blocks(uint8_t *image, size_t image_len, uint8_t *arena, size_t arena_len, uint64_t *directory, size_t places,
                              uint64_t mapper, uint8_t submapper, uint8_t flags, uint64_t in_database, uint64_t prg_rom, uint64_t prg_ram,
                              uint64_t battery, uint64_t chr, uint64_t chr_ram, uint64_t ciram, uint64_t f800_protects,
                              uint64_t signed_levels, uint64_t plain_sum);

/* A CPU write (namco163_write) that also drops blocks. The answer, image and arena are those of namco163_write; refusal 1, 2 (of the image
 * or of the directory), 7, 8. Which blocks went is not in the answer: their starts find none from now on. */
uint64_t namco163_write_blocks(uint8_t *image, size_t image_len, uint8_t *arena, size_t arena_len, uint64_t *directory, size_t places,
                               uint16_t addr, uint8_t val);

/* To be called for a byte that the host has stored into the arena itself: drops the blocks over its arena page, which is all 1,024 bytes
 * around it, so one call for each page is enough. A byte behind the arena's length drops nothing. Answers the refusal number alone: 0, or
 * 1, 2 (of the image or of the directory). */
uint64_t namco163_stored(const uint8_t *image, size_t image_len, uint64_t *directory, size_t places, uint64_t offset);

/* ---- Parts of an answer. In a refused answer each is 0, but for the refusal. */

/* Any call: 0 for accepted, else one of namco163_refusals. */
static inline unsigned namco163_refusal(uint64_t answer) { return (unsigned)(answer & 0xFF); }

/* A read: the byte. */
static inline uint8_t namco163_byte(uint64_t answer) { return (uint8_t)(answer >> 8 & 0xFF); }

/* A write (with a directory or without) or a preview: bit k is set if CHR entry k (PPU addresses 400 * k on) changed. */
static inline uint16_t namco163_chr_mask(uint64_t answer) { return (uint16_t)(answer >> 8 & 0xFFFF); }

/* A write or a preview: bit k is set if PRG entry k (CPU addresses 400 * k on) changed. Bits 0..23, the addresses below 6000, are never
 * set. */
static inline uint64_t namco163_prg_mask(uint64_t answer) { return answer >> 24 << 24; }

/* A run: how many samples it made. */
static inline uint32_t namco163_samples(uint64_t answer) { return (uint32_t)(answer >> 8 & 0xFFFFFF); }

/* A run: the clock of this run, from 1, on which the IRQ line rose, or 0. A run has at most one. */
static inline uint32_t namco163_rise(uint64_t answer) { return (uint32_t)(answer >> 32); }

/* A lookup or a find: the length of the block, 1..4,096, or 0 for none. */
static inline uint32_t namco163_block_length(uint64_t answer) { return (uint32_t)(answer >> 8 & 0xFFFFFF); }

/* A lookup or a find: the number that the block was registered with, where its length is not 0. */
static inline uint32_t namco163_block_number(uint64_t answer) { return (uint32_t)(answer >> 32); }

/* What a refusal number means, in words. */
static inline const char *namco163_refusal_text(unsigned refusal) {
    static const char *const texts[] = {
        "accepted", "the image is neither 307 nor 308 bytes long, or 307 where an option or the PRG-RAM wants the 308th",
        "the image holds a field out of range or an unused option bit, or the directory is unfit",
        "the reset kind is neither 0 nor 1",
        "the mapper is neither 19 nor 210", "a size is above its limit", "mapper 19 needs a battery reserve of 1 byte or more",
        "the arena's length is not that of the sizes", "the CPU address is below $4800", "the fill is longer than its region",
        "the run is longer than 29781 clocks", "there is no room for the run's samples", "no battery is in use",
        "an address of the block is outside $6000..$FFFF, or its length outside 1..4096", "all 256 places of the directory are held",
    };
    return refusal < sizeof texts / sizeof texts[0] ? texts[refusal] : "no refusal has this number";
}

/* ---- Samples */

/* How many samples a run of so many clocks makes at most: room for these is never refused. */
static inline size_t namco163_most_samples(uint32_t clocks) {
    return ((size_t)clocks + NAMCO163_UPDATE_CLOCKS - 1) / NAMCO163_UPDATE_CLOCKS;
}

/* The sample whose four bytes (a 32-bit IEEE float, most significant byte first) start here; sample i of a run starts at byte 4 * i.
 * By the cartridge's options it lies in
 *   0..0.3825         without signed_levels and plain_sum
 *   0..3.06           with plain_sum
 *   -0.012..0.0105    with signed_levels
 *   -0.096..0.084     with both
 * where each end is its nearest float; and it is never negative zero. */
static inline float namco163_sample(const uint8_t *bytes) {
    uint32_t bits = (uint32_t)bytes[0] << 24 | (uint32_t)bytes[1] << 16 | (uint32_t)bytes[2] << 8 | (uint32_t)bytes[3];
    float sample;
    memcpy(&sample, &bits, sizeof sample);
    return sample;
}

/* ---- The arena */

/* Where each region starts in the arena, and the arena's length, in bytes. The order is: a page that unmapped addresses show, PRG-ROM, CHR
 * if it is ROM, PRG-RAM, battery reserve, CHR if it is RAM, CIRAM (the nametables). A host writes ROM bytes at prg_rom and chr. What a
 * battery keeps is the PRG-RAM, at prg_ram, and of a 163 also the 128 bytes of sound RAM, image bytes 23 on, which go back by writes to
 * F800 and 4800 (the former may protect work RAM, see namco163_load_options). */
struct namco163_arena {
    size_t prg_rom, chr, prg_ram, battery, ciram, length;
};

/* A size in bytes rounded up to whole pages. */
static inline size_t namco163_whole_pages(uint64_t size) {
    return (size_t)((size + NAMCO163_PAGE_SIZE - 1) / NAMCO163_PAGE_SIZE * NAMCO163_PAGE_SIZE);
}

/* The arena of these sizes, which are those of namco163_load. All 0 if a size is above its limit. */
static inline struct namco163_arena namco163_arena_of(uint64_t prg_rom, uint64_t prg_ram, uint64_t battery, uint64_t chr, uint64_t chr_ram,
                                                      uint64_t ciram) {
    struct namco163_arena at = {0, 0, 0, 0, 0, 0};
    if (prg_rom > NAMCO163_PRG_ROM_LIMIT || prg_ram > NAMCO163_PRG_RAM_LIMIT || battery > NAMCO163_BATTERY_LIMIT ||
        chr > NAMCO163_CHR_LIMIT || ciram > NAMCO163_CIRAM_LIMIT)
        return at;
    at.prg_rom = NAMCO163_PAGE_SIZE;
    at.prg_ram = at.prg_rom + namco163_whole_pages(prg_rom) + (chr_ram ? 0 : namco163_whole_pages(chr));
    at.battery = at.prg_ram + namco163_whole_pages(prg_ram);
    at.ciram = at.battery + namco163_whole_pages(battery) + (chr_ram ? namco163_whole_pages(chr) : 0);
    at.chr = (chr_ram ? at.ciram : at.prg_ram) - namco163_whole_pages(chr);
    at.length = at.ciram + namco163_whole_pages(ciram ? ciram : 2048);
    return at;
}

/* The arena's length alone, which does not depend on whether CHR is ROM or RAM. 0 if a size is above its limit; at most 923,648. */
static inline size_t namco163_arena_length(uint64_t prg_rom, uint64_t prg_ram, uint64_t battery, uint64_t chr, uint64_t ciram) {
    return namco163_arena_of(prg_rom, prg_ram, battery, chr, 0, ciram).length;
}

/* ---- What an image shows. Each takes an image that a call has written. */

/* A page table entry: the arena's byte that the page's first address shows, and if stores reach it. An unmapped page shows byte 0 on. */
struct namco163_page {
    size_t offset;
    int writable;
};

/* Entry k of both tables, PRG before CHR: 11 bits each from image byte 193 on, the page's number and then the flag. */
static inline struct namco163_page namco163_entry(const uint8_t *image, unsigned k) {
    unsigned bit = 11 * k;
    const uint8_t *at = image + 193 + bit / 8;
    uint32_t entry = ((uint32_t)at[0] << 16 | (uint32_t)at[1] << 8 | (uint32_t)at[2]) >> (13 - bit % 8) & 0x7FF;
    struct namco163_page page;
    page.offset = (size_t)(entry >> 1) * NAMCO163_PAGE_SIZE;
    page.writable = (int)(entry & 1);
    return page;
}

/* What the CPU address shows: byte offset + addr % 1024 of the arena. (The CPU reaches its registers at 4800..5FFF by calls alone.) */
static inline struct namco163_page namco163_prg_entry(const uint8_t *image, uint16_t addr) {
    return namco163_entry(image, addr / NAMCO163_PAGE_SIZE);
}

/* What the PPU address (taken modulo 4000) shows: byte offset + addr % 1024 of the arena. The PPU reads and, where writable, stores there
 * itself. */
static inline struct namco163_page namco163_chr_entry(const uint8_t *image, uint16_t addr) {
    return namco163_entry(image, NAMCO163_PRG_PAGES + addr / NAMCO163_PAGE_SIZE % NAMCO163_CHR_PAGES);
}

/* The options of an image of so many bytes: NAMCO163_F800_PROTECTS, NAMCO163_SIGNED_LEVELS, NAMCO163_PLAIN_SUM, together or none (0). An
 * image of 307 bytes has none. */
static inline unsigned namco163_options(const uint8_t *image, size_t image_len) {
    return image_len == NAMCO163_OPTIONS_IMAGE_SIZE ? image[NAMCO163_IMAGE_SIZE] & 0xE0u : 0;
}

/* 1 while the board holds the IRQ line up, else 0. */
static inline int namco163_irq_line(const uint8_t *image) { return image[2] >> 7; }

/* The board's type, one of namco163_boards. Where it is detected, writes can change it. */
static inline unsigned namco163_board(const uint8_t *image) { return image[3] >> 3 & 3; }

/* 1 if no write can change the type any more, else 0. A type that the load gave and that is not detected stays for good. Of those that are
 * detected only a 340 stays, once 6000..7FFF was written, and until the next reset; then it is detected anew. */
static inline int namco163_settled(const uint8_t *image) {
    int detecting = image[6] >> 2 & 1, written = image[7] >> 6 & 1;
    return !detecting || (written && namco163_board(image) == NAMCO163_340);
}

#ifdef __cplusplus
}
#endif

#endif
