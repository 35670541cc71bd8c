/* SPDX-License-Identifier: MIT OR Apache-2.0 */
/* A small host of a recompiler: keeps a directory of the blocks that it has translated, writes as a game does, and says which blocks have
 * to be translated anew, and why.
 *
 *   blocks */
#include <stdio.h>
#include <stdlib.h>

#include "namco163.h"

/* The cartridge: 32 KiB of PRG-ROM in four banks, and 3 KiB of PRG-RAM, which its window of 8 KiB at 6000 shows more than twice. */
enum { MAPPER = 19, PRG_ROM = 32768, PRG_RAM = 3072, BATTERY = 128, CHR = 8192, CHR_IS_ROM = 0, CIRAM = 2048, BANK = 8192 };

/* The register that says which bank 8000..9FFF shows. */
enum { PRG_8000 = 0xE000 };

struct block {
    uint16_t start;
    uint16_t length;
};

/* What a game might run: in PRG-RAM, at 8000, across the end of that window, at A000, and in the last bank. */
static const struct block code[] = {
    {0x6000, 48}, {0x6400, 16}, {0x6800, 16}, {0x7010, 32}, {0x7C00, 8},
    {0x8000, 96}, {0x9FF0, 32}, {0xA100, 64}, {0xE000, 4096}, {0xFFF0, 16},
};
enum { BLOCKS = sizeof code / sizeof code[0] };

struct host {
    uint8_t image[NAMCO163_IMAGE_SIZE];
    uint8_t *arena;
    struct namco163_arena at;
    uint64_t directory[NAMCO163_PLACES];
    int held[BLOCKS]; /* whether each was held before the last step */
    uint32_t translations; /* so far; each is a block's number */
};

static void stop(const char *what, const char *why) {
    fprintf(stderr, "blocks: %s: %s\n", what, why);
    exit(1);
}

/* The answer of a call; the program ends where it was refused. */
static uint64_t accepted(const char *call, uint64_t answer) {
    if (namco163_refusal(answer) != NAMCO163_ACCEPTED) stop(call, namco163_refusal_text(namco163_refusal(answer)));
    return answer;
}

static int holds(const struct host *h, unsigned k) {
    return namco163_block_length(namco163_find(h->directory, NAMCO163_PLACES, code[k].start)) != 0;
}

/* Loads it, and puts its ROM into the arena: each byte of PRG-ROM bank b is $B0 + b. No block is held yet, so none is dropped. */
static void load(struct host *h) {
    h->at = namco163_arena_of(PRG_ROM, PRG_RAM, BATTERY, CHR, CHR_IS_ROM, CIRAM);
    h->arena = (uint8_t *)malloc(h->at.length);
    if (!h->arena) stop("load", "no memory for the arena");
    accepted("load", namco163_load_blocks(h->image, sizeof h->image, h->arena, h->at.length, h->directory, NAMCO163_PLACES, MAPPER, 0, 0, 1,
                                          PRG_ROM, PRG_RAM, BATTERY, CHR, CHR_IS_ROM, CIRAM, 0, 0, 0));
    for (int i = 0; i < PRG_ROM; i++) h->arena[h->at.prg_rom + (size_t)i] = (uint8_t)(0xB0 + i / BANK);
    printf("Loaded a Namco 163 (mapper 19): PRG-ROM %d bytes, PRG-RAM %d bytes, an arena of %lu bytes.\n", PRG_ROM, PRG_RAM,
           (unsigned long)h->at.length);
}

/* The game comes to each block: what is not held is translated and registered. */
static void translate(struct host *h) {
    unsigned anew = 0;
    for (unsigned k = 0; k < BLOCKS; k++) {
        if (!holds(h, k)) {
            anew++;
            accepted("register", namco163_register(h->directory, NAMCO163_PLACES, code[k].start, code[k].length, ++h->translations));
        }
        h->held[k] = 1;
    }
    printf("Translated %u of %d blocks; %u translations so far.\n", anew, BLOCKS, (unsigned)h->translations);
}

/* Whether a CPU page under the block has its bit in the mask. */
static int under(const struct block *b, uint64_t mask) {
    unsigned first = b->start / NAMCO163_PAGE_SIZE, last = (b->start + b->length - 1u) / NAMCO163_PAGE_SIZE;
    for (unsigned k = first; k <= last; k++)
        if (mask >> k & 1) return 1;
    return 0;
}

/* Says which blocks went. Those over a changed entry went by it, the others because they show the arena page of the stored byte. */
static void report(struct host *h, uint64_t changed, size_t byte) {
    unsigned gone = 0;
    for (unsigned k = 0; k < BLOCKS; k++) {
        if (!h->held[k] || holds(h, k)) continue;
        h->held[k] = 0;
        gone++;
        printf("    $%04X, %u bytes: ", (unsigned)code[k].start, (unsigned)code[k].length);
        if (under(&code[k], changed)) printf("another page is shown there\n");
        else printf("it shows arena page %lu\n", (unsigned long)(byte / NAMCO163_PAGE_SIZE));
    }
    if (!gone) printf("    no block goes\n");
}

/* A write of the CPU. The byte that it stores, if it stores one, is where the page table says before the write. */
static void cpu_write(struct host *h, unsigned addr, unsigned val, const char *what) {
    struct namco163_page page = namco163_prg_entry(h->image, (uint16_t)addr);
    size_t byte = page.offset + addr % NAMCO163_PAGE_SIZE;
    uint64_t answer = accepted("write", namco163_write_blocks(h->image, sizeof h->image, h->arena, h->at.length, h->directory,
                                                              NAMCO163_PLACES, (uint16_t)addr, (uint8_t)val));
    printf("$%04X=$%02X, %s:", addr, val, what);
    if (page.writable) printf(" stored in arena page %lu,", (unsigned long)(byte / NAMCO163_PAGE_SIZE));
    printf(" changed PRG entries %016llX\n", (unsigned long long)namco163_prg_mask(answer));
    report(h, namco163_prg_mask(answer), byte);
}

/* A byte of PRG-ROM that the host changes itself, as a cheat does: the directory has to be told. */
static void patch(struct host *h, size_t offset, unsigned val) {
    size_t byte = h->at.prg_rom + offset;
    h->arena[byte] = (uint8_t)val;
    accepted("stored", namco163_stored(h->image, sizeof h->image, h->directory, NAMCO163_PLACES, byte));
    printf("PRG-ROM byte %lu=$%02X by the host: stored in arena page %lu\n", (unsigned long)offset, val,
           (unsigned long)(byte / NAMCO163_PAGE_SIZE));
    report(h, 0, byte);
}

int main(void) {
    static struct host h;
    load(&h);
    translate(&h);
    cpu_write(&h, PRG_8000, 1, "bank 1 at $8000");
    cpu_write(&h, PRG_8000, 5, "bank 5, which is bank 1 of four");
    cpu_write(&h, 0x6400, 0x55, "PRG-RAM");
    translate(&h);
    cpu_write(&h, 0x63FF, 0x00, "PRG-RAM, the byte that was there");
    cpu_write(&h, 0xC000, 0xE0, "a nametable, which the CPU does not see");
    patch(&h, 3 * BANK, 0xEA);
    patch(&h, 2 * BANK, 0xEA);
    translate(&h);
    free(h.arena);
    return 0;
}
