/* SPDX-License-Identifier: MIT OR Apache-2.0 */
/* A small host: loads a cartridge with a Namco 163, plays "Frere Jacques" as a round in three voices over a bass, one step of the tune for
 * every few interrupts of the board, switches banks at each bar, says what happened, and writes the sound to a WAV file and the page tables
 * of each bar to a picture.
 *
 *   tune FILE.wav FILE.svg */
#include <stdio.h>
#include <stdlib.h>

#include "namco163.h"

/* The cartridge: 32 KiB of PRG-ROM in four banks, 8 KiB of CHR-ROM in eight pages. */
enum { MAPPER = 19, PRG_ROM = 32768, PRG_RAM = 8192, BATTERY = 128, CHR = 8192, CHR_IS_ROM = 0, CIRAM = 2048, BANK = 8192 };

/* A frame of the NES, the clocks from one interrupt to the next, is run in twenty pieces, as a host runs blocks of CPU code. */
enum { CPU_CLOCK = 1789773, FRAME = 29780, PIECE = FRAME / 20 };

/* Registers, by CPU address. */
enum {
    SOUND_DATA = 0x4800, COUNTER_LOW = 0x5000, COUNTER_HIGH = 0x5800, CHR_SLOT = 0x8000, NAMETABLE_SLOT = 0xC000, SLOT_STEP = 0x800,
    PRG_8000 = 0xE000, SOUND_ADDRESS = 0xF800
};

/* The upper four sound channels: voices on 7, 6, 5 and the bass on 4. A wave has 32 samples. */
enum { CHANNELS = 4, VOICES = 3, WAVE = 32 };

/* The tune counts in half beats; eight of them are a bar, and voices enter two bars apart. */
enum { STEP_FRAMES = 8, BAR = 8, TUNE_STEPS = 64, ENTRY = 16, STEPS = TUNE_STEPS + (VOICES - 1) * ENTRY, LAST_FRAMES = 20 };

/* The picture has a column for the load and one for each bar, and a row for each window: five of 8 KiB from 6000 on for the CPU, twelve of
 * 1 KiB from 0000 on for the PPU. */
enum { COLUMNS = 1 + STEPS / BAR, PRG_WINDOWS = 5, CHR_WINDOWS = 12, WINDOWS = PRG_WINDOWS + CHR_WINDOWS, CELL = 46, ROW = 18, LABEL = 84 };

struct note {
    double hz;
    int steps;
};

static const double G3 = 196.00, C4 = 261.63, D4 = 293.66, E4 = 329.63, F4 = 349.23, G4 = 392.00, A4 = 440.00, C3 = 130.81;

struct host {
    uint8_t image[NAMCO163_IMAGE_SIZE];
    uint8_t *arena;
    struct namco163_arena at;
    uint64_t clocks, rise, samples; /* run so far; the clock of the last interrupt; made so far */
    int volume[CHANNELS];
    FILE *wav;
    double level; /* the sound's mean, which is taken away */
    unsigned shown[COLUMNS][WINDOWS]; /* the arena's page that each window began with */
};

static void stop(const char *what, const char *why) {
    fprintf(stderr, "tune: %s: %s\n", what, why);
    exit(1);
}

/* The answer of a call; the program ends where it was refused. */
static uint64_t accepted(const char *call, uint64_t answer) {
    if (namco163_refusal(answer) != NAMCO163_ACCEPTED) stop(call, namco163_refusal_text(namco163_refusal(answer)));
    return answer;
}

static uint64_t cpu_write(struct host *h, unsigned addr, unsigned val) {
    return accepted("write", namco163_write(h->image, sizeof h->image, h->arena, h->at.length, (uint16_t)addr, (uint8_t)val));
}

static unsigned cpu_read(struct host *h, unsigned addr) {
    return namco163_byte(accepted("read", namco163_read(h->image, sizeof h->image, h->arena, h->at.length, (uint16_t)addr)));
}

/* ---- The WAV file */

/* A number of so many bytes, least significant first. */
static void put(FILE *f, uint32_t value, int bytes) {
    for (int i = 0; i < bytes; i++) putc((int)(value >> 8 * i & 0xFF), f);
}

/* The header of one channel of 16 bits; with 0 samples first, and again over it once the samples are written. */
static void put_header(FILE *f, uint32_t samples) {
    const uint32_t rate = (CPU_CLOCK + NAMCO163_UPDATE_CLOCKS / 2) / NAMCO163_UPDATE_CLOCKS;
    rewind(f);
    fputs("RIFF", f);
    put(f, 36 + 2 * samples, 4);
    fputs("WAVEfmt ", f);
    put(f, 16, 4);
    put(f, 1, 2); /* whole numbers */
    put(f, 1, 2); /* one channel */
    put(f, rate, 4);
    put(f, 2 * rate, 4);
    put(f, 2, 2);
    put(f, 16, 2);
    fputs("data", f);
    put(f, 2 * samples, 4);
}

/* Samples are 0 to 0.3825. A WAV file's are around 0, so their mean is followed slowly and taken away; the largest difference is full
 * scale. */
static void put_samples(struct host *h, const uint8_t *bytes, uint32_t samples) {
    for (uint32_t i = 0; i < samples; i++) {
        double x = namco163_sample(bytes + NAMCO163_SAMPLE_SIZE * i);
        h->level += (x - h->level) * 0.0005;
        put(h->wav, (uint32_t)(int32_t)((x - h->level) / 0.3825 * 32767), 2);
    }
    h->samples += samples;
}

/* ---- The cartridge */

/* Loads it and puts its ROM into the arena: each byte of PRG-ROM bank b is $B0 + b, each byte of CHR page p is $C0 + p. */
static void load(struct host *h) {
    h->at = namco163_arena_of(PRG_ROM, PRG_RAM, BATTERY, CHR, CHR_IS_ROM, CIRAM);
    if (h->at.length == 0) stop("load", namco163_refusal_text(NAMCO163_SIZE));
    h->arena = (uint8_t *)malloc(h->at.length);
    if (!h->arena) stop("load", "no memory for the arena");
    accepted("load", namco163_load(h->image, sizeof h->image, h->arena, h->at.length, MAPPER, 0, 0, 1, PRG_ROM, PRG_RAM, BATTERY, CHR,
                                   CHR_IS_ROM, CIRAM));
    for (int i = 0; i < PRG_ROM; i++) h->arena[h->at.prg_rom + (size_t)i] = (uint8_t)(0xB0 + i / BANK);
    for (int i = 0; i < CHR; i++) h->arena[h->at.chr + (size_t)i] = (uint8_t)(0xC0 + i / (int)NAMCO163_PAGE_SIZE);
    printf("Loaded a Namco 163 (mapper 19): PRG-ROM %d bytes, CHR-ROM %d bytes, an arena of %lu bytes.\n", PRG_ROM, CHR,
           (unsigned long)h->at.length);
}

/* The addresses whose pages a mask names, neighbours joined. */
static void print_pages(const char *table, uint64_t mask, unsigned pages) {
    for (unsigned k = 0; k < pages; k++) {
        unsigned first = k;
        while (k < pages && (mask >> k & 1)) k++;
        if (k > first) printf(" %s $%04X-$%04X", table, first * NAMCO163_PAGE_SIZE, k * NAMCO163_PAGE_SIZE - 1);
    }
}

/* A write that switches banks, and which pages it changed. */
static void switch_bank(struct host *h, unsigned addr, unsigned val) {
    uint64_t answer = cpu_write(h, addr, val);
    printf("    $%04X=$%02X changed", addr, val);
    if (!namco163_prg_mask(answer) && !namco163_chr_mask(answer)) printf(" nothing");
    print_pages("PRG", namco163_prg_mask(answer), NAMCO163_PRG_PAGES);
    print_pages("CHR", namco163_chr_mask(answer), NAMCO163_CHR_PAGES);
}

/* Each bar shows another PRG-ROM bank at $8000 and another CHR page in one of the first eight PPU windows. */
static void switch_banks(struct host *h, unsigned bar) {
    unsigned window = bar % 8, addr = window * NAMCO163_PAGE_SIZE;
    switch_bank(h, PRG_8000, bar % 4);
    printf("; the CPU reads $%02X at $8000\n", cpu_read(h, 0x8000));
    switch_bank(h, CHR_SLOT + SLOT_STEP * window, (bar + bar / 8 + 1) % 8);
    printf("; the PPU sees $%02X at $%04X\n", h->arena[namco163_chr_entry(h->image, (uint16_t)addr).offset], addr);
}

/* ---- The picture */

/* The CPU or PPU address that a window starts at. */
static unsigned window_start(unsigned window) {
    return window < PRG_WINDOWS ? 0x6000 + window * BANK : (window - PRG_WINDOWS) * NAMCO163_PAGE_SIZE;
}

/* Notes the page that each window begins with. */
static void note_pages(struct host *h, unsigned column) {
    for (unsigned i = 0; i < WINDOWS; i++) {
        uint16_t addr = (uint16_t)window_start(i);
        struct namco163_page page = i < PRG_WINDOWS ? namco163_prg_entry(h->image, addr) : namco163_chr_entry(h->image, addr);
        h->shown[column][i] = (unsigned)(page.offset / NAMCO163_PAGE_SIZE);
    }
}

/* A cell: the page's number, and in colour where it is another than in the column before. */
static void put_cell(FILE *f, const struct host *h, unsigned column, unsigned window) {
    unsigned x = LABEL + CELL * column, y = ROW * (window + 1), page = h->shown[column][window];
    int changed = column > 0 && page != h->shown[column - 1][window];
    const char *fill = changed ? "#f4a259" : "#e4e8ec";
    fprintf(f, "<rect x=\"%u\" y=\"%u\" width=\"%d\" height=\"%d\" fill=\"%s\"/>", x, y, CELL - 2, ROW - 2, fill);
    fprintf(f, "<text x=\"%u\" y=\"%u\" text-anchor=\"middle\">%u</text>\n", x + CELL / 2 - 1, y + ROW - 6, page);
}

/* The page map: a column for each bar, a row for each window. */
static void put_picture(FILE *f, const struct host *h) {
    fprintf(f, "<svg xmlns=\"http://www.w3.org/2000/svg\" width=\"%d\" height=\"%d\" font-family=\"monospace\" font-size=\"11\">\n",
            LABEL + CELL * COLUMNS, ROW * (WINDOWS + 1));
    fprintf(f, "<rect width=\"100%%\" height=\"100%%\" fill=\"#ffffff\"/>\n");
    for (unsigned column = 0; column < COLUMNS; column++) {
        fprintf(f, "<text x=\"%u\" y=\"12\" text-anchor=\"middle\">", LABEL + CELL * column + CELL / 2 - 1);
        if (column > 0) fprintf(f, "bar %u</text>\n", column);
        else fprintf(f, "start</text>\n");
    }
    for (unsigned i = 0; i < WINDOWS; i++) {
        fprintf(f, "<text x=\"4\" y=\"%u\">%s $%04X</text>\n", ROW * (i + 1) + ROW - 6, i < PRG_WINDOWS ? "CPU" : "PPU", window_start(i));
        for (unsigned column = 0; column < COLUMNS; column++) put_cell(f, h, column, i);
    }
    fprintf(f, "</svg>\n");
}

/* ---- The sound */

/* Writes one byte of sound RAM. */
static void put_sound(struct host *h, unsigned at, unsigned val) {
    cpu_write(h, SOUND_ADDRESS, at);
    cpu_write(h, SOUND_DATA, val);
}

/* The first sound register of voice 0, 1, 2 or of the bass, 3. */
static unsigned registers(int voice) { return 0x78u - 8u * (unsigned)voice; }

/* A pulse for each channel, high for 16, 8, 4 and 16 of its 32 samples. Two samples are a byte; on this board 7 is the highest and 8 the
 * lowest. */
static void put_waves(struct host *h) {
    static const int high[CHANNELS] = {16, 8, 4, 16};
    for (int voice = 0; voice < CHANNELS; voice++) {
        for (int i = 0; i < WAVE; i += 2) put_sound(h, (unsigned)(voice * WAVE + i) / 2, i < high[voice] ? 0x77 : 0x88);
        put_sound(h, registers(voice) + 6, (unsigned)(voice * WAVE));
    }
}

/* Volume in the low bits; at the highest channel the same byte says how many channels play. */
static void set_volume(struct host *h, int voice, int volume) {
    h->volume[voice] = volume;
    put_sound(h, registers(voice) + 7, (CHANNELS - 1) * 16u + (unsigned)volume);
}

/* A channel moves on every CHANNELS * 15 clocks, by frequency / 65536 samples of its wave. */
static void start_note(struct host *h, int voice, double hz) {
    unsigned frequency = (unsigned)(hz * WAVE * 65536 * CHANNELS * NAMCO163_UPDATE_CLOCKS / CPU_CLOCK + 0.5);
    put_sound(h, registers(voice), frequency & 0xFF);
    put_sound(h, registers(voice) + 2, frequency >> 8 & 0xFF);
    put_sound(h, registers(voice) + 4, (256 - WAVE) | frequency >> 16);
    set_volume(h, voice, 15);
}

/* What the tune starts at this step, or 0 while a note lasts or the tune is over. */
static double note_at(int step) {
    const struct note tune[] = {
        {C4, 2}, {D4, 2}, {E4, 2}, {C4, 2}, {C4, 2}, {D4, 2}, {E4, 2}, {C4, 2}, {E4, 2}, {F4, 2}, {G4, 4},
        {E4, 2}, {F4, 2}, {G4, 4}, {G4, 1}, {A4, 1}, {G4, 1}, {F4, 1}, {E4, 2}, {C4, 2}, {G4, 1}, {A4, 1},
        {G4, 1}, {F4, 1}, {E4, 2}, {C4, 2}, {C4, 2}, {G3, 2}, {C4, 4}, {C4, 2}, {G3, 2}, {C4, 4},
    };
    int starts = 0;
    for (size_t i = 0; i < sizeof tune / sizeof tune[0]; i++) {
        if (starts == step) return tune[i].hz;
        starts += tune[i].steps;
    }
    return 0;
}

/* Starts the notes of a step. The second voice is an octave higher, and the bass has a note for every other beat. */
static void play_step(struct host *h, int step) {
    for (int voice = 0; voice < VOICES; voice++) {
        double hz = note_at(step - voice * ENTRY);
        if (hz > 0) start_note(h, voice, voice == 1 ? 2 * hz : hz);
    }
    if (step % 4 == 0) start_note(h, VOICES, C3);
}

/* Notes fade, one step of volume for every third frame; behind the tune, for every frame. */
static void fade(struct host *h, int frame) {
    for (int voice = 0; voice < CHANNELS; voice++)
        if (h->volume[voice] > 0 && (frame % 3 == 0 || frame >= STEPS * STEP_FRAMES)) set_volume(h, voice, h->volume[voice] - 1);
}

/* ---- Interrupts */

/* Sets the counter so that the line rises in a frame's clocks: it counts up to 7FFF. Writing it also takes the line down. */
static void arm_counter(struct host *h) {
    unsigned counter = 0x7FFF - FRAME;
    cpu_write(h, COUNTER_LOW, counter & 0xFF);
    cpu_write(h, COUNTER_HIGH, 0x80 | counter >> 8);
}

/* Runs pieces until the board raises its interrupt line. */
static void run_to_interrupt(struct host *h) {
    uint8_t samples[(PIECE / NAMCO163_UPDATE_CLOCKS + 1) * NAMCO163_SAMPLE_SIZE];
    uint64_t start = h->clocks;
    uint32_t rise = 0;
    while (!rise && h->clocks < start + 2 * FRAME) {
        uint64_t answer = accepted("run", namco163_run(h->image, sizeof h->image, samples, sizeof samples, PIECE));
        put_samples(h, samples, namco163_samples(answer));
        rise = namco163_rise(answer);
        h->rise = h->clocks + rise;
        h->clocks += PIECE;
    }
    if (!rise) stop("run", "no interrupt in two frames");
}

/* The interrupt handler: acknowledges by setting the counter anew, then plays on. */
static void handle_interrupt(struct host *h, int frame) {
    int step = frame / STEP_FRAMES;
    arm_counter(h);
    fade(h, frame);
    if (frame % STEP_FRAMES != 0 || step >= STEPS) return;
    play_step(h, step);
    if (step % BAR != 0) return;
    printf("Bar %2d: interrupt %3d at clock %8lu, %7lu samples so far", step / BAR + 1, frame + 1, (unsigned long)h->rise,
           (unsigned long)h->samples);
    if (step % ENTRY == 0 && step / ENTRY < VOICES) printf(", voice %d enters", step / ENTRY + 1);
    printf("\n");
    switch_banks(h, (unsigned)(step / BAR) + 1);
    note_pages(h, (unsigned)(step / BAR) + 1);
}

/* A file to be written, and a file that was. */
static FILE *opened(const char *name) {
    FILE *f = fopen(name, "wb");
    if (!f) stop(name, "cannot be written");
    return f;
}

static void closed(FILE *f, const char *name) {
    if (ferror(f) || fclose(f) != 0) stop(name, "could not be written whole");
}

int main(int argc, char **argv) {
    static struct host h;
    const int frames = STEPS * STEP_FRAMES + LAST_FRAMES;
    FILE *picture;
    if (argc != 3) stop("usage", "tune FILE.wav FILE.svg");
    h.wav = opened(argv[1]);
    picture = opened(argv[2]);
    put_header(h.wav, 0);
    load(&h);
    printf("Each write answers which addresses show other memory than before. Console RAM for the nametables:\n");
    for (unsigned i = 0; i < 4; i++) {
        switch_bank(&h, NAMETABLE_SLOT + SLOT_STEP * i, 0xE0 + i / 2);
        printf("\n");
    }
    note_pages(&h, 0);
    put_waves(&h);
    arm_counter(&h);
    printf("Playing \"Frere Jacques\" as a round on sound channels 7, 6 and 5, with a bass on 4. The board's counter raises an\n"
           "interrupt every %d clocks, %.1f times a second; each %dth plays a step of the tune, and each bar switches banks.\n",
           FRAME, (double)CPU_CLOCK / FRAME, STEP_FRAMES);
    for (int frame = 0; frame < frames; frame++) {
        run_to_interrupt(&h);
        handle_interrupt(&h, frame);
    }
    put_header(h.wav, (uint32_t)h.samples);
    closed(h.wav, argv[1]);
    put_picture(picture, &h);
    closed(picture, argv[2]);
    free(h.arena);
    printf("%d interrupts in %lu clocks, the last at clock %lu; %lu samples, one every 15 clocks.\n", frames, (unsigned long)h.clocks,
           (unsigned long)h.rise, (unsigned long)h.samples);
    printf("Wrote %s: %.1f seconds of sound.\n", argv[1], (double)h.clocks / CPU_CLOCK);
    printf("Wrote %s: which page of the arena each window showed, bar by bar.\n", argv[2]);
    return 0;
}
