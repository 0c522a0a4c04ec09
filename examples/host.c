/* A host in C: opens a card and runs two rounds of frames. In the first a referee asks for a switch, which takes hold before the second.
   It prints a checksum of the last picture of each round and how the switches stand then, as a front end shows them, and of the whole
   the channels that were clipped and the samples that blurs took on the way, and the totals of the last picture's middle. All that
   happens is stored as a run sheet, which is then played on another station of that card: it shows the same picture at the end. */
#include <stdio.h>
#include <stdlib.h>
#include <string.h>
#include "hedgemallow.h"

enum { WIDTH = 64, HEIGHT = 48, COUNT = WIDTH * HEIGHT, ROUND = 4, FRAMES = 6 };
/* The numbers of the events on a sheet that are stored here. */
enum { FRAME = 0, STEP = 3, ASK = 4, COMMIT = 5 };

/* Persistence 0.5 over 3 frames, LUT preset 1 at 0.75, scanlines 0.5, all on. */
static const uint8_t card[] = {0x13, 0x49, 0xF8, 0x00, 0x00, 0x00, 0x1A, 0xC9, 0xFA,
                               0x00, 0x00, 0x05, 0x4F, 0xC0, 0x00, 0x00, 0x00};
/* Left, top, width, height. */
static const uint16_t middle[] = {16, 12, 32, 24};
/* By the kinds' numbers. */
static const char *const names[] = {"", "NTSC", "bloom", "gradient", "persistence", "LUT", "curvature", "colour", "CRT", "vignette",
                                    "scanlines"};
/* The card has one persistence pass. */
static uint32_t frame[COUNT], history[HEDGEMALLOW_DEPTH * COUNT], ints[COUNT];
static float floats[HEDGEMALLOW_FLOATS(WIDTH, HEIGHT)];
/* The card has no colour, so no word of a curve is read: its length is 0. */
static const float curve[1];
/* The sheet: its event count, four bytes at most for each frame beside three for each pixel, and a few for the other events. */
static uint8_t sheet[2 + FRAMES * (4 + 3 * COUNT) + 8];
static size_t bits = 16, events; /* what is written of it: the count comes last */

/* What a call reports. A refusal ends the host, which has nothing to show then. */
static uint32_t must(const char *what, uint32_t answer) {
    if (answer < HEDGEMALLOW_REFUSED) return answer;
    fprintf(stderr, "%s is refused: %u\n", what, (unsigned)(answer - HEDGEMALLOW_REFUSED));
    exit(1);
}

static void paint(uint32_t number) {
    for (uint32_t y = 0; y < HEIGHT; y++)
        for (uint32_t x = 0; x < WIDTH; x++)
            frame[y * WIDTH + x] = (x * 4) << 16 | (y * 5) << 8 | ((number * 40 + x + y) & 255);
}

/* A field of the sheet, most significant bit first. */
static void put(uint32_t value, int width) {
    while (width--) {
        sheet[bits / 8] |= (uint8_t)((value >> width & 1) << (7 - bits % 8));
        bits++;
    }
}

/* An event: its number, and what else it has is put behind it. */
static void store(uint32_t number) {
    put(number, 3);
    events++;
    sheet[0] = (uint8_t)(events >> 8);
    sheet[1] = (uint8_t)events;
}

/* The frame as it is painted. */
static void store_frame(void) {
    store(FRAME);
    put(WIDTH, 11);
    put(HEIGHT, 11);
    for (size_t i = 0; i < COUNT; i++) put(frame[i], 24);
}

/* FNV-1a over the words' bytes, least significant first. */
static uint32_t checksum(void) {
    uint32_t sum = 2166136261u;
    for (size_t i = 0; i < COUNT; i++)
        for (int shift = 0; shift < 32; shift += 8)
            sum = (sum ^ (frame[i] >> shift & 255)) * 16777619u;
    return sum;
}

/* The passes of the chain, on or off, the LUT's preset, and the switch that is asked for, which stands in the state: nothing is changed. */
static void show(const uint8_t *state) {
    printf("switches:");
    for (uint8_t kind = HEDGEMALLOW_NTSC; kind <= HEDGEMALLOW_SCANLINES; kind++) {
        uint32_t on = hedgemallow_enabled(state, kind);
        if (on < HEDGEMALLOW_REFUSED) printf(" %s %s", names[kind], on ? "on" : "off");
    }
    uint32_t preset = hedgemallow_preset(state);
    if (preset < HEDGEMALLOW_REFUSED) printf(", preset %u", (unsigned)preset);
    if (state[132] != 0) printf(", asked for: %s %s", names[state[132]], state[133] ? "on" : "off");
    printf("\n");
}

/* The sheet on a station of its own, which has to end as the first one did. */
static void look_again(const uint8_t *state, size_t words) {
    uint8_t other[HEDGEMALLOW_STATE];
    uint32_t reports[2];
    memset(frame, 0, sizeof frame);
    must("the card", hedgemallow_open(card, sizeof card, other));
    must("the sheet", hedgemallow_play(other, sheet, (bits + 7) / 8, frame, COUNT, history, words, floats,
                                       HEDGEMALLOW_FLOATS(WIDTH, HEIGHT), ints, COUNT, curve, 0, reports));
    printf("sheet: %u bytes, accepted %u, refused %u, picture %08X, %s state\n", (unsigned)((bits + 7) / 8), (unsigned)reports[0],
           (unsigned)reports[1], (unsigned)checksum(), memcmp(other, state, sizeof other) ? "another" : "the same");
}

int main(void) {
    uint8_t state[HEDGEMALLOW_STATE];
    must("the card", hedgemallow_open(card, sizeof card, state));
    size_t words = must("the depth", hedgemallow_depth(state)) * (size_t)COUNT;
    uint32_t preset = 0, reports[2], clipped = 0, samples = 0;
    for (uint32_t number = 0; number < FRAMES; number++) {
        /* Between the rounds what was asked for takes hold. */
        if (number == ROUND) {
            printf("first round: frames %d, picture %08X\n", ROUND, (unsigned)checksum());
            show(state);
            must("the commit", hedgemallow_commit(state));
            store(COMMIT);
        }
        paint(number);
        /* During play: the pictures of this round keep their scanlines. */
        if (number == 2) {
            must("what is asked for", hedgemallow_ask(state, HEDGEMALLOW_SCANLINES, 0));
            store(ASK);
            put(HEDGEMALLOW_SCANLINES, 4);
            put(0, 1);
        }
        if (number == 3) {
            preset = must("the step", hedgemallow_cycle_lut(state));
            store(STEP);
        }
        store_frame();
        must("the frame", hedgemallow_apply(state, frame, COUNT, WIDTH, HEIGHT, history, words, floats,
                                            HEDGEMALLOW_FLOATS(WIDTH, HEIGHT), ints, COUNT, curve, 0, reports));
        clipped += reports[0];
        samples += reports[1];
    }
    uint8_t again[HEDGEMALLOW_CARD];
    uint32_t length = must("the writing", hedgemallow_write(state, again, sizeof again));
    uint64_t totals[3];
    uint32_t read[1];
    must("the area", hedgemallow_areas(frame, COUNT, WIDTH, HEIGHT, middle, 4, totals, 3, read));
    printf("frames %d, preset %u, card %u bytes, picture %08X, clipped %u, samples %u\n", FRAMES, (unsigned)preset, (unsigned)length,
           (unsigned)checksum(), (unsigned)clipped, (unsigned)samples);
    printf("middle: %u words, red %lu, green %lu, blue %lu\n", (unsigned)read[0], (unsigned long)totals[0], (unsigned long)totals[1],
           (unsigned long)totals[2]);
    show(state);
    look_again(state, words);
    return 0;
}
