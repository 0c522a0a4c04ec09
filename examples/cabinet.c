/* A host in C for a cabinet: draws a small picture as a console has it, a number for each pixel, and shows it under a card, each pixel
   enlarged to three by three. It writes what is shown as binary PPM, and prints its size, what the frame reported and a checksum. */
#include <stdio.h>
#include <stdlib.h>
#include "hedgemallow.h"

enum { WIDTH = 85, HEIGHT = 80, WIDE = 3 * WIDTH, HIGH = 3 * HEIGHT, COUNT = WIDE * HIGH };

/* The number of a colour: two bits for each of red, green and blue. */
#define NUMBER(red, green, blue) (16 * (red) + 4 * (green) + (blue))

/* The figure, by the letters of its colours. */
static const char *const figure[] = {
    "....ssss....", "..ssssssss..", ".ssssssssss.", ".sswwsswwss.", "ssswkssswkss", "ssswkssswkss", "ssssssssssss",
    "sskssssssks.", ".sskkkkkkss.", ".ssssssssss.", "..ssssssss..", "...ff..ff...", "..fff..fff..",
};
enum { LEFT = 17, TOP = 49, FIGURE_WIDE = 12, FIGURE_HIGH = sizeof figure / sizeof figure[0] };

static uint8_t picture[WIDTH * HEIGHT];
static uint32_t colours[HEDGEMALLOW_COLOURS];
/* Room for every card. */
static uint32_t frame[COUNT], history[HEDGEMALLOW_GLOWS * HEDGEMALLOW_DEPTH * COUNT], ints[COUNT];
static float floats[HEDGEMALLOW_FLOATS(WIDE, HIGH)];
/* A card that reads a curve is refused here: none is lent. */
static const float curve[1];

/* What a call reports. A refusal ends the host, which has nothing to show then. */
static uint32_t must(const char *what, uint32_t answer) {
    if (answer < HEDGEMALLOW_REFUSED) return answer;
    fprintf(stderr, "%s is refused: %u\n", what, (unsigned)(answer - HEDGEMALLOW_REFUSED));
    exit(1);
}

/* The number of a letter of the figure. Of a number the colour alone is shown: the two bits above it are the console's own. */
static int letter(char c) {
    switch (c) {
    case 's': return 64 + NUMBER(3, 1, 2);
    case 'f': return 128 + NUMBER(2, 0, 1);
    case 'w': return 192 + NUMBER(3, 3, 3);
    default: return 192 + NUMBER(0, 0, 0);
    }
}

/* The number in a place: all colours in a row, the figure, a wall, two hills, the sun and the sky. */
static int number(int x, int y) {
    int across = x - LEFT, down = y - TOP;
    if (y < 8) return y >= 2 && y < 6 && x >= 10 && x < 74 ? x - 10 : NUMBER(0, 0, 0);
    if (across >= 0 && across < FIGURE_WIDE && down >= 0 && down < FIGURE_HIGH && figure[down][across] != '.')
        return letter(figure[down][across]);
    if (y >= 62) return y % 6 == 2 || (x + y / 6 % 2 * 6) % 12 == 5 ? NUMBER(1, 0, 0) : NUMBER(3, 1, 0);
    if (y > 40 + abs(x - 36)) return NUMBER(0, 2, 0);
    if (y > 48 + abs(x - 58) / 2) return NUMBER(1, 3, 0);
    if ((x - 66) * (x - 66) + (y - 22) * (y - 22) < 60) return NUMBER(3, 3, 1);
    return y < 34 ? NUMBER(1, 2, 3) : NUMBER(2, 3, 3);
}

static void draw(void) {
    for (int y = 0; y < HEIGHT; y++)
        for (int x = 0; x < WIDTH; x++) picture[y * WIDTH + x] = (uint8_t)number(x, y);
    for (uint32_t k = 0; k < HEDGEMALLOW_COLOURS; k++) colours[k] = (k / 16 * 85) << 16 | (k / 4 % 4 * 85) << 8 | k % 4 * 85;
}

/* The station of the card in a file. */
static void open_card(const char *name, uint8_t *state) {
    /* A card with a byte more than the longest is refused too. */
    uint8_t card[HEDGEMALLOW_CARD + 1];
    FILE *file = fopen(name, "rb");
    if (!file) {
        perror(name);
        exit(1);
    }
    size_t length = fread(card, 1, sizeof card, file);
    fclose(file);
    must("the card", hedgemallow_open(card, length, state));
}

static void write_ppm(const char *name) {
    FILE *file = fopen(name, "wb");
    if (file) {
        fprintf(file, "P6\n%d %d\n255\n", WIDE, HIGH);
        for (size_t i = 0; i < COUNT; i++)
            for (int shift = 16; shift >= 0; shift -= 8) putc((int)(frame[i] >> shift & 255), file);
    }
    if (!file || ferror(file) || fclose(file)) {
        perror(name);
        exit(1);
    }
}

/* FNV-1a over the words' bytes, least significant first. */
static uint32_t checksum(void) {
    uint32_t sum = 2166136261u;
    for (size_t i = 0; i < COUNT; i++)
        for (int shift = 0; shift < 32; shift += 8) sum = (sum ^ (frame[i] >> shift & 255)) * 16777619u;
    return sum;
}

int main(int count, char **words) {
    uint8_t state[HEDGEMALLOW_STATE];
    uint32_t reports[2];
    if (count != 3) {
        fprintf(stderr, "usage: cabinet CARD PICTURE   (files: the picture is written, as binary PPM)\n");
        return 2;
    }
    draw();
    open_card(words[1], state);
    must("the picture", hedgemallow_show(state, picture, sizeof picture, WIDTH, HEIGHT, colours, HEDGEMALLOW_COLOURS, frame, COUNT,
                                         history, sizeof history / sizeof history[0], floats, HEDGEMALLOW_FLOATS(WIDE, HIGH), ints,
                                         COUNT, curve, 0, reports));
    write_ppm(words[2]);
    printf("cabinet: %d by %d numbers, shown %d by %d, picture %08X, clipped %u, samples %u\n", WIDTH, HEIGHT, WIDE, HIGH,
           (unsigned)checksum(), (unsigned)reports[0], (unsigned)reports[1]);
    return 0;
}
