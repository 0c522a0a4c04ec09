/* A host for oracle/memory: plays inputs of program `station`, one for each file that is named, through the library `bridge`, and
   prints what the program prints. Each lent buffer is a block of its own, as long as is needed and with nothing in it: valgrind
   tells an access past it, and a printed digit that comes from a word which nobody wrote. */
#include <stdio.h>
#include <stdlib.h>
#include <string.h>
#include "hedgemallow.h"

/* The bytes of an input at most, and the history words that the program lends at most. */
enum { LONGEST = 1 << 16, LENT = 8192 };

static uint8_t input[LONGEST];
static size_t left; /* bytes that are still to be read: the last ones of the input */
static const uint8_t *next;

static uint8_t *state;
static uint32_t *history; /* for frames of `count` words; a frame of another count is of another size, and fills it anew */
static size_t count;
static FILE *nowhere; /* what is shown there is looked at by valgrind, and by nobody else */

static void *room(size_t bytes) {
    void *block = malloc(bytes);
    if (!block) exit(2);
    return block;
}

static const uint8_t *take(size_t bytes) {
    const uint8_t *taken = next;
    if (bytes > left) return 0;
    next += bytes;
    left -= bytes;
    return taken;
}

/* Prints a refusal, and gives 0: for an event that ends the reading. */
static int refused(uint32_t number) {
    printf("E %u\n", (unsigned)number);
    return 0;
}

/* Prints a line of the letter, or the refusal. */
static int told(char letter, uint32_t answer) {
    if (answer >= HEDGEMALLOW_REFUSED)
        refused(answer - HEDGEMALLOW_REFUSED);
    else if (letter == 'L')
        printf("L %u\n", (unsigned)answer);
    else
        printf("%c\n", letter);
    return 1;
}

/* A frame and what is lent to it. */
struct frame {
    size_t width, height, words, places;
    uint32_t *picture, *ints, *reports;
    float *floats;
};

/* What an accepted frame reports is shown to valgrind. */
static uint32_t apply(const struct frame *f, const float *curve, size_t length) {
    uint32_t answer = hedgemallow_apply(state, f->picture, f->words, f->width, f->height, history, f->places, f->floats, 3 * (f->words + f->width), f->ints, f->words,
                                        curve, length, f->reports);
    if (!answer) fprintf(nowhere, "%u %u\n", (unsigned)f->reports[0], (unsigned)f->reports[1]);
    return answer;
}

static void show(FILE *to, const struct frame *f) {
    fprintf(to, "F");
    for (size_t i = 0; i < f->words; i++) fprintf(to, " %06X", (unsigned)f->picture[i]);
    fprintf(to, "\n");
}

/* A frame that program `station`, which lends no curve, refuses: with a curve of so many words, of which nobody wrote those past 256. The
   station forgets it again. */
static void with_curve(const struct frame *f, size_t length) {
    float *curve = room(length * sizeof *curve);
    for (size_t k = 0; k < 256; k++) curve[k] = (float)k / 255.0f;
    if (apply(f, curve, length)) printf("a curve of %u words is refused\n", (unsigned)length);
    show(nowhere, f);
    hedgemallow_reset(state);
    free(curve);
}

/* Prints the picture, or the refusal of a frame that needs a curve or more history than is lent. */
static void tell(const struct frame *f) {
    float *curve = room(0);
    uint32_t answer = apply(f, curve, 0);
    if (answer == HEDGEMALLOW_BAD_CURVE) {
        with_curve(f, 256);
        with_curve(f, 300);
    }
    if (answer)
        refused(answer - HEDGEMALLOW_REFUSED);
    else
        show(stdout, f);
    free(curve);
}

/* So many bits of the card that the state holds, from this bit on. */
static size_t card_bits(size_t at, size_t number) {
    size_t bits = 0;
    for (; number; number--, at++) bits = bits << 1 | (state[1 + at / 8] >> (7 - at % 8) & 1);
    return bits;
}

/* The place of the first persistence pass, and its depth; both 0 where there is none. */
struct glow {
    size_t place, depth;
};

static struct glow first_glow(void) {
    /* The bits of a record, by its kind: four for that, one for the switch, and the settings. */
    static const size_t width[] = {0, 45, 53, 101, 45, 40, 37, 133, 37, 37, 37};
    size_t at = 8;
    for (size_t place = 0; place < card_bits(4, 4); place++) {
        size_t kind = card_bits(at, 4);
        if (kind == HEDGEMALLOW_PERSISTENCE) return (struct glow){place, card_bits(at + 37, 8)};
        at += width[kind];
    }
    return (struct glow){0, 0};
}

/* A side in these two bytes of the state. */
static size_t side(size_t at) {
    return (size_t)(state[at] << 8 | state[at + 1]);
}

/* A new depth on a copy of the state, one above the present one, or 1 for 8: in a block of as many words as it asks for, of which nobody
   wrote those that are to repeat the oldest frame; and in one of a word less, which is refused. What a second and a third persistence pass
   held is forgotten. Without persistence no depth is taken. */
static void deepen(void) {
    static const uint8_t nothing[48];
    struct glow first = first_glow();
    size_t sum = hedgemallow_depth(state), depth = first.depth, other = depth % HEDGEMALLOW_DEPTH + 1;
    size_t sizes = 84 + 4 * first.place, held = side(sizes) * side(sizes + 2), words = other * held;
    uint8_t *copy = memcpy(room(HEDGEMALLOW_STATE), state, HEDGEMALLOW_STATE);
    if (words) {
        uint32_t *short_block = room((words - 1) * 4);
        if (hedgemallow_set_depth(copy, short_block, words - 1, (uint8_t)other) != HEDGEMALLOW_SHORT_HISTORY) printf("no refusal 10\n");
        free(short_block);
    }
    uint32_t *block = room(words * 4);
    memcpy(block, history, (other < depth ? other : depth) * held * 4);
    if (hedgemallow_set_depth(copy, block, words, (uint8_t)other) != (depth ? 0 : HEDGEMALLOW_NOT_IN_CHAIN)) printf("another answer to a new depth\n");
    if (hedgemallow_depth(copy) != (depth ? sum - depth + other : 0)) printf("another depth\n");
    if (memcmp(copy + sizes + 4, nothing, 128 - sizes)) printf("a later history that is not forgotten\n");
    for (size_t i = 0; i < words; i++) fprintf(nowhere, "%u\n", (unsigned)block[i]);
    free(block);
    free(copy);
}

static int frame(void) {
    const uint8_t *size = take(2), *pixels;
    if (!size) return refused(1);
    size_t width = size[0], height = size[1], words = width * height;
    if (!words || width > 32 || height > 32) return refused(8);
    if (!(pixels = take(3 * words))) return refused(1);

    size_t places = hedgemallow_depth(state) * words;
    uint32_t *kept = history;
    int short_history = places > LENT;
    if (short_history) {
        /* It is refused: what is held stays. */
        history = room(LENT * sizeof *history);
        places = LENT;
    } else if (words != count) {
        free(history);
        history = room(places * sizeof *history);
        count = words;
    }
    struct frame f = {width, height, words, places, room(words * 4), room(words * 4), room(8), room(3 * (words + width) * 4)};
    for (size_t i = 0; i < words; i++)
        f.picture[i] = (uint32_t)pixels[3 * i] << 16 | (uint32_t)pixels[3 * i + 1] << 8 | pixels[3 * i + 2];
    tell(&f);
    if (short_history) {
        free(history);
        history = kept;
    } else
        deepen();
    free(f.picture);
    free(f.ints);
    free(f.reports);
    free(f.floats);
    return 1;
}

/* A switch, and on a copy of the state the same one asked for and committed: it has to leave the same bytes. */
static int change(void) {
    const uint8_t *bytes = take(2);
    if (!bytes || bytes[1] > 1) return refused(1);
    uint8_t *copy = memcpy(room(HEDGEMALLOW_STATE), state, HEDGEMALLOW_STATE);
    uint32_t answer = hedgemallow_set_enabled(state, bytes[0], bytes[1]);
    if (hedgemallow_ask(copy, bytes[0], bytes[1]) != answer) printf("another answer to asking\n");
    if (hedgemallow_commit(copy) != (answer ? HEDGEMALLOW_NOT_ASKED : 0)) printf("another answer to committing\n");
    if (memcmp(copy, state, HEDGEMALLOW_STATE)) printf("another state after committing\n");
    free(copy);
    return told('S', answer);
}

/* Whether to go on after it. */
static int event(uint8_t letter) {
    switch (letter) {
    case 'F': return frame();
    case 'R': return told('R', hedgemallow_reset(state));
    case 'S': return change();
    case 'L': return told('L', hedgemallow_cycle_lut(state));
    default: return refused(1);
    }
}

/* Into blocks of the card's length and of one byte less. The states hold the card from byte 1 on. */
static void write_card(void) {
    size_t length = state[0];
    uint8_t *card = room(length), *short_card = room(length - 1);
    if (hedgemallow_write(state, card, length) != length || memcmp(card, state + 1, length)) printf("another card\n");
    if (hedgemallow_write(state, short_card, length - 1) != HEDGEMALLOW_SHORT_CARD_BUFFER) printf("no refusal 14\n");
    free(card);
    free(short_card);
}

static void play(void) {
    const uint8_t *length = take(1), *bytes = length ? take(*length) : 0, *letter;
    if (!bytes) {
        refused(1);
        return;
    }
    uint8_t *card = memcpy(room(*length), bytes, *length);
    state = room(HEDGEMALLOW_STATE);
    history = 0;
    count = 0;
    uint32_t answer = hedgemallow_open(card, *length, state);
    free(card);
    if (answer) {
        refused(answer - HEDGEMALLOW_REFUSED);
    } else {
        while ((letter = take(1)) && event(*letter)) continue;
        write_card();
    }
    free(history);
    free(state);
}

int main(int number, char **names) {
    if (!(nowhere = fopen("/dev/null", "w"))) return 2;
    for (int i = 1; i < number; i++) {
        FILE *file = fopen(names[i], "rb");
        if (!file) return 2;
        left = fread(input, 1, LONGEST, file);
        next = input;
        fclose(file);
        play();
    }
    fclose(nowhere);
    return 0;
}
