/*
 * Hedgemallow: a picture chain set by a card. The functions of libbridge.a, which ./install names
 * libhedgemallow.a, for C and C++.
 *
 * A station is the chain of passes of one card with their switches and settings, the width and
 * height of the older frames in the history of each persistence pass, and the pending switch: at most
 * one, that was asked for and is not committed yet. It lives in 134 bytes that the caller owns, the
 * state. Copy them, store them, compare them: two stations are equal exactly when their states are.
 *
 *     byte  0           L, the length of the normalised card, 1 to 83
 *     bytes 1 to 83     the card, followed by zeros
 *     bytes 84 to 131   four bytes for each of the twelve places of a chain: the width of the frames in
 *                       the history of the pass there, most significant byte first, then their height,
 *                       likewise; zeros where that history holds none, where the pass there is not
 *                       persistence, and where there is none
 *     byte  132         the kind of the pending switch, 0 for none
 *     byte  133         its position: 1 on, 0 off; 0 where none is pending
 *
 * Every state is checked on the way in. Bytes that are no state, damaged ones too, those whose card
 * does not name its passes by ascending kind, those in which two histories hold frames of two sizes and
 * those whose pending switch is of a pass that the card does not name, are refused by 13 and never
 * followed. A state that a call returned is never refused by 13.
 *
 * Several glows. A card may name persistence up to three times, in a row, every other pass once. Each
 * such pass has a history of its own and remembers the size of its frames by itself. Calls that name a
 * kind act on the first pass of that kind: of several persistence passes the first can be switched and
 * gets a new depth, and the others stand as on the card. A reset makes all of them forget.
 *
 * Answers: below 256 the call is accepted, and the number is what it reports, or 0. From 256 on it
 * is refused by the number answer - 256, and every byte and word is as it was before the call.
 *
 * Sizes. count is width * height, each side 1 to 1024. A frame takes
 *     framebuffer  count words, one pixel each, 0xRRGGBB, row after row; the top byte may be set.
 *                  Curvature takes it along with the pixel that it reads, every other pass clears it
 *                  in the pixels that it works out, and what no pass works out keeps it: the even rows
 *                  under scanlines, a frame with which persistence begins its history
 *     history      hedgemallow_depth(state) * count words: the same ones at each frame and at each
 *                  new depth, at first with anything in them. The histories of several persistence
 *                  passes follow one another in it, by the order of the chain, each with its own depth
 *                  * count words, also while the pass is off
 *     floats       3 * count + 3 * width words of scratch, whatever they hold (HEDGEMALLOW_FLOATS)
 *     ints         count words of scratch, whatever they hold
 *     curve        HEDGEMALLOW_CURVE words, each in 0..1, where the card has colour with a gamma other
 *                  than 1, on or off; with every other card no word of it is read, and its length may
 *                  be 0
 * Longer ones are taken: the words past these are neither read nor changed, except that the length
 * decides a refusal. The history's words belong to the station between its frames. A frame of another
 * width or height than the one before it begins each history anew: one that is turned, too.
 *
 * The curve. Where gamma is not 1, colour begins with word k of the curve for a channel k, 0 to 255, in
 * place of k/255: that word is meant to be k/255 to the power gamma. It is data, since the powf of two
 * machines need not agree in the last bit, and then their pictures may differ. A league that wants equal
 * pictures hands out the curve with the card, as a file of 1,024 bytes: word after word, the low byte of each
 * first.
 *
 * Areas. A rectangle of a picture is four numbers of a list: left, top, width, height. It has three
 * totals: the sums of its words' red, green and blue bytes.
 *
 * Sheets. A run sheet holds a match as events, to be looked at again: hedgemallow_play plays it on a
 * station. It is packed as a card is, field after field without a gap, the most significant bit of each
 * first:
 *
 *     16 bits   the event count, 0 to 65535
 *     then of each event
 *      3 bits   its number: 0 frame, 1 reset, 2 switch, 3 preset step, 4 ask, 5 commit
 *               a frame goes on with
 *     11 bits   its width
 *     11 bits   its height
 *     24 bits   for each pixel, width * height of them, whatever a station will think of that size
 *               a switch and an ask go on with
 *      4 bits   a kind
 *      1 bit    a position: 1 on, 0 off
 *     and then  zero bits up to the end of the byte, and no byte after it
 *
 * A pixel is 0xRRGGBB here too; on a sheet it has no top byte.
 *
 * Sources. A console's own picture has a number for each pixel, and 64 colours: hedgemallow_show shows it, each
 * pixel as three by three of a frame, which is what CRT is made for. A source is the numbers, row after row, its
 * width and height, each 1 to 341, and the colours, one word each. Number p shows colour p modulo 64, the word as
 * it is lent, its top byte too.
 *
 * The caller promises, as always in C: a pointer is aligned and not null, with a length of 0 too (any
 * aligned address will do then: nothing is read there), as many elements as its length says are there
 * (134 bytes for a state), no argument that is written through overlaps another one, and no
 * other thread reads or writes what is written, or writes what is read, during the call.
 *
 * Floats. The thread's control word (MXCSR) must be as at the start of a program: rounding to
 * nearest, subnormal numbers kept (flush-to-zero and denormals-are-zero off), all exceptions
 * masked. gcc and clang change it at the start of a program that is linked with -ffast-math. No
 * call reads or sets these bits. Under another rounding a picture may be another one; where
 * subnormal numbers are flushed, a card's subnormal setting opens as 0, which normalises to another
 * card, and a state with such a setting may be refused by 13.
 *
 * Stack. hedgemallow_apply, hedgemallow_show and hedgemallow_play take less than 52 KiB, whatever the card, the
 * sizes of the frames and the number of events, and hedgemallow_areas less than 44 KiB (33,192, 33,720, 36,344
 * and 41,288 bytes were measured on 2026-11-18, with an older toolchain). A thread that is made with a small
 * stack should have 64 KiB left for each of them.
 *
 * No function keeps a pointer, allocates, or has state of its own, so calls on different buffers
 * may run at the same time.
 */
#ifndef HEDGEMALLOW_H
#define HEDGEMALLOW_H

#include <stddef.h>
#include <stdint.h>

#ifdef __cplusplus
extern "C" {
#endif

/* The version of this header and of the library that is built beside it. */
#define HEDGEMALLOW_VERSION "0.1.0"

/* The bytes of a state, and the most that a card has. */
#define HEDGEMALLOW_STATE 134
#define HEDGEMALLOW_CARD 83

/* The longest side of a frame, the most frames that the history of one persistence pass has room for, and the
   most such passes of a card. So the words of a history that serves every card are HEDGEMALLOW_GLOWS *
   HEDGEMALLOW_DEPTH * width * height, and those of one that serves every card with one such pass
   HEDGEMALLOW_DEPTH * width * height; they serve every new depth too. */
#define HEDGEMALLOW_SIDE 1024
#define HEDGEMALLOW_DEPTH 8
#define HEDGEMALLOW_GLOWS 3

/* The words of a curve: one for each number that a channel may be. */
#define HEDGEMALLOW_CURVE 256

/* The most areas of one call. */
#define HEDGEMALLOW_AREAS 64

/* The longest side of a source, and its colours. */
#define HEDGEMALLOW_SOURCE_SIDE 341
#define HEDGEMALLOW_COLOURS 64

/* The words of `floats` that a frame takes. */
#define HEDGEMALLOW_FLOATS(width, height) (3 * (size_t)(width) * (size_t)(height) + 3 * (size_t)(width))

/* The answer of a refusal is this and the refusal's number. */
#define HEDGEMALLOW_REFUSED 256

/* The refusals. Beside each are its number, its word, for a front end, and when it is given. */
enum hedgemallow_refusal {
    HEDGEMALLOW_TORN_CARD = 257,         /* 1, torn card: a field's bits run past the end */
    HEDGEMALLOW_FOREIGN_CARD = 258,      /* 2, foreign card: version not 1 */
    HEDGEMALLOW_OVERFULL_CARD = 259,     /* 3, overfull card: more than 12 passes */
    HEDGEMALLOW_UNKNOWN_PASS = 260,      /* 4, unknown pass: kind 0 or 11 to 15 */
    HEDGEMALLOW_DOUBLED_PASS = 261,      /* 5, doubled pass: kind already read, persistence three times */
    HEDGEMALLOW_BAD_SETTING = 262,       /* 6, bad setting: a setting out of range, a new depth above 8 too */
    HEDGEMALLOW_LONG_CARD = 263,         /* 7, long card: a padding bit set, or a byte left over */
    HEDGEMALLOW_BAD_SIZE = 264,          /* 8, bad size: width or height 0 or above 1024 */
    HEDGEMALLOW_SHORT_FRAME = 265,       /* 9, short frame: framebuffer below count */
    HEDGEMALLOW_SHORT_HISTORY = 266,     /* 10, short history: history below the sum of the depths * count, each
                                            persistence pass on or off; for a new depth, below it * the count of the
                                            frames that the first one holds */
    HEDGEMALLOW_SHORT_SCRATCH = 267,     /* 11, short scratch: floats below 3 * count + 3 * width, or ints below count */
    HEDGEMALLOW_NOT_IN_CHAIN = 268,      /* 12, not in chain: the pass of the call is not in the chain */
    HEDGEMALLOW_BAD_STATION = 269,       /* 13, bad station: the bytes are no state */
    HEDGEMALLOW_SHORT_CARD_BUFFER = 270, /* 14, short card buffer: fewer bytes than the card */
    HEDGEMALLOW_PASS_OUT_OF_ORDER = 271, /* 15, pass out of order: kind below the one before it */
    HEDGEMALLOW_BAD_CURVE = 272,         /* 16, bad curve: the card reads a curve, and it has fewer than
                                            256 words or one of the first 256 is not in 0..1 */
    HEDGEMALLOW_ALREADY_ASKED = 273,     /* 17, already asked: a switch is asked for and not committed yet */
    HEDGEMALLOW_NOT_ASKED = 274,         /* 18, not asked: no switch is asked for */
    HEDGEMALLOW_BAD_AREA = 275,          /* 19, bad area: more than 64 areas, a list of another length than
                                            four for each, an area that leaves the picture, or too few
                                            totals */
    HEDGEMALLOW_BAD_SHEET = 276,         /* 20, bad sheet: a field's bits run past the end, an event's number
                                            is 6 or 7, a padding bit is set, or a byte is left over */
    HEDGEMALLOW_BAD_SOURCE = 277         /* 21, bad source: a side of 0 or above 341, fewer numbers than the
                                            sides' product, or fewer than 64 colours */
};

/* The kinds of passes, as a card, hedgemallow_set_enabled, hedgemallow_ask, hedgemallow_enabled and byte 132 of a state
   name them. On a card they ascend, and persistence may stand there up to three times. Beside each is the word that
   program `card` prints, for a front end: the library has no texts. */
enum hedgemallow_kind {
    HEDGEMALLOW_NTSC = 1,             /* NTSC */
    HEDGEMALLOW_BLOOM = 2,            /* bloom */
    HEDGEMALLOW_AUTO_GRADIENT = 3,    /* gradient */
    HEDGEMALLOW_PERSISTENCE = 4,      /* persistence */
    HEDGEMALLOW_LUT = 5,              /* LUT */
    HEDGEMALLOW_CURVATURE = 6,        /* curvature */
    HEDGEMALLOW_COLOR_CORRECTION = 7, /* colour */
    HEDGEMALLOW_CRT = 8,              /* CRT */
    HEDGEMALLOW_VIGNETTE = 9,         /* vignette */
    HEDGEMALLOW_SCANLINES = 10        /* scanlines */
};

/* The presets of a LUT, as a card, hedgemallow_cycle_lut and hedgemallow_preset number them, with their words. */
enum hedgemallow_preset {
    HEDGEMALLOW_IDENTITY = 0,     /* identity */
    HEDGEMALLOW_WARM_CRT = 1,     /* warm CRT */
    HEDGEMALLOW_COOL_CRT = 2,     /* cool CRT */
    HEDGEMALLOW_COMPOSITE = 3,    /* composite */
    HEDGEMALLOW_GAME_BOY = 4,     /* Game Boy */
    HEDGEMALLOW_AMBER = 5,        /* amber */
    HEDGEMALLOW_HIGH_CONTRAST = 6 /* high contrast */
};

/* Opens a card: writes the state where the card is accepted. Refusals 1 to 7 and 15. */
uint32_t hedgemallow_open(const uint8_t *card, size_t card_len, uint8_t state[HEDGEMALLOW_STATE]);

/* Writes the normalised card to the start of the buffer, and reports its length, 1 to 83.
   Refusals 13, 14. */
uint32_t hedgemallow_write(const uint8_t state[HEDGEMALLOW_STATE], uint8_t *buffer, size_t buffer_len);

/* A frame: the passes that are on, by ascending kind, over the first count words of the
   framebuffer. The curve is only read, and only where colour has a gamma other than 1. Two numbers are
   reported, each added up over the passes. They are no part of the answer, since they may be above 255.
       reports[0]  how many channels the final conversions clipped, since they lay strictly below 0 or
                   strictly above the top end
       reports[1]  how many samples the blurs took, NTSC along each row, bloom along each row and then
                   along each column: for each pixel those up to bleed or radius places away, itself
                   included, that are inside the row or column, counted once for all channels. Along a
                   line of n pixels that is n * (2 * r + 1) - r * (r + 1) where r is below n, else n * n
   The samples depend on the card, with its switches, and on width and height alone: 393,019,392 at
   most, at 1024 by 1024 with NTSC and bloom on, both at 64. A refusal leaves both places.
   Refusals 13, 8, 9, 10, 11, 16, in that order. */
uint32_t hedgemallow_apply(uint8_t state[HEDGEMALLOW_STATE], uint32_t *framebuffer, size_t framebuffer_len,
                           size_t width, size_t height, uint32_t *history, size_t history_len,
                           float *floats, size_t floats_len, uint32_t *ints, size_t ints_len,
                           const float *curve, size_t curve_len, uint32_t reports[2]);

/* A frame of a source: its pixels enlarged to three by three, under the chain. The buffers are those that
   hedgemallow_apply takes for a frame of 3 * width by 3 * height words, and so are the reports. The source is
   only read. More numbers and colours than it has may be lent: the first count. The enlarged frame goes to the
   start of the framebuffer once all checks have passed, where its picture then takes its place; the words past
   it stay. Refusals 21, 13, 9, 10, 11, 16, in that order: 21 also where the bytes are no state, and the others
   by the enlarged size. */
uint32_t hedgemallow_show(uint8_t state[HEDGEMALLOW_STATE], const uint8_t *picture, size_t picture_len,
                          size_t width, size_t height, const uint32_t *colours, size_t colours_len,
                          uint32_t *framebuffer, size_t framebuffer_len, uint32_t *history, size_t history_len,
                          float *floats, size_t floats_len, uint32_t *ints, size_t ints_len,
                          const float *curve, size_t curve_len, uint32_t reports[2]);

/* Forgets what the histories hold, those of all persistence passes; their words stay. Refusals 13, 12. */
uint32_t hedgemallow_reset(uint8_t state[HEDGEMALLOW_STATE]);

/* Switches the first pass of that kind, 1 to 10: on 0 is off, any other number on. Persistence that is
   switched off holds nothing; a second and a third one go on. Refusals 13, 12: any other kind is in no
   chain. */
uint32_t hedgemallow_set_enabled(uint8_t state[HEDGEMALLOW_STATE], uint8_t kind, uint8_t on);

/* Asks for a switch that is to take hold later, between rounds: kind and on, taken as above, become
   the pending switch, to be seen in bytes 132 and 133. Nothing else changes: no switch, no picture. The
   present position may be asked for. The pending switch outlives every other call on the state,
   hedgemallow_set_enabled and refused calls too: hedgemallow_commit alone clears it, and a card that
   is opened begins with none. Refusals 13, 12, 17, in that order. */
uint32_t hedgemallow_ask(uint8_t state[HEDGEMALLOW_STATE], uint8_t kind, uint8_t on);

/* Does what hedgemallow_set_enabled does with the kind and the position of the pending switch, and
   clears it. So persistence that it switches off holds nothing. Refusals 13, 18, in that order. */
uint32_t hedgemallow_commit(uint8_t state[HEDGEMALLOW_STATE]);

/* Steps the LUT to its next preset, and reports it, 0 to 6. Refusals 13, 12. */
uint32_t hedgemallow_cycle_lut(uint8_t state[HEDGEMALLOW_STATE]);

/* Takes a new depth for persistence, on or off, between two frames, and lets what its history holds go
   on: there is no refill. Depth 0 is taken as 1, as on a card; the present depth may be named too. The
   history is lent as to a frame. Let count be that of the frames that it holds, newest first. A smaller
   depth keeps the newest of them, and no word changes. A larger one repeats the oldest behind it until
   depth * count words are full, and the words past them stay. Where nothing is held, as after a reset
   and while persistence is off, no word changes and none is asked for. The switch, the amount, the size
   that is held and the pending switch stay. Of several persistence passes it is the first that gets the
   new depth. Where that is another one than before, the histories behind the first begin elsewhere, and
   what they hold is forgotten, also while the first is off; the present depth leaves them. Afterwards
   hedgemallow_depth reports the sum with the new depth, hedgemallow_write writes it, and a frame takes
   that sum * its own count words of history. Refusals 13, 12, 6, 10, in that order. */
uint32_t hedgemallow_set_depth(uint8_t state[HEDGEMALLOW_STATE], uint32_t *history, size_t history_len, uint8_t depth);

/* Reports how many frames of count words the history must have room for, 0 to 24: the sum of the depths of all
   persistence passes, on or off, as the card says, or the last hedgemallow_set_depth. Refusal 13: look at the
   answer before it is multiplied. */
uint32_t hedgemallow_depth(const uint8_t state[HEDGEMALLOW_STATE]);

/* Reports whether the first pass of that kind, 1 to 10, is on: 1, or 0 where it is off. Nothing is switched.
   Refusals 13, 12: a pass that the card does not name is neither. */
uint32_t hedgemallow_enabled(const uint8_t state[HEDGEMALLOW_STATE], uint8_t kind);

/* Reports the LUT's preset, 0 to 6, whether it is on or off. Nothing is stepped. Refusals 13, 12. */
uint32_t hedgemallow_preset(const uint8_t state[HEDGEMALLOW_STATE]);

/* Plays a sheet: its events one after another, each as the call that it is: hedgemallow_apply, _reset,
   _set_enabled, _cycle_lut, _ask or _commit, by its number 0 to 5. The buffers are those of a frame, the
   curve among them, and are lent for all events: as many words as any of the frames takes. The sheet is
   looked at whole before the first event, and is only read.
   An event that its call refuses is counted, changes nothing, and the next one is played: so it is with
   a frame of a size that is refused, or for which too little is lent, and with a kind that is not in the
   chain. A frame's words go to the start of the framebuffer once all its checks have passed, where its
   picture then takes their place; those of a refused frame are written nowhere. The words of the
   framebuffer past a frame stay, and those of the scratch past what the accepted frames take. Two numbers
   are reported, which together are the event count:
       reports[0]  how many events were accepted
       reports[1]  how many were refused
   What a frame or a preset step would report is not told. A refused sheet leaves both places.
   Refusals 13, 20, in that order. */
uint32_t hedgemallow_play(uint8_t state[HEDGEMALLOW_STATE], const uint8_t *sheet, size_t sheet_len,
                          uint32_t *framebuffer, size_t framebuffer_len, uint32_t *history, size_t history_len,
                          float *floats, size_t floats_len, uint32_t *ints, size_t ints_len,
                          const float *curve, size_t curve_len, uint32_t reports[2]);

/* The totals of up to 64 areas of a picture, in one reading: three for each, in the order given, at
   the front of the result; its rest stays. A word is read if an area holds it, and then once, and
   read[0] is how many that were: it is no part of the answer, since it may be above 255. Asks for no
   station. Refusals 8, 9, 19, in that order. */
uint32_t hedgemallow_areas(const uint32_t *picture, size_t picture_len, size_t width, size_t height,
                           const uint16_t *areas, size_t areas_len, uint64_t *result, size_t result_len,
                           uint32_t read[1]);

#ifdef __cplusplus
}
#endif

#endif
