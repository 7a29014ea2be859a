/* Calls the functions of the header as a C program does. Every buffer lies between guard words; guards and inputs must
 * stay as they were, and on a refusal the junk in the outputs too. The expected samples are document 01's figures: of
 * S1, a step from 100 to 104 at QP 37 and bS 2 becomes 100 101 101 102 103 103 104 104; K1 without a slice and the
 * farthest moves are worked out by hand. The refusals are the small inputs of its ledger, and a few more. The checksums
 * are document 02's figure, worked out by hand or summed here as H.265, Annex D, says; the floats are put together here
 * from sign, exponent and mantissa, and compared by their bits. */
#include <stddef.h>
#include <stdio.h>
#include <stdlib.h>
#include <string.h>
#include "tinladle.h"

enum { WIDTH = 32, HEIGHT = 16, LUMA = WIDTH * HEIGHT, CHROMA = LUMA / 4, CELLS = LUMA / 16, GUARD = 16 };
enum { OUT_JUNK = 0xA5, GUARD_BYTE = 0x5C };

/* A buffer of n bytes between two guards, and a copy of what it held at the call. */
struct Lent {
    unsigned char *whole;
    unsigned char *before;
    size_t bytes;
};

static struct Lent lend(size_t bytes, int fill) {
    struct Lent b = { malloc(bytes + 2 * GUARD), malloc(bytes + 1), bytes };
    if (!b.whole || !b.before) abort();
    memset(b.whole, GUARD_BYTE, bytes + 2 * GUARD);
    memset(b.whole + GUARD, fill, bytes);
    return b;
}

static void *at(struct Lent *b) { return b->whole + GUARD; }

/* What the call is handed: an empty buffer goes as null, which the header allows. */
static void *lent(struct Lent *b) { return b->bytes == 0 ? NULL : at(b); }

static void remember(struct Lent *b) { memcpy(b->before, at(b), b->bytes); }

static int unchanged(struct Lent *b) { return memcmp(b->before, at(b), b->bytes) == 0; }

static int guarded(const struct Lent *b) {
    for (size_t i = 0; i < GUARD; i++)
        if (b->whole[i] != GUARD_BYTE || b->whole[GUARD + b->bytes + i] != GUARD_BYTE) return 0;
    return 1;
}

static void give_back(struct Lent *b) {
    free(b->whole);
    free(b->before);
}

enum { Y, CB, CR, CELL, SLICE, COLUMN, ROW, INPUTS, OUT_Y = INPUTS, OUT_CB, OUT_CR, PLACE, BUFFERS };

struct Picture {
    uint32_t width, height, format, luma_depth, chroma_depth, log2_ctb;
    int32_t cb_offset, cr_offset;
    bool pcm;
    struct Lent lent[BUFFERS];
};

/* The arguments of every function that takes a picture: its nine settings and seven lists; then output planes. One that
 * takes planes alone has the first five settings and the first three lists. */
#define LENT16(p, which) lent(&(p)->lent[which]), (p)->lent[which].bytes / 2
#define LENT8(p, which) lent(&(p)->lent[which]), (p)->lent[which].bytes
#define SIZES(p) (p)->width, (p)->height, (p)->format, (p)->luma_depth, (p)->chroma_depth
#define SETTINGS(p) SIZES(p), (p)->log2_ctb, (p)->cb_offset, (p)->cr_offset, (p)->pcm
#define PLANES(p) LENT16(p, Y), LENT16(p, CB), LENT16(p, CR)
#define LISTS(p) PLANES(p), LENT8(p, CELL), LENT8(p, SLICE), LENT16(p, COLUMN), LENT16(p, ROW)
#define OUTPUTS(p) LENT16(p, OUT_Y), LENT16(p, OUT_CB), LENT16(p, OUT_CR)

static uint16_t *samples(struct Picture *p, int which) { return at(&p->lent[which]); }

static uint8_t *cell(struct Picture *p, int column, int row) {
    return (uint8_t *)at(&p->lent[CELL]) + 8 * (row * (WIDTH / 4) + column);
}

/* A new length for one buffer; what fits is kept. */
static void resize(struct Picture *p, int which, size_t bytes, int fill) {
    struct Lent b = lend(bytes, fill);
    size_t kept = bytes < p->lent[which].bytes ? bytes : p->lent[which].bytes;
    memcpy(at(&b), at(&p->lent[which]), kept);
    give_back(&p->lent[which]);
    p->lent[which] = b;
}

/* An edge of a cell's left side, on every row of cells. */
static void set_edge(struct Picture *p, int column, int bs) {
    for (int row = 0; row < HEIGHT / 4; row++) cell(p, column, row)[1] = 1, cell(p, column, row)[2] = (uint8_t)bs;
}

/* Left of column 8 all luma is 100, from there on 104; the edge at column 8 is the only one. Chroma is flat. One slice,
 * with offsets 0. */
static struct Picture accepted(void) {
    static const uint8_t slice[4] = { 0, 6, 6, 1 };
    static const size_t bytes[BUFFERS] = {
        2 * LUMA, 2 * CHROMA, 2 * CHROMA, 8 * CELLS, sizeof slice, 2, 2, 2 * LUMA, 2 * CHROMA, 2 * CHROMA, 8
    };
    struct Picture p = { WIDTH, HEIGHT, 1, 8, 8, 4, 0, 0, false, { { 0 } } };
    for (int i = 0; i < BUFFERS; i++) p.lent[i] = lend(bytes[i], i < INPUTS ? 0 : OUT_JUNK);
    for (int i = 0; i < LUMA; i++) samples(&p, Y)[i] = i % WIDTH < 8 ? 100 : 104;
    for (int i = 0; i < CHROMA; i++) samples(&p, CB)[i] = 60, samples(&p, CR)[i] = 70;
    for (int i = 0; i < CELLS; i++) cell(&p, i, 0)[0] = 37 + 64;
    memcpy(at(&p.lent[SLICE]), slice, sizeof slice);
    set_edge(&p, 2, 2);
    return p;
}

static int failures = 0;

static void expect(int holds, const char *name, const char *what) {
    if (holds) return;
    failures++;
    printf("%s: DIFFERENCE: %s\n", name, what);
}

static void remember_all(struct Picture *p) {
    for (int i = 0; i < BUFFERS; i++) remember(&p->lent[i]);
}

static uint64_t stored_place(struct Lent *place) {
    uint64_t stored;
    memcpy(&stored, at(place), sizeof stored);
    return stored;
}

/* Looks at an answer and its place, and at all that no answer may change. */
static void expect_answer(struct Picture *p, const char *name, uint32_t answer, uint32_t number, uint64_t place) {
    expect(answer == number, name, "the number");
    expect(stored_place(&p->lent[PLACE]) == place, name, "the place");
    for (int i = 0; i < BUFFERS; i++) expect(guarded(&p->lent[i]), name, "a guard was written");
    for (int i = 0; i < INPUTS; i++) expect(unchanged(&p->lent[i]), name, "an input was written");
}

static void tell(struct Picture *p, const char *name, uint32_t answer) {
    unsigned long long place = stored_place(&p->lent[PLACE]);
    printf("%s: number %u, place %llu\n", name, (unsigned)answer, place);
}

/* Runs the stage on a picture. What it left of an accepted one is the caller's to check. */
static void run(struct Picture *p, const char *name, uint32_t number, uint64_t place) {
    remember_all(p);
    uint32_t answer = tinladle_deblock(SETTINGS(p), LISTS(p), OUTPUTS(p), at(&p->lent[PLACE]));
    tell(p, name, answer);
    expect_answer(p, name, answer, number, place);
    if (answer != 0)
        for (int i = OUT_Y; i <= OUT_CR; i++) expect(unchanged(&p->lent[i]), name, "a refusal wrote an output plane");
}

static void done(struct Picture *p) {
    for (int i = 0; i < BUFFERS; i++) give_back(&p->lent[i]);
}

static void refused(struct Picture *p, const char *name, uint32_t number, uint64_t place) {
    run(p, name, number, place);
    done(p);
}

/* S1 on the rows from first to end; the other rows as they were. */
static void expect_step(struct Picture *p, const char *name, int first, int end) {
    static const uint16_t filtered[16] = {
        100, 100, 100, 100, 100, 101, 101, 102, 103, 103, 104, 104, 104, 104, 104, 104
    };
    for (int i = 0; i < LUMA; i++) {
        int x = i % WIDTH, y = i / WIDTH;
        uint16_t original = x < 8 ? 100 : 104;
        uint16_t wanted = x < 16 && first <= y && y < end ? filtered[x] : original;
        expect(samples(p, OUT_Y)[i] == wanted, name, "a luma sample");
    }
}

static void expect_copied(struct Picture *p, const char *name, int original, int output) {
    int same = memcmp(at(&p->lent[original]), at(&p->lent[output]), p->lent[output].bytes) == 0;
    expect(same, name, "a sample that stays");
}

static void expect_chroma_copied(struct Picture *p, const char *name) {
    expect_copied(p, name, CB, OUT_CB);
    expect_copied(p, name, CR, OUT_CR);
}

static void luma_cases(void) {
    struct Picture p = accepted();
    run(&p, "S1 on every row", 0, 0);
    expect_step(&p, "S1 on every row", 0, HEIGHT);
    expect_chroma_copied(&p, "S1 on every row");
    done(&p);

    p = accepted();
    for (int row = 1; row < HEIGHT / 4; row++) cell(&p, 2, row)[2] = 0;
    run(&p, "S1 on the first four rows", 0, 0);
    expect_step(&p, "S1 on the first four rows", 0, 4);
    expect_chroma_copied(&p, "S1 on the first four rows");
    done(&p);

    /* Format 0: the chroma planes are empty. */
    p = accepted();
    p.format = 0;
    resize(&p, CB, 0, 0), resize(&p, CR, 0, 0), resize(&p, OUT_CB, 0, 0), resize(&p, OUT_CR, 0, 0);
    run(&p, "S1, no chroma", 0, 0);
    expect_step(&p, "S1, no chroma", 0, HEIGHT);
    done(&p);
}

/* Cb steps from 50 to 60 at its column 8, which is luma column 16; the edge there has bS 2. */
static struct Picture chroma_step(void) {
    struct Picture p = accepted();
    for (int i = 0; i < CHROMA; i++) samples(&p, CB)[i] = i % (WIDTH / 2) < 8 ? 50 : 60;
    set_edge(&p, 4, 2);
    return p;
}

/* Cb's step, moved by tc on each side; luma's as ever. */
static void expect_chroma_step(struct Picture *p, const char *name, int tc) {
    for (int i = 0; i < CHROMA; i++) {
        int x = i % (WIDTH / 2);
        uint16_t wanted = x < 7 ? 50 : x == 7 ? 50 + tc : x == 8 ? 60 - tc : 60;
        expect(samples(p, OUT_CB)[i] == wanted, name, "a Cb sample");
    }
    expect_step(p, name, 0, HEIGHT);
    expect_copied(p, name, CR, OUT_CR);
}

static void chroma_cases(void) {
    /* K1: 50 50 | 60 60 at QP 37 becomes 54 | 56. */
    struct Picture p = chroma_step();
    run(&p, "K1 in Cb", 0, 0);
    expect_chroma_step(&p, "K1 in Cb", 4);
    done(&p);

    /* An empty slice list, lent as the null pointer, stands for 0, 6, 5, 1: tc row 34 in the place of 36. */
    p = chroma_step();
    resize(&p, SLICE, 0, 0);
    run(&p, "K1's step, no slice", 0, 0);
    expect_chroma_step(&p, "K1's step, no slice", 3);
    done(&p);

    /* T1: a tile border at column 16 closes that edge. */
    p = chroma_step();
    resize(&p, COLUMN, 4, 0);
    samples(&p, COLUMN)[1] = 1;
    run(&p, "T1 in Cb", 0, 0);
    expect_step(&p, "T1 in Cb", 0, HEIGHT);
    expect_chroma_copied(&p, "T1 in Cb");
    done(&p);
}

/* The cells left of luma column 16 are palette cells: luma's step at column 8 stays, and of Cb's at its column 8 the
 * left side, at either setting of the PCM switch; the right side moves as in K1. */
static void palette_case(const char *name, bool pcm) {
    struct Picture p = chroma_step();
    p.pcm = pcm;
    for (int i = 0; i < CELLS; i++) cell(&p, i, 0)[1] |= i % (WIDTH / 4) < 4 ? 16 : 0;
    run(&p, name, 0, 0);
    for (int i = 0; i < CHROMA; i++) {
        int x = i % (WIDTH / 2);
        expect(samples(&p, OUT_CB)[i] == (x < 8 ? 50 : x == 8 ? 56 : 60), name, "a Cb sample");
    }
    expect_copied(&p, name, Y, OUT_Y);
    expect_copied(&p, name, CR, OUT_CR);
    done(&p);
}

/* Every sample of a plane is in the range of depth 8 and at most `most` from its original. */
static void expect_near(struct Picture *p, const char *name, int original, int output, int most) {
    for (int i = 0; i < LUMA; i++) {
        int before = samples(p, original)[i], after = samples(p, output)[i];
        expect(after <= 255 && abs(after - before) <= most, name, "a sample beyond its range or bound");
    }
}

/* The samples that go as far as the header says: every edge at the largest tc, 24, in 4:4:4. Row 10 is, across column
 * 8, 200 200 255 200 | 200 255 0 200 and decided on as its flat neighbours are: both passes move the 0 by 2 * 24. In
 * chroma the 0 lies next to both edges, and each pass moves it by 24. */
static void farthest_case(void) {
    static const uint8_t slice[4] = { 0, 12, 12, 1 }, every[4] = { 51 + 64, 3, 2, 2 };
    static const char name[] = "the farthest moves";
    struct Picture p = accepted();
    p.format = 3;
    for (int i = CB; i <= CR; i++) resize(&p, i, 2 * LUMA, 0), resize(&p, OUT_Y + i, 2 * LUMA, OUT_JUNK);
    for (int i = 0; i < LUMA; i++) samples(&p, Y)[i] = samples(&p, CB)[i] = samples(&p, CR)[i] = 200;
    samples(&p, Y)[10 * WIDTH + 6] = samples(&p, Y)[10 * WIDTH + 9] = 255, samples(&p, Y)[10 * WIDTH + 10] = 0;
    samples(&p, CB)[7 * WIDTH + 7] = samples(&p, CR)[7 * WIDTH + 7] = 0;
    for (int i = 0; i < CELLS; i++) memcpy(cell(&p, i, 0), every, sizeof every);
    memcpy(at(&p.lent[SLICE]), slice, sizeof slice);
    run(&p, name, 0, 0);
    expect(samples(&p, OUT_Y)[10 * WIDTH + 10] == 96, name, "the farthest luma sample");
    expect(samples(&p, OUT_CB)[7 * WIDTH + 7] == 48, name, "the farthest Cb sample");
    expect(samples(&p, OUT_CR)[7 * WIDTH + 7] == 48, name, "the farthest Cr sample");
    expect_near(&p, name, Y, OUT_Y, 96);
    expect_near(&p, name, CB, OUT_CB, 48);
    expect_near(&p, name, CR, OUT_CR, 48);
    done(&p);
}

/* What the header says of edges that are in rule and are not filtered. */
static void unfiltered_cases(void) {
    struct Picture p = accepted();
    for (int i = 0; i < LUMA; i++) samples(&p, Y)[i] = i % WIDTH < 4 ? 100 : 104;
    set_edge(&p, 0, 2), set_edge(&p, 1, 2), set_edge(&p, 2, 0);
    run(&p, "edges at columns 0 and 4", 0, 0);
    expect_copied(&p, "edges at columns 0 and 4", Y, OUT_Y);
    expect_chroma_copied(&p, "edges at columns 0 and 4");
    done(&p);

    p = chroma_step();
    set_edge(&p, 4, 1);
    run(&p, "K1's step at bS 1", 0, 0);
    expect_step(&p, "K1's step at bS 1", 0, HEIGHT);
    expect_chroma_copied(&p, "K1's step at bS 1");
    done(&p);
}

/* Settings one past an end, and where each stands in struct Picture; all are of 32 bits. */
static const struct Setting {
    const char *name;
    size_t offset;
    int32_t value;
    uint32_t number;
} bad_settings[] = {
    { "1: width 12", offsetof(struct Picture, width), 12, 1 },
    { "1: width 0", offsetof(struct Picture, width), 0, 1 },
    { "1: height 8200", offsetof(struct Picture, height), 8200, 1 },
    { "2: format 4", offsetof(struct Picture, format), 4, 2 },
    { "3: luma depth 7", offsetof(struct Picture, luma_depth), 7, 3 },
    { "3: chroma depth 17", offsetof(struct Picture, chroma_depth), 17, 3 },
    { "4: log2 CTB 3", offsetof(struct Picture, log2_ctb), 3, 4 },
    { "4: log2 CTB 7", offsetof(struct Picture, log2_ctb), 7, 4 },
    { "5: Cb offset 13", offsetof(struct Picture, cb_offset), 13, 5 },
    { "5: Cr offset -13", offsetof(struct Picture, cr_offset), -13, 5 },
};

static void refused_settings(void) {
    for (size_t i = 0; i < sizeof bad_settings / sizeof *bad_settings; i++) {
        const struct Setting *t = &bad_settings[i];
        struct Picture p = accepted();
        memcpy((char *)&p + t->offset, &t->value, sizeof t->value);
        refused(&p, t->name, t->number, 0);
    }
}

static void refused_lengths(void) {
    static const char *names[BUFFERS] = {
        "6: y short", "6: cb short", "6: cr short", "6: cells short", "6: slices of 2 bytes", "6: no column start",
        "6: no row start", "6: out_y short", "6: out_cb short", "6: out_cr short", 0
    };
    for (int i = 0; i < PLACE; i++) {
        struct Picture p = accepted();
        resize(&p, i, i == SLICE ? 2 : p.lent[i].bytes - 2, i < INPUTS ? 0 : OUT_JUNK);
        refused(&p, names[i], 6, 0);
    }
}

static void refused_lists(void) {
    struct Picture p = accepted();
    static const uint8_t slices[12] = { 0, 6, 6, 1, 0, 6, 6, 1, 0, 13, 6, 1 };
    resize(&p, SLICE, sizeof slices, 0);
    memcpy(at(&p.lent[SLICE]), slices, sizeof slices);
    refused(&p, "7: third slice 0, 13, 6, 1", 7, 2);

    p = accepted();
    resize(&p, COLUMN, 6, 0);
    samples(&p, COLUMN)[1] = 1, samples(&p, COLUMN)[2] = 1;
    refused(&p, "8: columns 0, 1, 1", 8, 2);
    p = accepted();
    samples(&p, ROW)[0] = 1;
    refused(&p, "8: rows 1", 8, 1);
}

static void refused_cells(void) {
    struct Picture p = accepted();
    cell(&p, 2, 0)[0] = 63;
    refused(&p, "9: cell 2 has QP byte 63", 9, 2);
    p = accepted();
    cell(&p, 1, 3)[4] = 1;
    refused(&p, "9: cell 25 has slice 1", 9, 25);
    p = accepted();
    resize(&p, SLICE, 0, 0);
    cell(&p, 1, 3)[4] = 1;
    refused(&p, "9: cell 25 has slice 1, no slice", 9, 25);
    p = accepted();
    cell(&p, 1, 1)[1] = 32;
    refused(&p, "9: cell 9 has flags 32", 9, 9);
}

/* Cell 9, off every edge: a vertical bS above 0 needs bit 0 of the flags, a horizontal one bit 1. */
static const struct Strengths {
    const char *name;
    uint8_t flags, vertical, horizontal;
    uint32_t number;
} strengths[] = {
    { "9: vertical bS 1, no edge", 0, 1, 0, 9 },
    { "9: vertical bS 2, the edge on the top side", 2, 2, 0, 9 },
    { "9: vertical bS 2, every mark and no edge", 28, 2, 0, 9 },
    { "9: vertical bS 2, the horizontal one in rule", 2, 2, 2, 9 },
    { "9: horizontal bS 1, no edge", 0, 0, 1, 9 },
    { "9: horizontal bS 2, the edge on the left side", 1, 0, 2, 9 },
    { "9: horizontal bS 2, every mark and no edge", 28, 0, 2, 9 },
    { "9: horizontal bS 2, the vertical one in rule", 1, 2, 2, 9 },
    { "9: both, no edge", 0, 2, 1, 9 },
    { "vertical bS 2 with its edge", 1, 2, 0, 0 },
    { "horizontal bS 2 with its edge", 2, 0, 2, 0 },
    { "both with their edges", 3, 1, 2, 0 },
    { "edges of bS 0", 3, 0, 0, 0 },
};

static void strength_cases(void) {
    for (size_t i = 0; i < sizeof strengths / sizeof *strengths; i++) {
        const struct Strengths *t = &strengths[i];
        struct Picture p = accepted();
        cell(&p, 1, 1)[1] = t->flags, cell(&p, 1, 1)[2] = t->vertical, cell(&p, 1, 1)[3] = t->horizontal;
        run(&p, t->name, t->number, t->number == 0 ? 0 : 9);
        if (t->number == 0) expect_step(&p, t->name, 0, HEIGHT);
        done(&p);
    }
    /* The first bad cell, for whichever reason. */
    struct Picture p = accepted();
    cell(&p, 3, 0)[0] = 63, cell(&p, 1, 1)[2] = 1;
    refused(&p, "9: QP byte 63 before a bS without its edge", 9, 3);
    p = accepted();
    cell(&p, 3, 0)[3] = 1, cell(&p, 1, 1)[0] = 63;
    refused(&p, "9: a bS without its edge before QP byte 63", 9, 3);
}

static void refused_samples(void) {
    struct Picture p = accepted();
    samples(&p, Y)[5] = 256;
    refused(&p, "10: Y sample 5 is 256", 10, 5);
    p = accepted();
    samples(&p, CB)[3] = 256;
    refused(&p, "10: Cb sample 3 is 256", 10, LUMA + 3);
    p = accepted();
    samples(&p, CR)[CHROMA - 1] = 65535;
    refused(&p, "10: the last Cr sample is 65535", 10, LUMA + 2 * CHROMA - 1);
    p = accepted();
    samples(&p, CR)[0] = 256, cell(&p, 7, 3)[7] = 1;
    refused(&p, "9 before 10", 9, 31);
}

/* Byte i of a list's conversion: of a whole record, bytes 2 and 3 need bits 0 and 1 of byte 1. */
static uint8_t converted(const uint8_t *cells, size_t count, size_t i) {
    size_t first = i / 8 * 8, byte = i % 8;
    bool is_strength = first + 8 <= count && (byte == 2 || byte == 3);
    return is_strength && (cells[first + 1] >> (byte - 2) & 1) == 0 ? 0 : cells[i];
}

/* Converts the first bytes of a list, and looks at all that no answer may change. */
static void convert(const char *name, const uint8_t *list, size_t count, size_t out_count) {
    struct Lent cells = lend(count, 0), out = lend(out_count, OUT_JUNK), place = lend(8, OUT_JUNK);
    memcpy(at(&cells), list, count);
    remember(&cells), remember(&out);
    uint32_t number = tinladle_convert_cells(lent(&cells), count, lent(&out), out_count, at(&place));
    expect(number == (count == out_count ? 0 : 6), name, "the number");
    expect(stored_place(&place) == 0, name, "the place");
    expect(guarded(&cells) && guarded(&out) && guarded(&place), name, "a guard was written");
    expect(unchanged(&cells), name, "the list was written");
    if (number != 0) expect(unchanged(&out), name, "a refusal wrote the output");
    for (size_t i = 0; number == 0 && i < count; i++)
        expect(((uint8_t *)at(&out))[i] == converted(list, count, i), name, "a byte");
    give_back(&cells), give_back(&out), give_back(&place);
}

/* Records worked out by hand: before and after. */
static const struct Record {
    uint8_t before[8], after[8];
} records[] = {
    { { 101, 0, 2, 1, 3, 2, 0, 0 }, { 101, 0, 0, 0, 3, 2, 0, 0 } },
    { { 101, 1, 2, 1, 3, 2, 0, 0 }, { 101, 1, 2, 0, 3, 2, 0, 0 } },
    { { 101, 2, 2, 1, 3, 2, 0, 0 }, { 101, 2, 0, 1, 3, 2, 0, 0 } },
    { { 101, 3, 2, 1, 3, 2, 0, 0 }, { 101, 3, 2, 1, 3, 2, 0, 0 } },
    { { 101, 28, 1, 2, 3, 2, 0, 0 }, { 101, 28, 0, 0, 3, 2, 0, 0 } },
    { { 255, 252, 255, 255, 255, 255, 255, 255 }, { 255, 252, 0, 0, 255, 255, 255, 255 } },
    { { 255, 255, 255, 255, 255, 255, 255, 255 }, { 255, 255, 255, 255, 255, 255, 255, 255 } },
};

static void converted_records(void) {
    for (size_t i = 0; i < sizeof records / sizeof *records; i++) {
        const struct Record *t = &records[i];
        convert("a record", t->before, 8, 8);
        for (size_t j = 0; j < 8; j++) expect(converted(t->before, 8, j) == t->after[j], "a record", "by hand");
    }
    /* Every flags byte with strengths in range and out of it. */
    static const uint8_t bs[5] = { 0, 1, 2, 3, 255 };
    static uint8_t list[256 * 25 * 8];
    for (int i = 0; i < 256 * 25; i++) {
        uint8_t *record = list + 8 * i;
        memset(record, i % 251, 8);
        record[1] = (uint8_t)(i / 25), record[2] = bs[i / 5 % 5], record[3] = bs[i % 5];
    }
    convert("every flags byte", list, sizeof list, sizeof list);
    printf("records converted, one by one and every flags byte\n");
}

/* Lists of up to nine records and a part of one, into as many bytes, fewer and more; null where there are none. */
static void converted_lengths(void) {
    uint8_t list[80];
    for (size_t i = 0; i < sizeof list; i++) list[i] = (uint8_t)(i % 8 == 1 ? i / 8 : 200 - i);
    for (size_t count = 0; count < sizeof list; count++)
        for (size_t out = 0; out < sizeof list; out++) convert("lengths", list, count, out);
    printf("lists of 0 to 79 bytes converted into 0 to 79\n");
}

/* S1 as a box wrote it, with strengths in every cell and edges in one column: refused, and with its list converted
 * filtered as ever. */
static void converted_picture(void) {
    struct Picture p = accepted();
    for (int i = 0; i < CELLS; i++) cell(&p, i, 0)[2] = cell(&p, i, 0)[3] = 2;
    run(&p, "9: S1 with strengths in every cell", 9, 0);
    struct Lent stored = p.lent[CELL];
    p.lent[CELL] = lend(stored.bytes, OUT_JUNK);
    uint64_t place;
    uint32_t number = tinladle_convert_cells(at(&stored), stored.bytes, LENT8(&p, CELL), &place);
    expect(number == 0 && place == 0, "the conversion", "the answer");
    run(&p, "S1 with its list converted", 0, 0);
    expect_step(&p, "S1 with its list converted", 0, HEIGHT);
    expect_chroma_copied(&p, "S1 with its list converted");
    give_back(&stored);
    done(&p);
}

/* The checksum of a plane, by the loop of H.265, Annex D. */
static uint32_t plane_sum(const uint16_t *plane, uint32_t width, uint32_t height, uint32_t depth) {
    uint32_t sum = 0;
    for (uint32_t y = 0; y < height; y++)
        for (uint32_t x = 0; x < width; x++) {
            uint32_t mask = (x & 0xFF) ^ (y & 0xFF) ^ (x >> 8) ^ (y >> 8), sample = plane[y * width + x];
            sum += (sample & 0xFF) ^ mask;
            if (depth > 8) sum += (sample >> 8) ^ mask;
        }
    return sum;
}

/* By what luma's columns and rows are divided in chroma, in formats 1 to 3. */
static const uint32_t across[4] = { 0, 2, 2, 1 }, down[4] = { 0, 2, 1, 1 };

static void sums_of(struct Picture *p, uint32_t sums[3]) {
    sums[0] = plane_sum(samples(p, Y), p->width, p->height, p->luma_depth);
    for (int i = CB; p->format != 0 && i <= CR; i++)
        sums[i] = plane_sum(samples(p, i), p->width / across[p->format], p->height / down[p->format], p->chroma_depth);
}

/* A pixel that is asked for; where there is none, the checksums are. */
struct Pixel {
    uint32_t column, row;
};

/* Calls the function that takes planes alone and stores three values of 32 bits. */
static uint32_t ask(struct Picture *p, const struct Pixel *pixel, struct Lent values[3]) {
    void *of_y = at(&values[0]), *of_cb = at(&values[1]), *of_cr = at(&values[2]), *place = at(&p->lent[PLACE]);
    if (!pixel) return tinladle_checksum(SIZES(p), PLANES(p), of_y, of_cb, of_cr, place);
    return tinladle_pixel(SIZES(p), PLANES(p), pixel->column, pixel->row, of_y, of_cb, of_cr, place);
}

/* What is expected of a call: number and place, and the bits of the values. In format 0 that of luma alone is to be
 * stored, on a refusal none, and what is not stored keeps its junk. */
struct Answer {
    const char *name;
    uint32_t number;
    uint64_t place;
    const uint32_t *values;
};

/* A call with each value between guards. */
static uint32_t ask_over(struct Picture *p, const struct Pixel *pixel, const struct Answer *wanted, uint32_t junk) {
    struct Lent values[3];
    for (int i = 0; i < 3; i++) {
        values[i] = lend(sizeof junk, 0);
        memcpy(at(&values[i]), &junk, sizeof junk);
        remember(&values[i]);
    }
    remember_all(p);
    uint32_t answer = ask(p, pixel, values);
    expect_answer(p, wanted->name, answer, wanted->number, wanted->place);
    for (int i = 0; i < 3; i++) {
        bool is_stored = wanted->number == 0 && (i == 0 || p->format != 0);
        if (is_stored) expect(memcmp(at(&values[i]), &wanted->values[i], sizeof junk) == 0, wanted->name, "a value");
        else expect(unchanged(&values[i]), wanted->name, "a value was stored");
        expect(guarded(&values[i]), wanted->name, "a guard of a value was written");
        give_back(&values[i]);
    }
    return answer;
}

/* What the values may hold before the call: a number, and NaNs that are quiet, signalling and negative. */
static const uint32_t junk[] = { 0xA5A5A5A5, 0x7FC00000, 0x7FA00001, 0xFFFFFFFF };

/* Over each, where the values are floats. */
static uint32_t ask_over_junk(struct Picture *p, const struct Pixel *pixel, const struct Answer *wanted) {
    for (size_t i = 1; pixel && i < sizeof junk / sizeof *junk; i++) ask_over(p, pixel, wanted, junk[i]);
    return ask_over(p, pixel, wanted, junk[0]);
}

static void sum(struct Picture *p, const char *what, const uint32_t wanted[3]) {
    char name[100];
    snprintf(name, sizeof name, "checksum, %s", what);
    tell(p, name, ask_over_junk(p, NULL, &(struct Answer) { name, 0, 0, wanted }));
}

/* Sizes, format and depths, and the sums of zeros where they are worked out by hand: the masks of 8 by 8 samples are 0
 * to 7 in each row, of 4 by 4 samples 0 to 3, of 4 by 8 samples 0 to 3 in four rows and 4 to 7 in four, of each 256
 * samples in a row of the last one 0 to 255. Above depth 8 each joins twice. The first is document 02's figure; the
 * last is 0x1fe000000, kept modulo 2^32. */
static const struct Summed {
    const char *name;
    uint32_t width, height, format, luma_depth, chroma_depth, by_hand[3];
} summed[] = {
    { "8 by 8, 4:2:0", 8, 8, 1, 8, 8, { 0xe0, 0x18, 0x18 } },
    { "8 by 8, no chroma", 8, 8, 0, 8, 8, { 0xe0 } },
    { "8 by 8, 4:2:2", 8, 8, 2, 8, 8, { 0xe0, 0x70, 0x70 } },
    { "8 by 8, 4:4:4", 8, 8, 3, 8, 8, { 0xe0, 0xe0, 0xe0 } },
    { "depths 9 and 8", 8, 8, 1, 9, 8, { 0x1c0, 0x18, 0x18 } },
    { "depths 8 and 10", 8, 8, 1, 8, 10, { 0xe0, 0x30, 0x30 } },
    { "depths 16 and 16", 8, 8, 3, 16, 16, { 0x1c0, 0x1c0, 0x1c0 } },
    { "depths 8 and 16, no chroma", 8, 8, 0, 8, 16, { 0xe0 } },
    { "depths 16 and 8, no chroma", 8, 8, 0, 16, 8, { 0x1c0 } },
    { "24 by 40", 24, 40, 2, 16, 9, { 0 } },
    { "520 by 8", 520, 8, 3, 9, 8, { 0 } },
    { "8 by 520", 8, 520, 1, 8, 8, { 0 } },
    { "4104 by 8", 4104, 8, 2, 8, 12, { 0 } },
    { "8 by 4104", 8, 4104, 3, 12, 8, { 0 } },
    { "8192 by 16", 8192, 16, 1, 10, 10, { 0 } },
    { "8192 by 4096", 8192, 4096, 0, 16, 8, { 0xfe000000 } },
};

/* Planes of these sizes. */
static struct Picture planes(const struct Summed *t) {
    struct Picture p = accepted();
    size_t luma = (size_t)t->width * t->height;
    size_t chroma = t->format == 0 ? 0 : luma / (across[t->format] * down[t->format]);
    p.width = t->width, p.height = t->height, p.format = t->format;
    p.luma_depth = t->luma_depth, p.chroma_depth = t->chroma_depth;
    resize(&p, Y, 2 * luma, 0), resize(&p, CB, 2 * chroma, 0), resize(&p, CR, 2 * chroma, 0);
    return p;
}

enum { ZERO, MIXED, MIDDLE, LARGEST, FILLS };
static const char *fills[FILLS] = { "zeros", "of every bit", "in the middle", "at their largest" };

static void fill(struct Picture *p, int how) {
    for (int i = Y; i <= CR; i++) {
        uint32_t most = (1u << (i == Y ? p->luma_depth : p->chroma_depth)) - 1;
        for (size_t k = 0; k < p->lent[i].bytes / 2; k++) {
            const size_t values[FILLS] = { 0, (k + 7 * i) * 40503 & most, most / 2 + 1, most };
            samples(p, i)[k] = (uint16_t)values[how];
        }
    }
}

static void sum_cases(void) {
    for (size_t i = 0; i < sizeof summed / sizeof *summed; i++) {
        const struct Summed *t = &summed[i];
        struct Picture p = planes(t);
        for (int how = ZERO; how < FILLS; how++) {
            char name[80];
            snprintf(name, sizeof name, "%s, %s", t->name, fills[how]);
            uint32_t sums[3] = { 0 };
            fill(&p, how);
            sums_of(&p, sums);
            bool is_known = how == ZERO && t->by_hand[0] != 0;
            if (is_known) expect(memcmp(sums, t->by_hand, sizeof sums) == 0, name, "by hand");
            sum(&p, name, sums);
        }
        done(&p);
    }
}

/* Planes of which neither checksums nor a pixel are told, inside or outside. */
static void refused_planes(struct Picture *p, const char *what, uint32_t number, uint64_t place) {
    static const struct Pixel inside = { 7, 7 }, outside = { 32, 16 }, *pixels[3] = { NULL, &inside, &outside };
    static const char *functions[3] = { "checksum", "pixel inside", "pixel outside" };
    for (int i = 0; i < 3; i++) {
        char name[100];
        snprintf(name, sizeof name, "%s, %s", functions[i], what);
        tell(p, name, ask_over_junk(p, pixels[i], &(struct Answer) { name, number, place, NULL }));
    }
    done(p);
}

static void refused_plane_settings(void) {
    for (size_t i = 0; i < sizeof bad_settings / sizeof *bad_settings; i++) {
        const struct Setting *t = &bad_settings[i];
        if (t->number > 3) continue; /* no such setting is taken with planes alone */
        struct Picture p = accepted();
        memcpy((char *)&p + t->offset, &t->value, sizeof t->value);
        refused_planes(&p, t->name, t->number, 0);
    }
    struct Picture p = planes(&summed[1]);
    p.chroma_depth = 17;
    refused_planes(&p, "3: chroma depth 17, no chroma", 3, 0);
}

static void refused_plane_lengths(void) {
    static const char *names[3][2] = { { "6: y short", "6: y long" }, { "6: cb short", "6: cb long" },
        { "6: cr short", "6: cr long" } };
    for (int i = Y; i <= CR; i++)
        for (int is_long = 0; is_long < 2; is_long++) {
            struct Picture p = accepted();
            resize(&p, i, p.lent[i].bytes + (is_long ? 2 : -2), 0);
            refused_planes(&p, names[i][is_long], 6, 0);
        }
    /* All three null. */
    struct Picture p = accepted();
    resize(&p, Y, 0, 0), resize(&p, CB, 0, 0), resize(&p, CR, 0, 0);
    refused_planes(&p, "6: no sample", 6, 0);
    for (int i = CB; i <= CR; i++) {
        p = planes(&summed[1]);
        resize(&p, i, 2, 0);
        refused_planes(&p, i == CB ? "6: a Cb sample, no chroma" : "6: a Cr sample, no chroma", 6, 0);
    }
}

static void refused_plane_samples(void) {
    struct Picture p = accepted();
    samples(&p, Y)[5] = 256;
    refused_planes(&p, "10: Y sample 5 is 256", 10, 5);
    p = accepted();
    p.luma_depth = 9;
    samples(&p, Y)[5] = 511, samples(&p, CB)[3] = 256, samples(&p, CR)[0] = 256;
    refused_planes(&p, "10: depths 9 and 8, Cb sample 3 is 256", 10, LUMA + 3);
    p = accepted();
    p.chroma_depth = 10;
    samples(&p, CB)[3] = 1023, samples(&p, CR)[CHROMA - 1] = 1024;
    refused_planes(&p, "10: depths 8 and 10, the last Cr sample is 1024", 10, LUMA + 2 * CHROMA - 1);
}

/* Changes planes so that they are refused with this number. */
static void spoil(struct Picture *p, uint32_t number) {
    if (number == 1) p->width = 12;
    if (number == 2) p->format = 4;
    if (number == 3) p->luma_depth = 17;
    if (number == 6) resize(p, CR, p->lent[CR].bytes - 2, 0);
    if (number == 10) samples(p, Y)[9] = 256;
}

static void refused_planes_in_order(void) {
    static const uint32_t numbers[5] = { 1, 2, 3, 6, 10 };
    for (int i = 0; i < 5; i++)
        for (int j = i + 1; j < 5; j++) {
            struct Picture p = accepted();
            spoil(&p, numbers[i]), spoil(&p, numbers[j]);
            char name[40];
            snprintf(name, sizeof name, "%u before %u", (unsigned)numbers[i], (unsigned)numbers[j]);
            refused_planes(&p, name, numbers[i], 0);
        }
}

/* The bits of n / 2^depth as a float, from sign, exponent and mantissa. */
static uint32_t fraction(int32_t n, uint32_t depth) {
    if (n == 0) return 0;
    uint32_t size = (uint32_t)abs(n), exponent = 0;
    while (size >> exponent > 1) exponent++;
    return (n < 0) * 0x80000000u | (127 + exponent - depth) << 23 | (size << (23 - exponent) & 0x7FFFFF);
}

/* The bits of the float that a sample gives. */
static uint32_t part(uint32_t depth, bool chroma, uint32_t sample) {
    return fraction((int32_t)sample - (chroma ? 1 << (depth - 1) : 0), depth);
}

/* Asks for a pixel inside. */
static void expect_pixel(struct Picture *p, const char *what, const struct Pixel *pixel) {
    char name[100];
    snprintf(name, sizeof name, "pixel %u, %u, %s", (unsigned)pixel->column, (unsigned)pixel->row, what);
    uint32_t parts[3] = { part(p->luma_depth, false, samples(p, Y)[pixel->row * p->width + pixel->column]) };
    for (int i = CB; p->format != 0 && i <= CR; i++) {
        uint32_t column = pixel->column / across[p->format], row = pixel->row / down[p->format];
        parts[i] = part(p->chroma_depth, true, samples(p, i)[row * (p->width / across[p->format]) + column]);
    }
    ask_over_junk(p, pixel, &(struct Answer) { name, 0, 0, parts });
}

/* Some pixels of each picture but the last, which is too large to be looked through so often. */
static void pixel_cases(void) {
    for (size_t i = 0; i < sizeof summed / sizeof *summed - 1; i++) {
        const struct Summed *t = &summed[i];
        const uint32_t columns[7] = { 0, 1, 2, 3, t->width / 2, t->width - 2, t->width - 1 };
        const uint32_t rows[7] = { 0, 1, 2, 3, t->height / 2, t->height - 2, t->height - 1 };
        struct Picture p = planes(t);
        for (int how = ZERO; how < FILLS; how++) {
            fill(&p, how);
            for (int k = 0; k < 7 * 7; k++) expect_pixel(&p, t->name, &(struct Pixel) { columns[k % 7], rows[k / 7] });
        }
        printf("pixels, %s: looked at\n", t->name);
        done(&p);
    }
}

/* Pixels past each side of 32 by 16, in colour and in grey. */
static void outside_cases(void) {
    static const struct Pixel outside[] = {
        { 32, 0 }, { 32, 15 }, { 0, 16 }, { 31, 16 }, { 32, 16 }, { 16, 31 }, { 511, 0 }, { 0, 1u << 27 },
        { 1u << 31, 1u << 31 }, { UINT32_MAX, 0 }, { 0, UINT32_MAX }, { UINT32_MAX, UINT32_MAX },
    };
    for (int is_grey = 0; is_grey < 2; is_grey++) {
        struct Picture p = accepted();
        p.format = is_grey ? 0 : 1;
        for (int i = CB; is_grey && i <= CR; i++) resize(&p, i, 0, 0);
        for (size_t i = 0; i < sizeof outside / sizeof *outside; i++)
            ask_over_junk(&p, &outside[i], &(struct Answer) { "14: a pixel outside", 14, 0, NULL });
        expect_pixel(&p, "the last one", &(struct Pixel) { 31, 15 });
        done(&p);
    }
    printf("14: pixels outside, in colour and in grey\n");
}

/* Asks for the sample of a float, by its bits; sample and place between guards. */
static void back(uint32_t depth, bool chroma, uint32_t bits, uint32_t number, uint32_t wanted) {
    char name[100];
    snprintf(name, sizeof name, "sample of %08x, depth %u, chroma %d", (unsigned)bits, (unsigned)depth, chroma);
    struct Lent sample = lend(sizeof(uint16_t), OUT_JUNK), place = lend(sizeof(uint64_t), OUT_JUNK);
    float value;
    memcpy(&value, &bits, sizeof value);
    remember(&sample);
    uint32_t answer = tinladle_sample(depth, chroma, value, at(&sample), at(&place));
    expect(answer == number, name, "the number");
    expect(stored_place(&place) == 0, name, "the place");
    expect(guarded(&sample) && guarded(&place), name, "a guard was written");
    if (number == 0) expect(*(uint16_t *)at(&sample) == wanted, name, "the sample");
    else expect(unchanged(&sample), name, "a refusal wrote the sample");
    give_back(&sample), give_back(&place);
}

/* Each sample's float, what is beside it by one bit, and the half above it. The float before 0.0 by its bits is a
 * NaN. */
static void back_cases(uint32_t depth, bool chroma) {
    int32_t count = 1 << depth, middle = chroma ? count / 2 : 0;
    for (int32_t sample = 0; sample < count; sample++) {
        uint32_t bits = part(depth, chroma, (uint32_t)sample);
        back(depth, chroma, bits, 0, (uint32_t)sample);
        back(depth, chroma, bits + 1, 15, 0);
        back(depth, chroma, bits - 1, 15, 0);
        back(depth, chroma, fraction(2 * (sample - middle) + 1, depth + 1), 15, 0);
    }
    back(depth, chroma, fraction(-middle - 1, depth), 15, 0);
    back(depth, chroma, fraction(count - middle, depth), 15, 0);
}

/* Zero with a sign, the infinities, NaNs of every kind, subnormals, the least and the largest normal floats, 0.1, 256,
 * 1 and -1. */
static const uint32_t never[] = {
    0x80000000, 0x7F800000, 0xFF800000, 0x7FC00000, 0x7FC00001, 0x7FFFFFFF, 0x7F800001, 0x7FA00000, 0xFFC00000,
    0xFF800001, 0xFFFFFFFF, 0x00000001, 0x007FFFFF, 0x80000001, 0x807FFFFF, 0x00800000, 0x80800000, 0x7F7FFFFF,
    0xFF7FFFFF, 0x3DCCCCCD, 0x43800000, 0x3F800000, 0xBF800000,
};

static void way_back(void) {
    static const uint32_t bad_depths[] = { 0, 1, 7, 17, 31, 32, 33, 1u << 31, UINT32_MAX };
    for (int chroma = 0; chroma < 2; chroma++) {
        for (uint32_t depth = 8; depth <= 16; depth++) {
            back_cases(depth, chroma);
            for (size_t i = 0; i < sizeof never / sizeof *never; i++) back(depth, chroma, never[i], 15, 0);
        }
        for (size_t i = 0; i < sizeof bad_depths / sizeof *bad_depths; i++) {
            back(bad_depths[i], chroma, 0, 3, 0);
            for (size_t j = 0; j < sizeof never / sizeof *never; j++) back(bad_depths[i], chroma, never[j], 3, 0);
        }
    }
    printf("samples of floats, each sample at every depth and what no sample gives\n");
}

int main(void) {
    luma_cases();
    chroma_cases();
    palette_case("palette cells, PCM switch off", false);
    palette_case("palette cells, PCM switch on", true);
    farthest_case();
    unfiltered_cases();
    refused_settings();
    refused_lengths();
    refused_lists();
    refused_cells();
    refused_samples();
    strength_cases();
    converted_records();
    converted_lengths();
    converted_picture();
    sum_cases();
    refused_plane_settings();
    refused_plane_lengths();
    refused_plane_samples();
    refused_planes_in_order();
    pixel_cases();
    outside_cases();
    way_back();
    if (failures) return printf("%d differences\n", failures), 1;
    printf("ok\n");
    return 0;
}
