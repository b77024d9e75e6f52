/* What include/frames.h says of the calls beside their answers: NULL with length 0, bytes that stay, arrays that are filled, the stack that
 * is used, calls on several threads at once. Prints what it found, and fails at the first difference. */
#include <pthread.h>
#include <stdio.h>
#include <stdlib.h>
#include <string.h>

#include "frames.h"

typedef struct {
    const uint8_t *bytes;
    size_t len;
} text;

static text as_text(const char *s) {
    text t = {(const uint8_t *)s, strlen(s)};
    return t;
}

static const char course[] =
    "(board (blue 1 6) (red 1 6))\n(task 1 4 2)\n(task 2 3 5)\n(task 3 2 6)\n(file 1 2 2 1)\n(file 1 3 3 2)\n";
static const char paper[] = "(run 1 2 0)\n(run 2 1 3)\n(run 3 1 6)\n(move 1 2 2)\n(move 1 3 4)\n(claim 8 5 5)\n";

static void expect(const char *what, const uint64_t *got, size_t n, const uint64_t *want) {
    for (size_t i = 0; i < n; i++) {
        if (got[i] != want[i]) {
            printf("%s: number %zu of the result is %llu, not %llu\n", what, i, (unsigned long long)got[i], (unsigned long long)want[i]);
            exit(1);
        }
    }
}

#define EXPECT(what, got, ...) expect(what, got, sizeof got / sizeof got[0], (const uint64_t[]){__VA_ARGS__})

static void expect_that(const char *what, int holds) {
    if (!holds) {
        printf("%s: not so\n", what);
        exit(1);
    }
}

/* NULL stands for a text or a buffer of length 0; the line is written at the front alone, and only if it fits. */
static void null_and_short(void) {
    text sheet = as_text(course);
    uint64_t verdict[5];
    uint8_t line[40];
    frames_mark(NULL, 0, NULL, 0, verdict);
    EXPECT("no sheet, no paper", verdict, FRAMES_SHEET_MALFORMED, 1, 0, 0, 0);
    frames_mark(sheet.bytes, sheet.len, NULL, 0, verdict);
    EXPECT("no paper", verdict, FRAMES_PAPER_MALFORMED, 1, 0, 0, 0);
    frames_mark(sheet.bytes, sheet.len, sheet.bytes, sheet.len, verdict);
    EXPECT("one text as both", verdict, FRAMES_PAPER_MALFORMED, 1, 0, 0, 0);
    expect_that("no sheet, no line", frames_fault_line(NULL, 0, NULL, 0, NULL, 0) == 0);
    expect_that("length of a line that has no room", frames_fault_line(sheet.bytes, sheet.len, (const uint8_t *)"(run)\n", 6, NULL, 0) == 5);
    memset(line, 7, sizeof line);
    expect_that("a line in 4 bytes", frames_fault_line(sheet.bytes, sheet.len, (const uint8_t *)"(run)\n", 6, line, 4) == 5 && line[0] == 7);
    expect_that("a line in 5 bytes",
                frames_fault_line(sheet.bytes, sheet.len, (const uint8_t *)"(run)\n", 6, line, 5) == 5 && memcmp(line, "(run)\7", 6) == 0);
}

typedef void planner(const uint8_t *sheet, size_t sheet_len, uint8_t *out, size_t out_len, uint64_t result[3]);

/* The planners, whether each is memory-aware, and the trials that it makes on the course example; all write the same there. */
static const struct {
    const char *name;
    planner *call;
    int aware;
    uint64_t trials;
} planners[] = {
    {"MemHEFT", frames_mem_heft, 1, 6},
    {"MemMinMin", frames_mem_min_min, 1, 8},
    {"HEFT", frames_heft, 0, 6},
    {"MINMIN", frames_min_min, 0, 8},
};

#define PLANNERS (sizeof planners / sizeof planners[0])

/* A planner's call with its number, place and trials. */
static void planned(size_t at, const char *what, text sheet, uint8_t *out, size_t len, uint64_t number, uint64_t place, uint64_t trials) {
    uint64_t answer[3];
    char name[60];
    snprintf(name, sizeof name, "%s, %s", planners[at].name, what);
    planners[at].call(sheet.bytes, sheet.len, out, len, answer);
    EXPECT(name, answer, number, place, trials);
}

/* NULL again; the timetable is written at the front alone, and only if it fits. */
static void planners_null_and_short(void) {
    text sheet = as_text(course), none = {NULL, 0};
    uint8_t out[100], painted[100];
    memset(painted, 7, sizeof painted);
    for (size_t i = 0; i < PLANNERS; i++) {
        uint64_t trials = planners[i].trials;
        memcpy(out, painted, sizeof out);
        planned(i, "no sheet", none, NULL, 0, FRAMES_SHEET_MALFORMED, 1, 0);
        planned(i, "no number", as_text("(board)\n"), out, sizeof out, FRAMES_SHEET_MALFORMED, 1, 0);
        planned(i, "no buffer", sheet, NULL, 0, FRAMES_BUFFER_TOO_SHORT, 76, trials);
        planned(i, "a byte too short", sheet, out, 75, FRAMES_BUFFER_TOO_SHORT, 76, trials);
        expect_that("the buffer after refusals", memcmp(out, painted, sizeof out) == 0);
        planned(i, "a byte more", sheet, out, 77, FRAMES_OK, 76, trials);
        expect_that("the timetable, and the bytes behind it", memcmp(out, paper, 76) == 0 && memcmp(out + 76, painted, 24) == 0);
    }
}

/* The course example with both limits 4: the memory-aware planners are stuck, the plain ones write what they wrote, and the marker says 17. */
static void over_a_limit(void) {
    text sheet = as_text("(board (blue 1 4) (red 1 4))\n(task 1 4 2)\n(task 2 3 5)\n(task 3 2 6)\n(file 1 2 2 1)\n(file 1 3 3 2)\n");
    for (size_t i = 0; i < PLANNERS; i++) {
        uint64_t verdict[5];
        uint8_t out[76];
        memset(out, 7, sizeof out);
        if (planners[i].aware) {
            planned(i, "limits 4", sheet, out, sizeof out, FRAMES_STUCK, 0, 2);
            expect_that("the buffer of a planner that is stuck", out[0] == 7 && out[75] == 7);
        } else {
            planned(i, "limits 4", sheet, out, sizeof out, FRAMES_OK, 76, planners[i].trials);
            expect_that("the timetable, limits 4", memcmp(out, paper, 76) == 0);
            frames_mark(sheet.bytes, sheet.len, out, sizeof out, verdict);
            EXPECT("the marker, limits 4", verdict, FRAMES_OVER_LIMIT, 0, 0, 0, 0);
        }
    }
}

/* The simulator's three arrays with a word on both sides of each. */
typedef struct {
    uint64_t a, result[6], b, running[16], c, contents[256], d;
} simulation;

#define PAINT 0xA5A5A5A5A5A5A5A5u

/* A call on painted words: those between the arrays stay, and all words of the arrays are written. */
static void simulated(const char *what, simulation *s, text sheet, text table, uint64_t made, uint64_t steps) {
    memset(s, 0xA5, sizeof *s);
    frames_simulate(sheet.bytes, sheet.len, table.bytes, table.len, made, steps, s->result, s->running, s->contents);
    int filled = 1;
    for (int i = 0; i < 6; i++) filled &= s->result[i] != PAINT;
    for (int i = 0; i < 16; i++) filled &= s->running[i] != PAINT;
    for (int i = 0; i < 256; i++) filled &= s->contents[i] != PAINT;
    expect_that(what, filled && s->a == PAINT && s->b == PAINT && s->c == PAINT && s->d == PAINT);
}

/* The state of the simulator: two processors and two files, and 0 behind them. */
static void expect_state(const char *what, const simulation *s, uint64_t run1, uint64_t run2, uint64_t file1, uint64_t file2) {
    uint64_t running[16] = {run1, run2}, contents[256] = {file1, file2};
    expect(what, s->running, 16, running);
    expect(what, s->contents, 256, contents);
}

/* The simulator before the first step, on its way, at the end, past it, stopped, and on refused texts. */
static void simulator(void) {
    text sheet = as_text(course), plan = as_text(paper), none = {NULL, 0};
    simulation s;
    simulated("no sheet, no paper", &s, none, none, 2, 3);
    EXPECT("no sheet, no paper", s.result, FRAMES_SHEET_MALFORMED, 1, 0, 0, 0, 0);
    expect_state("no sheet, no paper", &s, 0, 0, 0, 0);
    simulated("no paper", &s, sheet, none, 0, 1);
    EXPECT("no paper", s.result, FRAMES_PAPER_MALFORMED, 1, 0, 0, 0, 0);
    expect_state("no paper", &s, 0, 0, 0, 0);
    simulated("no step", &s, sheet, plan, 0, 0);
    EXPECT("no step", s.result, FRAMES_OK, 0, 1, 0, 0, 0);
    expect_state("no step", &s, 0, 0, 0, 0);
    simulated("two steps after two", &s, sheet, plan, 2, 2);
    EXPECT("two steps after two", s.result, FRAMES_OK, 0, 1, 0, 4, 4);
    expect_state("two steps after two", &s, 2, 0, 1, 3);
    simulated("the end", &s, sheet, plan, 0, 6);
    EXPECT("the end", s.result, FRAMES_OK, 0, 0, 8, 6, 8);
    expect_state("the end", &s, 0, 0, 0, 0);
    simulated("past the end", &s, sheet, plan, UINT64_MAX, UINT64_MAX);
    EXPECT("past the end", s.result, FRAMES_OK, 0, 0, 8, 6, 8);
    text early = as_text("(run 1 2 0)\n(run 2 1 3)\n(run 3 1 6)\n(move 1 2 1)\n(move 1 3 4)\n(claim 8 5 5)\n");
    simulated("an early move", &s, sheet, early, 0, 1024);
    EXPECT("an early move", s.result, FRAMES_EARLY, 1, 0, 0, 1, 0);
    expect_state("an early move", &s, 0, 1, 2, 2);
}

/* The largest sheet with the longest times, 64 tasks and 256 files, and a timetable that moves every file, makers on processor 1, readers on 9;
 * with the greatest working memory for every task, or without any. */
static char large[FRAMES_MAX_TEXT];
static char large_paper[FRAMES_MAX_TEXT];

static void make_large(int with_work) {
    char *s = large;
    char *p = large_paper;
    s += sprintf(s, "(board (blue 8 999999999) (red 8 999999999))\n");
    for (int i = 1; i <= 64; i++) {
        s += sprintf(s, "(task %d 1000000000 1000000000%s)\n", i, with_work ? " 1000000" : "");
        p += sprintf(p, "(run %d %d %lld)\n", i, i <= 32 ? 1 : 9, 1000000000LL * (i + (i <= 32 ? 0 : 1)));
    }
    for (int i = 1; i <= 32; i++) {
        for (int j = 33; j <= 40; j++) {
            s += sprintf(s, "(file %d %d 1000000 1000000000)\n", i, j);
            p += sprintf(p, "(move %d %d 33000000000)\n", i, j);
        }
    }
    unsigned peak = with_work ? 257000000 : 256000000;
    sprintf(p, "(claim 66000000000 %u %u)\n", peak, peak);
}

/* Numbers of twelve digits come through whole. */
static void wide_numbers(void) {
    uint64_t verdict[5];
    text sheet = as_text("(board (blue 1 0) (red 1 0))\n(task 1 1 0)\n");
    text latest = as_text("(run 1 2 999999999999)\n(claim 999999999999 0 0)\n");
    text later = as_text("(run 1 1 999999999999)\n(claim 999999999999 0 0)\n");
    frames_mark(sheet.bytes, sheet.len, latest.bytes, latest.len, verdict);
    EXPECT("a span of 12 digits", verdict, FRAMES_OK, 0, 999999999999, 0, 0);
    frames_mark(sheet.bytes, sheet.len, later.bytes, later.len, verdict);
    EXPECT("a span of 13 digits", verdict, FRAMES_CLAIM_UNTRUE, 0, 0, 0, 0);
}

/* The largest timetable, with working memory and without. The one with it is then measured. */
static void largest(void) {
    uint64_t verdict[5];
    make_large(0);
    text s = as_text(large), p = as_text(large_paper);
    frames_mark(s.bytes, s.len, p.bytes, p.len, verdict);
    EXPECT("the largest timetable", verdict, FRAMES_OK, 0, 66000000000, 256000000, 256000000);
    make_large(1);
    s = as_text(large), p = as_text(large_paper);
    frames_mark(s.bytes, s.len, p.bytes, p.len, verdict);
    EXPECT("the largest timetable, with working memory", verdict, FRAMES_OK, 0, 66000000000, 257000000, 257000000);
}

/* Working memory over a limit: 21 for a planner, 17 for a timetable and for the simulator, which does not show it otherwise. */
static void working_memory(void) {
    uint64_t verdict[5];
    simulation s;
    text sheet = as_text("(board (blue 1 4) (red 1 4))\n(task 1 2 2 5)\n");
    text zero = as_text("(board (blue 1 4) (red 1 4))\n(task 1 2 2 0)\n");
    text table = as_text("(run 1 1 3)\n(claim 5 5 0)\n");
    uint8_t out[64];
    planned(0, "W over both limits, MemHEFT", sheet, out, sizeof out, FRAMES_STUCK, 0, 2);
    planned(0, "a written 0, MemHEFT", zero, out, sizeof out, FRAMES_SHEET_OUT_OF_RANGE, 2, 0);
    frames_mark(sheet.bytes, sheet.len, table.bytes, table.len, verdict);
    EXPECT("W over a limit", verdict, FRAMES_OVER_LIMIT, 3, 0, 0, 0);
    simulated("W over a limit", &s, sheet, table, 0, 1024);
    EXPECT("W over a limit, simulated", s.result, FRAMES_OVER_LIMIT, 3, 0, 0, 0, 0);
}

/* The course example with working memory and limits of 8, the sheet that it is converted to, a timetable of that one, and what is left of it. */
static const char with_work[] =
    "(board (blue 1 8) (red 1 8))\n(task 1 4 2)\n(task 2 3 5 1)\n(task 3 2 6 2)\n(file 1 2 2 1)\n(file 1 3 3 2)\n";
static const char converted[] = "(board (blue 1 8) (red 1 8))\n(task 1 0 0)\n(task 2 0 0)\n(task 3 4 2)\n(task 4 3 5)\n(task 5 2 6)\n"
                                "(file 1 4 1 1)\n(file 2 5 2 1)\n(file 3 4 2 1)\n(file 3 5 3 2)\n";
static const char with_added[] = "(run 1 2 2)\n(run 2 1 0)\n(run 3 2 0)\n(run 4 1 3)\n(run 5 1 6)\n"
                                 "(move 1 4 2)\n(move 3 4 2)\n(move 3 5 4)\n(claim 8 8 6)\n";
static const char stripped[] = "(run 1 2 0)\n(run 2 1 3)\n(run 3 1 6)\n(move 1 2 2)\n(move 1 3 4)\n(claim 8 6 5)\n";

/* A result of two numbers with a word on both sides. */
typedef struct {
    uint64_t a, result[2], b;
} conversion;

static void expect_conversion(const char *what, const conversion *c, uint64_t number, uint64_t place) {
    EXPECT(what, c->result, number, place);
    expect_that(what, c->a == PAINT && c->b == PAINT);
}

/* The converter's call with its number and place. */
static void convert(const char *what, text sheet, uint8_t *out, size_t len, uint64_t number, uint64_t place) {
    conversion c;
    memset(&c, 0xA5, sizeof c);
    frames_convert(sheet.bytes, sheet.len, out, len, c.result);
    expect_conversion(what, &c, number, place);
}

/* The call that strips a timetable, with its number and place. */
static void strip(const char *what, text sheet, text table, uint8_t *out, size_t len, uint64_t number, uint64_t place) {
    conversion c;
    memset(&c, 0xA5, sizeof c);
    frames_strip(sheet.bytes, sheet.len, table.bytes, table.len, out, len, c.result);
    expect_conversion(what, &c, number, place);
}

/* A sheet of so many tasks, of which the first so many have working memory, and of the first so many pairs of tasks as files. */
static text many(int tasks, int works, int files) {
    static char sheet[FRAMES_MAX_TEXT];
    char *s = sheet;
    s += sprintf(s, "(board (blue 1 9) (red 1 9))\n");
    for (int i = 1; i <= tasks; i++) s += sprintf(s, i <= works ? "(task %d 1 1 1)\n" : "(task %d 1 1)\n", i);
    for (int i = 1; i <= tasks; i++) {
        for (int j = i + 1; j <= tasks && files > 0; j++, files--) s += sprintf(s, "(file %d %d 1 1)\n", i, j);
    }
    return as_text(sheet);
}

/* NULL again; the converted sheet is written at the front alone, and only if it fits. One task more than 64, one file more than 256. */
static void converter(void) {
    text sheet = as_text(with_work), none = {NULL, 0};
    size_t n = strlen(converted);
    uint8_t out[FRAMES_MAX_TEXT], painted[FRAMES_MAX_TEXT];
    memset(painted, 7, sizeof painted);
    memcpy(out, painted, sizeof out);
    convert("convert, no sheet", none, NULL, 0, FRAMES_SHEET_MALFORMED, 1);
    convert("convert, a written 0", as_text("(board (blue 1 4) (red 1 4))\n(task 1 2 2 0)\n"), out, sizeof out, FRAMES_SHEET_OUT_OF_RANGE, 2);
    convert("convert, no buffer", sheet, NULL, 0, FRAMES_BUFFER_TOO_SHORT, n);
    convert("convert, a byte too short", sheet, out, n - 1, FRAMES_BUFFER_TOO_SHORT, n);
    convert("convert, 33 tasks with W", many(33, 33, 0), out, sizeof out, FRAMES_TOO_MANY_TASKS, 0);
    convert("convert, 65 tasks", many(33, 32, 0), NULL, 0, FRAMES_TOO_MANY_TASKS, 0);
    convert("convert, 257 files", many(24, 1, 256), out, sizeof out, FRAMES_TOO_MANY_FILES, 0);
    convert("convert, 65 tasks and 288 files", many(33, 32, 256), out, sizeof out, FRAMES_TOO_MANY_TASKS, 0);
    expect_that("the buffer after the converter's refusals", memcmp(out, painted, sizeof out) == 0);
    convert("convert, a byte more", sheet, out, n + 1, FRAMES_OK, n);
    expect_that("the converted sheet, and the bytes behind it", memcmp(out, converted, n) == 0 && memcmp(out + n, painted, sizeof out - n) == 0);
    sheet = as_text(course);
    convert("convert, no W", sheet, out, sizeof out, FRAMES_OK, sheet.len);
    expect_that("a sheet without W", memcmp(out, course, sheet.len) == 0);
}

/* The same of a timetable that is stripped. */
static void stripping(void) {
    text sheet = as_text(with_work), table = as_text(with_added), none = {NULL, 0};
    size_t n = strlen(stripped);
    uint8_t out[200], painted[200];
    uint64_t verdict[5];
    memset(painted, 7, sizeof painted);
    memcpy(out, painted, sizeof out);
    strip("strip, no sheet, no paper", none, none, NULL, 0, FRAMES_SHEET_MALFORMED, 1);
    strip("strip, no paper", sheet, none, NULL, 0, FRAMES_PAPER_MALFORMED, 1);
    strip("strip, no buffer", sheet, table, NULL, 0, FRAMES_BUFFER_TOO_SHORT, n);
    strip("strip, a byte too short", sheet, table, out, n - 1, FRAMES_BUFFER_TOO_SHORT, n);
    strip("strip, 66 tasks", many(33, 33, 0), table, out, sizeof out, FRAMES_TOO_MANY_TASKS, 0);
    strip("strip, 257 files", many(24, 1, 256), none, out, sizeof out, FRAMES_TOO_MANY_FILES, 0);
    strip("strip, a timetable of the sheet itself", sheet, as_text(stripped), out, sizeof out, FRAMES_PAPER_NOT_DUE, 4);
    expect_that("the buffer after refusals to strip", memcmp(out, painted, sizeof out) == 0);
    strip("strip, a byte more", sheet, table, out, n + 1, FRAMES_OK, n);
    expect_that("the stripped timetable, and the bytes behind it", memcmp(out, stripped, n) == 0 && memcmp(out + n, painted, sizeof out - n) == 0);
    frames_mark(sheet.bytes, sheet.len, out, n, verdict);
    EXPECT("the stripped timetable, marked", verdict, FRAMES_OK, 0, 8, 6, 5);
    strip("strip, no W", as_text(course), as_text(paper), out, sizeof out, FRAMES_OK, 76);
    expect_that("a timetable of a sheet without W", memcmp(out, paper, 76) == 0);
}

/* The sheet with the most working memory that is converted, 32 tasks and 224 files, and a timetable of the converted sheet that moves every file:
 * each added task runs at tick 0, on processor 9 for the first 16 tasks, which run on processor 1, and the other way round for the others. */
static char large_before[FRAMES_MAX_TEXT];
static char large_added[FRAMES_MAX_TEXT];

static void make_large_conversion(void) {
    char *s = large_before;
    char *p = large_added;
    s += sprintf(s, "(board (blue 8 999999999) (red 8 999999999))\n");
    for (int i = 1; i <= 32; i++) {
        s += sprintf(s, "(task %d 1000000000 1000000000 1000000)\n", i);
        p += sprintf(p, "(run %d %d 0)\n", i, i <= 16 ? 9 : 1);
    }
    for (int i = 1; i <= 32; i++) p += sprintf(p, "(run %d %d %lld)\n", 32 + i, i <= 16 ? 1 : 9, 1000000000LL * (i + (i <= 16 ? 0 : 1)));
    for (int i = 1; i <= 32; i++) p += sprintf(p, "(move %d %d %lld)\n", i, 32 + i, 1000000000LL * (i + (i <= 16 ? 0 : 1)) - 1);
    for (int i = 1; i <= 16; i++) {
        for (int j = 17; j <= 30; j++) {
            s += sprintf(s, "(file %d %d 1000000 1000000000)\n", i, j);
            p += sprintf(p, "(move %d %d 17000000000)\n", 32 + i, 32 + j);
        }
    }
    sprintf(p, "(claim 34000000000 241000000 226000000)\n");
}

/* The largest conversion, 64 tasks and 256 files, and its timetable stripped. They are then measured. */
static void largest_conversion(void) {
    static const char claim[] = "\n(claim 34000000000 225000000 225000000)\n";
    static uint8_t sheet[FRAMES_MAX_TEXT], table[FRAMES_MAX_TEXT];
    uint64_t answer[2], verdict[5];
    make_large_conversion();
    text before = as_text(large_before), added = as_text(large_added);
    frames_convert(before.bytes, before.len, sheet, sizeof sheet, answer);
    size_t lines = 0, length = answer[1];
    for (size_t i = 0; i < length; i++) lines += sheet[i] == '\n';
    expect_that("the largest conversion", answer[0] == FRAMES_OK && lines == 1 + 64 + 256);
    frames_mark(sheet, length, added.bytes, added.len, verdict);
    EXPECT("the timetable of the largest conversion", verdict, FRAMES_OK, 0, 34000000000, 241000000, 226000000);
    frames_strip(before.bytes, before.len, added.bytes, added.len, table, sizeof table, answer);
    length = answer[1];
    expect_that("the timetable of the largest conversion, stripped",
                answer[0] == FRAMES_OK && memcmp(table + length - strlen(claim), claim, strlen(claim)) == 0);
    frames_mark(before.bytes, before.len, table, length, verdict);
    EXPECT("what is left, marked", verdict, FRAMES_OK, 0, 34000000000, 225000000, 225000000);
}

/* The calls that are measured. Each keeps its answer in `last`. */
static uint64_t last[6];
static uint8_t room[FRAMES_MAX_TEXT];

static void *call_mark(void *unused) {
    (void)unused;
    text s = as_text(large), p = as_text(large_paper);
    frames_mark(s.bytes, s.len, p.bytes, p.len, last);
    return NULL;
}

static void *call_fault_line(void *unused) {
    (void)unused;
    text s = as_text(large), p = as_text(large_paper);
    last[0] = frames_fault_line(s.bytes, s.len, p.bytes, p.len, room, sizeof room);
    return NULL;
}

static planner *measured_planner;

static void *call_planner(void *unused) {
    (void)unused;
    text s = as_text(large);
    measured_planner(s.bytes, s.len, room, sizeof room, last);
    return NULL;
}

static void *call_simulate(void *unused) {
    static uint64_t running[16], contents[256];
    (void)unused;
    text s = as_text(large), p = as_text(large_paper);
    frames_simulate(s.bytes, s.len, p.bytes, p.len, 0, 1024, last, running, contents);
    return NULL;
}

static void *call_convert(void *unused) {
    (void)unused;
    text s = as_text(large_before);
    frames_convert(s.bytes, s.len, room, sizeof room, last);
    return NULL;
}

static void *call_strip(void *unused) {
    (void)unused;
    text s = as_text(large_before), p = as_text(large_added);
    frames_strip(s.bytes, s.len, p.bytes, p.len, room, sizeof room, last);
    return NULL;
}

static void *call_nothing(void *unused) {
    return unused;
}

/* The bytes of a painted stack that a thread has written to. */
static size_t stack_of(void *(*call)(void *)) {
    static uint8_t stack[1 << 20] __attribute__((aligned(4096)));
    pthread_attr_t attributes;
    pthread_t thread;
    memset(stack, 0xA5, sizeof stack);
    if (pthread_attr_init(&attributes) || pthread_attr_setstack(&attributes, stack, sizeof stack)
        || pthread_create(&thread, &attributes, call, NULL) || pthread_join(thread, NULL)) {
        puts("a thread could not be run");
        exit(1);
    }
    size_t untouched = 0;
    while (untouched < sizeof stack && stack[untouched] == 0xA5) untouched++;
    return sizeof stack - untouched;
}

/* What a call on the largest sheet uses beyond what an empty thread does; no more than `most`. */
static size_t measured_within(size_t most, const char *what, void *(*call)(void *)) {
    last[0] = 99;
    size_t used = stack_of(call) - stack_of(call_nothing);
    if (last[0] != 0 || used > most) {
        printf("%s: answered %llu, with %zu bytes of stack\n", what, (unsigned long long)last[0], used);
        exit(1);
    }
    return used;
}

static size_t measured(const char *what, void *(*call)(void *)) {
    return measured_within(FRAMES_STACK, what, call);
}

static void stacks(void) {
    size_t mark = measured("frames_mark", call_mark);
    size_t line = measured("frames_fault_line", call_fault_line);
    printf("stack on the largest sheet, in bytes: marker %zu, line at fault %zu", mark, line);
    for (size_t i = 0; i < PLANNERS; i++) {
        measured_planner = planners[i].call;
        printf(", %s %zu", planners[i].name, measured_within(FRAMES_PLAN_STACK, planners[i].name, call_planner));
    }
    printf(", simulator %zu", measured("frames_simulate", call_simulate));
    printf(", converter %zu", measured("frames_convert", call_convert));
    printf(", stripping %zu\n", measured_within(FRAMES_STRIP_STACK, "frames_strip", call_strip));
}

/* Calls on several threads at once give what each gives alone. */
static void *many_calls(void *unused) {
    for (int i = 0; i < 200; i++) {
        uint8_t out[FRAMES_MAX_TEXT];
        uint64_t verdict[5];
        text sheet = as_text(course);
        planned(i % PLANNERS, "beside others", sheet, out, sizeof out, FRAMES_OK, 76, planners[i % PLANNERS].trials);
        frames_mark(sheet.bytes, sheet.len, out, 76, verdict);
        EXPECT("the marker beside others", verdict, FRAMES_OK, 0, 8, 5, 5);
        simulation s;
        text table = {out, 76};
        simulated("the simulator beside others", &s, sheet, table, i % 3, 3 - i % 3);
        EXPECT("the simulator beside others", s.result, FRAMES_OK, 0, 1, 0, 3, 3);
        expect_state("the simulator beside others", &s, 2, 0, 1, 2);
        convert("the converter beside others", as_text(with_work), out, sizeof out, FRAMES_OK, strlen(converted));
        expect_that("the converter beside others", memcmp(out, converted, strlen(converted)) == 0);
        strip("stripping beside others", as_text(with_work), as_text(with_added), out, sizeof out, FRAMES_OK, strlen(stripped));
        expect_that("stripping beside others", memcmp(out, stripped, strlen(stripped)) == 0);
    }
    return unused;
}

static void threads(void) {
    pthread_t all[4];
    for (int i = 0; i < 4; i++) {
        if (pthread_create(&all[i], NULL, many_calls, NULL)) exit(1);
    }
    for (int i = 0; i < 4; i++) {
        if (pthread_join(all[i], NULL)) exit(1);
    }
}

int main(void) {
    null_and_short();
    planners_null_and_short();
    over_a_limit();
    simulator();
    wide_numbers();
    working_memory();
    converter();
    stripping();
    largest();
    largest_conversion();
    stacks();
    threads();
    puts("calls from C: NULL, short buffers, plans over a limit, wide numbers, working memory, the simulator's arrays, the converter, stack "
         "and threads as include/frames.h says");
    return 0;
}
