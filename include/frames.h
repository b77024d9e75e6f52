/* Plans, marks and simulates timetables for a board with two memories, and converts board sheets for readers that lack working memory (W). Link
 * target/staticlib/libframes.a, which ./build (or `./build frames_c`) writes. docs/RULES.md has the rules.
 *
 * A text is a pointer and a length in bytes, and any bytes may be in it: what is wrong with them is the answer. What a caller has to see to:
 *   - Each pointer has as many bytes behind it as its length says, readable, and writable for `line` and `out`. With length 0 it may be NULL.
 *   - `result`, `running` and `contents` are arrays of the lengths shown, and never NULL. What they held before plays no part.
 *   - `line`, `out` and these arrays overlap neither a text nor each other. The two texts may overlap, or be one.
 *   - FRAMES_STACK bytes of stack are left, for a planner FRAMES_PLAN_STACK, for frames_strip FRAMES_STRIP_STACK.
 * A tick or a span of a result may take more than 32 bits: keep it in 64.
 * A call uses no heap, no global data and no file, keeps nothing, and always returns; so calls may run at the same time on several threads. */
#ifndef FRAMES_H
#define FRAMES_H

#include <stddef.h>
#include <stdint.h>

#ifdef __cplusplus
extern "C" {
#endif

/* The longest text that is read, in bytes. No timetable of a planner is longer (proved: `PlansShort` of crates/rules), so a buffer of this length is
 * never too short; nor is one of 8303 bytes (`PlansInRange`). A converted sheet and a stripped timetable are no longer than this either
 * (`ConvertedShort`, `StrippedShort`). */
#define FRAMES_MAX_TEXT 32768

/* Stack that is enough, in bytes: for a planner, for frames_strip, and for any other call. On the largest sheet (64 tasks, 256 files) a planner used
 * 45 KB, the marker, with every file moved, 30 KB, the simulator 22 KB, frames_convert 20 KB and frames_strip 43 KB: tests/calls.c runs each call on
 * a painted stack, and fails if one uses more than this. */
#define FRAMES_STACK 32768
#define FRAMES_PLAN_STACK 49152
#define FRAMES_STRIP_STACK 49152

/* The numbers that a call answers. The place is what stands in brackets; lines and tasks are counted from 1. The marker answers 0, 1 to 4 and 11
 * to 18, a planner 0, 1 to 4, 31 and, if it is memory-aware, 21, the simulator 0, 1 to 4 and 11 to 17, where the place of 15, 16 and 17 is the
 * faulty tick, frames_convert 0, 1 to 4, 31, 41 and 42, frames_strip these and 11 to 18. */
enum frames_number {
    FRAMES_OK = 0,                   /* accepted (0), planned, converted or stripped (bytes written), or simulated (0) */
    FRAMES_SHEET_TOO_LONG = 1,       /* the board sheet is over FRAMES_MAX_TEXT bytes (0) */
    FRAMES_SHEET_MALFORMED = 2,      /* a line of it is none of its forms, lacks its LF, or is missing (line) */
    FRAMES_SHEET_OUT_OF_RANGE = 3,   /* a number of it is out of its range (line) */
    FRAMES_SHEET_NOT_ALLOWED = 4,    /* a readable line of it is not allowed there (line) */
    FRAMES_PAPER_TOO_LONG = 11,      /* the timetable is over FRAMES_MAX_TEXT bytes (0) */
    FRAMES_PAPER_MALFORMED = 12,     /* a line of it is none of its forms, lacks its LF, or is missing (line) */
    FRAMES_PAPER_OUT_OF_RANGE = 13,  /* a number of it is out of its range (line) */
    FRAMES_PAPER_NOT_DUE = 14,       /* a readable line of it is not the one due (line) */
    FRAMES_OVERLAP = 15,             /* two runs on one processor share an instant: each starts before the other's finish (lowest such task) */
    FRAMES_EARLY = 16,               /* a task starts before a file that it reads has arrived, or a file moves before it is made (lowest reader) */
    FRAMES_OVER_LIMIT = 17,          /* a memory holds more than its limit (first such tick) */
    FRAMES_CLAIM_UNTRUE = 18,        /* the claim is untrue (0) */
    FRAMES_STUCK = 21,               /* the memory-aware planner is stuck: no ready task fits (tasks placed) */
    FRAMES_BUFFER_TOO_SHORT = 31,    /* the lent buffer is too short for the text (bytes needed) */
    FRAMES_TOO_MANY_TASKS = 41,      /* the converted sheet would have over 64 tasks (0) */
    FRAMES_TOO_MANY_FILES = 42       /* the converted sheet would have over 256 files (0) */
};

/* Marks a timetable (paper) on a board sheet. result: number, place, span, blue peak, red peak; on a refusal the last three are 0. */
void frames_mark(const uint8_t *sheet, size_t sheet_len, const uint8_t *paper, size_t paper_len, uint64_t result[5]);

/* The line at fault of the same two texts, without its LF: of the sheet for 2 to 4, of the paper for 12 to 14; empty if that line does not
 * exist, and for every other number. Returns its length, and copies it to the front of line if it fits there; otherwise line stays as it was. */
size_t frames_fault_line(const uint8_t *sheet, size_t sheet_len, const uint8_t *paper, size_t paper_len, uint8_t *line, size_t line_len);

/* Plans a board sheet by MemHEFT, and writes the timetable to the front of out; the bytes behind it stay, and on a refusal all do.
 * result: number, place, trials (0 after a refusal of the sheet). */
void frames_mem_heft(const uint8_t *sheet, size_t sheet_len, uint8_t *out, size_t out_len, uint64_t result[3]);

/* The same by MemMinMin. */
void frames_mem_min_min(const uint8_t *sheet, size_t sheet_len, uint8_t *out, size_t out_len, uint64_t result[3]);

/* The same by HEFT, MemHEFT's plain parent, which does not look at the memories: it never answers 21, and its timetable may be over a limit. The
 * claim is true all the same; frames_mark accepts the timetable on this sheet, or answers 17 and no other number. When each limit is at least the
 * sum of all file sizes and all working memory (W), frames_mem_heft gives the same numbers and the same bytes. */
void frames_heft(const uint8_t *sheet, size_t sheet_len, uint8_t *out, size_t out_len, uint64_t result[3]);

/* The same by MINMIN, MemMinMin's plain parent, with frames_mem_min_min in place of frames_mem_heft. */
void frames_min_min(const uint8_t *sheet, size_t sheet_len, uint8_t *out, size_t out_len, uint64_t result[3]);

/* Simulates a timetable (paper) on a board sheet, from before the first step (time 0, nothing running or held); each step goes to the next tick at
 * which a run, a move or a hold starts or ends. `made` steps are already made, and `steps` are to be made, over 1024 counting as 1024. Both may be
 * any number: steps past the stop or the end give that stop or end. A later call goes on by naming the steps made that an earlier one gave.
 * result: number, place, 1 if steps are left (else 0), span, steps made in all, time. While steps are left, number, place and span are 0; a faulty
 * tick ahead is a step left. On a stop at the first faulty tick number and place are 15, 16 or 17 and that tick, and the state is that of the step
 * before; on a refused text they are the marker's, and the state is that before the first; in both cases the span is 0. The steps made are those of
 * earlier calls too; the step onto a faulty tick is not one of them, and on a refused text they are 0. At the end number and place are 0 and the
 * span is given; the claim may be untrue, and the time may be one tick past the span, until which what a relay reads and its working
 * memory are held. Working memory counts for 17 and its holds for the steps, but the state does not show it.
 * running[p - 1]: the task that processor p runs, or 0. contents[k]: where file k, counted from 0 in the sheet's order, is held: 0 nowhere, 1 in blue
 * memory, 2 in red, 3 in both. Every call fills all three arrays; behind the board's processors and the sheet's files they are 0. */
void frames_simulate(const uint8_t *sheet, size_t sheet_len, const uint8_t *paper, size_t paper_len, uint64_t made, uint64_t steps,
                     uint64_t result[6], uint64_t running[16], uint64_t contents[256]);

/* Converts a board sheet for readers that do not know W, and writes the converted sheet to the front of out; the bytes behind it stay, and on a
 * refusal all do. Each of the m tasks with W gets a maker of run times 0 and 0, whose file has size W and move time 1. The added tasks are 1 to m, in
 * the order of the tasks that they serve; the old ones follow, shifted by m and without W. The added files come first, and the board line stays. A
 * sheet without W is written byte for byte.
 * result: number, place. A refusal is the first of these that applies: 1 to 4 where the sheet is refused, at the marker's place; 41 if over 64 tasks
 * would result, and then 42 if over 256 files would, both with place 0; 31 if the converted sheet does not fit into out, with the bytes needed. On
 * success the number is 0, and the place is the bytes written. */
void frames_convert(const uint8_t *sheet, size_t sheet_len, uint8_t *out, size_t out_len, uint64_t result[2]);

/* Strips a timetable of the converted sheet (paper) of what the conversion added. `sheet` is the sheet as it was before. The added runs and the moves
 * of the added files are left out, the other lines are renumbered, and the claim is worked out afresh for `sheet`: the span and the peaks, with each W
 * held by the task that has it. frames_mark accepts the result on `sheet`. It is written to the front of out; the bytes behind it stay, and on a
 * refusal all do.
 * result: number, place. A refusal is the first of these that applies: 1 to 4, 41 and 42 as frames_convert answers them to `sheet`; 11 to 18 where
 * frames_mark refuses the paper on the converted sheet, with its number and place; 31 if the stripped timetable does not fit into out, with the bytes
 * needed. On success the number is 0, and the place is the bytes written. */
void frames_strip(const uint8_t *sheet, size_t sheet_len, const uint8_t *paper, size_t paper_len, uint8_t *out, size_t out_len,
                  uint64_t result[2]);

#ifdef __cplusplus
}
#endif

#endif
