/* Plans the course example (docs/RULES.md) by MemHEFT and MemMinMin, marks the plans, and steps through one. */
#include <stdio.h>
#include <string.h>

#include "frames.h"

static const char sheet[] =
    "(board (blue 1 6) (red 1 6))\n"
    "(task 1 4 2)\n"
    "(task 2 3 5)\n"
    "(task 3 2 6)\n"
    "(file 1 2 2 1)\n"
    "(file 1 3 3 2)\n";

static void show(uint64_t answer[3], const uint8_t *out) {
    if (answer[0] != 0) {
        printf("(refused %llu %llu)\n", (unsigned long long)answer[0], (unsigned long long)answer[1]);
        return;
    }
    printf("%.*strials %llu\n", (int)answer[1], out, (unsigned long long)answer[2]);
    uint64_t v[5];
    frames_mark((const uint8_t *)sheet, strlen(sheet), out, answer[1], v);
    printf("marked %llu %llu, span %llu, peaks %llu and %llu\n", (unsigned long long)v[0], (unsigned long long)v[1],
           (unsigned long long)v[2], (unsigned long long)v[3], (unsigned long long)v[4]);
}

/* Each step: the tick, what the two processors run, and where the two files are (1 blue, 2 red, 3 both). */
static void watch(const uint8_t *paper, size_t len) {
    uint64_t r[6], running[16], contents[256];
    uint64_t made = 0;
    do {
        frames_simulate((const uint8_t *)sheet, strlen(sheet), paper, len, made, 1, r, running, contents);
        made = r[4];
        printf("tick %llu: running %llu %llu, files in %llu %llu\n", (unsigned long long)r[5], (unsigned long long)running[0],
               (unsigned long long)running[1], (unsigned long long)contents[0], (unsigned long long)contents[1]);
    } while (r[2]);
    printf("simulated %llu %llu, span %llu, steps %llu\n", (unsigned long long)r[0], (unsigned long long)r[1], (unsigned long long)r[3],
           (unsigned long long)r[4]);
}

int main(void) {
    uint8_t out[32768];
    uint64_t answer[3];
    frames_mem_heft((const uint8_t *)sheet, strlen(sheet), out, sizeof out, answer);
    show(answer, out);
    frames_mem_min_min((const uint8_t *)sheet, strlen(sheet), out, sizeof out, answer);
    show(answer, out);
    watch(out, answer[1]);
    frames_mem_heft((const uint8_t *)sheet, strlen(sheet), out, 10, answer);
    show(answer, out);
    const char paper[] = "(run 1 2 0)\n(run 2 01 3)\n";
    uint8_t line[64];
    size_t n = frames_fault_line((const uint8_t *)sheet, strlen(sheet), (const uint8_t *)paper, strlen(paper), line, sizeof line);
    printf("at fault: %.*s\n", (int)n, line);
    return 0;
}
