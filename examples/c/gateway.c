/* A gateway's day: read a parcel, check it, say how tightly it is held, run it with bus writes in between, and say what happened.
 *
 *     cc -std=c11 -Iinclude examples/c/gateway.c target/staticlib/libpost_guard.a -o gateway
 *     ./gateway            the post program of docs/REFERENCE.md
 *     ./gateway FILE       a parcel of your own */
#include <stdio.h>
#include <stdlib.h>

#include "post_guard.h"

/* the post program: nine words, the edge (6, 7), no data */
static const uint8_t post_parcel[88] = {
    9, 0, 0, 0,              /* nine code words, low byte first */
    7, 0, 0, 0, 0, 0, 5, 3,  /* movi r5, 7 */
    0, 0, 0, 0, 0, 5, 0, 2,  /* addi r0, r5, 0 */
    0, 0, 0, 0, 0, 0, 1, 7,  /* ld r1, r0(0) */
    7, 0, 0, 0, 0, 0, 2, 3,  /* movi r2, 7 */
    8, 0, 0, 0, 0, 2, 1, 4,  /* bgt r1, r2, 8 */
    8, 0, 0, 0, 0, 1, 2, 4,  /* bgt r2, r1, 8 */
    0, 0, 0, 0, 0, 0, 0, 6,  /* jmp r0 */
    7, 0, 0, 0, 0, 0, 0, 0,  /* label 7 */
    255, 255, 255, 255, 255, 255, 255, 255, /* illegal */
    1, 0, 0, 0, 6, 0, 7, 0,  /* one edge: 6, 7 */
    0, 0, 0, 0               /* no data words */
};

static uint8_t parcel[PG_MAX_PARCEL + 1];
static uint64_t memory[PG_MAX_CODE + PG_MAX_DATA];
static uint16_t edges[2 * PG_MAX_EDGES];

static void stop(const char *why, uint32_t number) {
    fprintf(stderr, "%s %u\n", why, (unsigned)number);
    exit(1);
}

/* the technique that accepts the program */
static uint8_t accepted_by(size_t len, size_t n, size_t edge_numbers) {
    uint8_t technique;
    uint64_t place[2];
    for (technique = PG_PLAIN; technique <= PG_MEMORY_GUARDS; technique++) {
        uint32_t answer = pg_check(technique, memory, len, n, edges, edge_numbers, place, 2);
        if (answer == PG_OK) return technique;
        fprintf(stderr, "%s: refused %u", technique == PG_PLAIN ? "plain" : "with memory guards", (unsigned)answer);
        if (place[0] != 0) fprintf(stderr, " at %s %llu", place[0] == 1 ? "edge" : "address", (unsigned long long)place[1]);
        fprintf(stderr, "\n");
    }
    exit(1);
}

/* the figures of the accepted program */
static void print_figures(uint8_t technique, size_t len, size_t n, size_t edge_numbers) {
    uint64_t figures[PG_FIGURES], place[2];
    uint32_t answer = pg_report(technique, memory, len, n, edges, edge_numbers, figures, PG_FIGURES, place, 2);
    if (answer != PG_OK) stop("no figures:", answer);
    if (figures[PG_JMP] == 0) {
        printf("no jumps\n");
        return;
    }
    printf("target sets: %llu, the largest of %llu; freedom: %llu of %llu\n", (unsigned long long)figures[PG_FIGURE_SETS],
           (unsigned long long)figures[PG_FIGURE_LARGEST], (unsigned long long)figures[PG_FIGURE_EDGES],
           (unsigned long long)figures[PG_FIGURE_POSSIBLE]);
}

int main(int argc, char **argv) {
    const uint8_t *bytes = post_parcel;
    size_t size = sizeof post_parcel, len, n;
    uint64_t counts[3], state[PG_STATE_WORDS] = {0}, count[1], steps = 0, slice;
    uint32_t answer;
    uint8_t technique;

    if (argc > 1) {
        FILE *file = fopen(argv[1], "rb");
        if (file == NULL) {
            perror(argv[1]);
            return 1;
        }
        size = fread(parcel, 1, sizeof parcel, file); /* one byte more than a parcel has is refused as 4 */
        bytes = parcel;
        fclose(file);
    }

    answer = pg_read_parcel(bytes, size, memory, PG_MAX_CODE + PG_MAX_DATA, edges, 2 * PG_MAX_EDGES, counts, 3);
    if (answer != PG_OK) stop("not a parcel:", answer);
    n = (size_t)counts[0];
    len = n + (size_t)counts[2];
    printf("%zu code words, %llu edges, %zu data words\n", n, (unsigned long long)counts[1], len - n);

    technique = accepted_by(len, n, 2 * (size_t)counts[1]);
    printf("accepted, %s\n", technique == PG_PLAIN ? "plain" : "with memory guards");
    print_figures(technique, len, n, 2 * (size_t)counts[1]);

    /* ten slices of the program's time, with the bus writing a register and a data word between any two; state is all zeros: a
     * fresh state has pc 0 and an empty stack */
    for (slice = 0; slice < 10; slice++) {
        uint32_t reg, data;
        answer = pg_run(technique, state, PG_STATE_WORDS, memory, len, n, 3, count, 1);
        steps += count[0];
        if (answer != PG_OK) {
            printf("stop %u after %llu steps, pc %llu\n", (unsigned)PG_STOP_NUMBER(answer), (unsigned long long)steps,
                   (unsigned long long)state[32]);
            return 0;
        }
        reg = pg_write_register(state, PG_STATE_WORDS, 3 + slice, 100 + slice);
        data = pg_write_data(memory, len, n, n + slice, 200 + slice);
        printf("%llu steps, pc %llu; bus: register answers %u, data answers %u\n", (unsigned long long)steps,
               (unsigned long long)state[32], (unsigned)reg, (unsigned)data);
    }
    printf("still running at pc %llu\n", (unsigned long long)state[32]);
    return 0;
}
