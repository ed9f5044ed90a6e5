/* How deep each call goes into the stack, in bytes: for whoever sizes the stack of a controller or a gateway's thread.
 *
 *     cc -std=gnu11 -O2 -Iinclude tests/stack.c target/staticlib/libpost_guard.a -o stack
 *     ./stack PARCEL..     each call on each parcel, with both techniques; the deepest is printed. Calls on the second edition
 *                          get the parcel widened
 *
 * A call is made on a stack of its own, which was filled with one byte before; what it changed last, counted from where the call
 * began, is how deep it went. Needs the contexts of POSIX.1-2001 (glibc). Fails where a call goes deeper than docs/REFERENCE.md says. */
#include <stdint.h>
#include <stdio.h>
#include <stdlib.h>
#include <string.h>
#include <ucontext.h>

#include "post_guard.h"

enum { ROOM = 512 * 1024, FILL = 0xa5 };

static uint8_t room[ROOM];
static ucontext_t here, there;
static uintptr_t began;

static uint8_t technique;
static uint8_t parcel[PG_MAX_PARCEL + 1], wide[PG_MAX_WIDE_PARCEL], written[PG_MAX_WIDE_PARCEL];
static size_t parcel_len, wide_len, len, n, edge_numbers;
static uint64_t memory[PG_MAX_CODE + PG_MAX_DATA], code[PG_MAX_CODE];
static uint16_t edges[2 * PG_MAX_EDGES], new_edges[2 * PG_MAX_EDGES], map[PG_MAX_CODE], path[PG_MAX_CODE];
static uint32_t wide_edges[2 * PG_MAX_EDGES];
static uint64_t state[PG_STATE_WORDS], figures[PG_FIGURES], totals[PG_TOTALS], place[2], counts[3];
static uint32_t fields[5];

static void none(void) {}
static void decode(void) { pg_decode(memory[0], fields, 5); }
static void encode(void) { pg_encode(1, 2, 3, 4, 5); }
static void step(void) { pg_step(technique, state, PG_STATE_WORDS, memory, len, n); }
static void run(void) { pg_run(technique, state, PG_STATE_WORDS, memory, len, n, 1000, counts, 1); }
static void write_data(void) { pg_write_data(memory, len, n, n, 1); }
static void write_register(void) { pg_write_register(state, PG_STATE_WORDS, 3, 1); }
static void check(void) { pg_check(technique, memory, len, n, edges, edge_numbers, place, 2); }
static void read_parcel(void) {
    pg_read_parcel(parcel, parcel_len, memory, PG_MAX_CODE + PG_MAX_DATA, edges, 2 * PG_MAX_EDGES, counts, 3);
}
static void write_parcel(void) {
    pg_write_parcel(memory, len, n, edges, edge_numbers, written, PG_MAX_PARCEL, counts, 1);
}
static void write_placed(void) {
    pg_write_parcel_placed(memory, len, n, edges, edge_numbers, written, PG_MAX_PARCEL, counts, 1, place, 2);
}
static void check_wide(void) { pg_check_wide(technique, memory, len, n, wide_edges, edge_numbers, place, 2); }
static void read_wide(void) {
    pg_read_wide_parcel(wide, wide_len, memory, PG_MAX_CODE + PG_MAX_DATA, wide_edges, 2 * PG_MAX_EDGES, counts, 3);
}
static void write_wide(void) {
    pg_write_wide_parcel(memory, len, n, wide_edges, edge_numbers, written, PG_MAX_WIDE_PARCEL, counts, 1, place, 2);
}
static void widen(void) { pg_widen(parcel, parcel_len, written, PG_MAX_WIDE_PARCEL, counts, 1, place, 2); }
static void narrow(void) { pg_narrow(wide, wide_len, written, PG_MAX_PARCEL, counts, 1, place, 2); }
static void rewrite(void) {
    pg_rewrite(memory, len, n, edges, edge_numbers, code, PG_MAX_CODE, new_edges, 2 * PG_MAX_EDGES, map, PG_MAX_CODE, counts, 2,
               place, 2);
}
static void report(void) {
    pg_report(technique, memory, len, n, edges, edge_numbers, figures, PG_FIGURES, place, 2);
}
static void report_parcel(void) { pg_report_parcel(technique, parcel, parcel_len, figures, PG_FIGURES, place, 2); }
static void add_report(void) {
    pg_add_report(technique, memory, len, n, edges, edge_numbers, totals, PG_TOTALS, place, 2);
}
static void add_parcel(void) { pg_add_parcel(technique, parcel, parcel_len, totals, PG_TOTALS, place, 2); }
/* to the last code word */
static void shortest_path(void) {
    pg_shortest_path(technique, memory, len, n, edges, edge_numbers, n - 1, path, PG_MAX_CODE, counts, 1, place, 2);
}

/* the most that docs/REFERENCE.md says of each, in bytes */
static const struct {
    const char *name;
    void (*call)(void);
    size_t most;
} calls[] = {
    {"pg_check", check, 9 * 1024},
    {"pg_check_wide", check_wide, 18 * 1024},
    {"pg_rewrite", rewrite, 9 * 1024},
    {"pg_report", report, 9 * 1024},
    {"pg_add_report", add_report, 9 * 1024},
    {"pg_shortest_path", shortest_path, 15 * 1024},
    {"pg_report_parcel", report_parcel, 50 * 1024},
    {"pg_add_parcel", add_parcel, 50 * 1024},
    {"pg_read_parcel", read_parcel, 1024},
    {"pg_write_parcel", write_parcel, 1024},
    {"pg_write_parcel_placed", write_placed, 1024},
    {"pg_read_wide_parcel", read_wide, 1024},
    {"pg_write_wide_parcel", write_wide, 1024},
    {"pg_widen", widen, 1024},
    {"pg_narrow", narrow, 1024},
    {"pg_decode", decode, 1024},
    {"pg_encode", encode, 1024},
    {"pg_step", step, 1024},
    {"pg_run", run, 1024},
    {"pg_write_data", write_data, 1024},
    {"pg_write_register", write_register, 1024},
};
enum { CALLS = sizeof calls / sizeof calls[0] };

static void (*next_call)(void);

static void make_call(void) {
    uint8_t mark;
    began = (uintptr_t)&mark;
    next_call();
}

/* the bytes from where the call began to the deepest that it changed */
static size_t depth_of(void (*call)(void)) {
    size_t deepest = 0;
    memset(room, FILL, ROOM);
    next_call = call;
    getcontext(&there);
    there.uc_stack.ss_sp = room;
    there.uc_stack.ss_size = ROOM;
    there.uc_link = &here;
    makecontext(&there, make_call, 0);
    swapcontext(&here, &there);
    while (deepest < ROOM && room[deepest] == FILL) deepest++;
    return (size_t)(began - (uintptr_t)&room[deepest]);
}

static void stop(const char *name, const char *why) {
    fprintf(stderr, "%s: %s\n", name, why);
    exit(1);
}

/* the parcel, and the same in the second edition; what each holds */
static void read_file(const char *name) {
    FILE *file = fopen(name, "rb");
    if (file == NULL) {
        perror(name);
        exit(1);
    }
    parcel_len = fread(parcel, 1, sizeof parcel, file);
    fclose(file);
    if (pg_widen(parcel, parcel_len, wide, PG_MAX_WIDE_PARCEL, counts, 1, place, 2) != PG_OK) stop(name, "no parcel");
    wide_len = counts[0];
    if (pg_read_wide_parcel(wide, wide_len, memory, PG_MAX_CODE + PG_MAX_DATA, wide_edges, 2 * PG_MAX_EDGES, counts, 3) != PG_OK ||
        pg_read_parcel(parcel, parcel_len, memory, PG_MAX_CODE + PG_MAX_DATA, edges, 2 * PG_MAX_EDGES, counts, 3) != PG_OK)
        stop(name, "it is widened, but not read");
    n = counts[0];
    edge_numbers = 2 * counts[1];
    len = n + counts[2];
}

static void prepare(const char *name) {
    read_file(name);
    memset(state, 0, sizeof state);
    memset(totals, 0, sizeof totals);
}

int main(int argc, char **argv) {
    size_t deepest[CALLS] = {0}, own = depth_of(none);
    int failed = 0, file, i;
    for (file = 1; file < argc; file++) {
        for (technique = PG_PLAIN; technique <= PG_MEMORY_GUARDS; technique++) {
            for (i = 0; i < CALLS; i++) {
                size_t depth;
                /* once before: at a first call the loader may look for memcpy, on the same stack */
                prepare(argv[file]);
                calls[i].call();
                prepare(argv[file]);
                depth = depth_of(calls[i].call);
                depth = depth > own ? depth - own : 0;
                if (depth > deepest[i]) deepest[i] = depth;
            }
        }
    }
    for (i = 0; i < CALLS; i++) {
        int over = deepest[i] > calls[i].most;
        printf("%-24s%7zu bytes%s\n", calls[i].name, deepest[i], over ? ", deeper than docs/REFERENCE.md says" : "");
        failed |= over;
    }
    return failed;
}
