/* Parcels of the second edition, whose edges have addresses of 32 bits: read each, check it with both techniques, and narrow it to
 * the first edition, where its edges fit.
 *
 *     cc -std=c11 -Iinclude examples/c/editions.c target/staticlib/libpost_guard.a -o editions
 *     ./editions examples/day-and-night.wide examples/far-edge.wide */
#include <stdio.h>
#include <stdlib.h>

#include "post_guard.h"

static uint8_t wide[PG_MAX_WIDE_PARCEL + 1], parcel[PG_MAX_PARCEL];
static uint64_t memory[PG_MAX_CODE + PG_MAX_DATA];
static uint32_t edges[2 * PG_MAX_EDGES];

/* the bytes of the file; one more than a parcel has is refused as 4 */
static size_t bytes_of(const char *name) {
    FILE *file = fopen(name, "rb");
    size_t size;
    if (file == NULL) {
        perror(name);
        exit(1);
    }
    size = fread(wide, 1, sizeof wide, file);
    fclose(file);
    return size;
}

/* "accepted" or "refused 8 at edge 0" */
static void print_answer(const char *what, uint32_t answer, const uint64_t place[2]) {
    printf("  %s: ", what);
    if (answer == PG_OK) {
        printf("accepted\n");
        return;
    }
    printf("refused %u", (unsigned)answer);
    if (place[0] != 0) printf(" at %s %llu", place[0] == 1 ? "edge" : "address", (unsigned long long)place[1]);
    printf("\n");
}

static void check(size_t size) {
    uint64_t counts[3], place[2];
    size_t n, len, edge_numbers;
    uint32_t answer = pg_read_wide_parcel(wide, size, memory, PG_MAX_CODE + PG_MAX_DATA, edges, 2 * PG_MAX_EDGES, counts, 3);
    if (answer != PG_OK) {
        printf("  not a parcel of the second edition: refused %u\n", (unsigned)answer);
        return;
    }
    n = (size_t)counts[0];
    len = n + (size_t)counts[2];
    edge_numbers = 2 * (size_t)counts[1];
    printf("  code words: %zu, edges: %zu, data words: %zu\n", n, edge_numbers / 2, len - n);
    answer = pg_check_wide(PG_PLAIN, memory, len, n, edges, edge_numbers, place, 2);
    print_answer("plain", answer, place);
    answer = pg_check_wide(PG_MEMORY_GUARDS, memory, len, n, edges, edge_numbers, place, 2);
    print_answer("with memory guards", answer, place);
}

static void narrow(size_t size) {
    uint64_t count[1], place[2];
    uint32_t answer = pg_narrow(wide, size, parcel, PG_MAX_PARCEL, count, 1, place, 2);
    if (answer == PG_OK)
        printf("  narrowed to %llu bytes\n", (unsigned long long)count[0]);
    else
        print_answer("narrowing", answer, place);
}

int main(int argc, char **argv) {
    int i;
    if (argc < 2) {
        fprintf(stderr, "usage: editions WIDE-PARCEL...\n");
        return 2;
    }
    for (i = 1; i < argc; i++) {
        size_t size = bytes_of(argv[i]);
        printf("%s\n", argv[i]);
        check(size);
        narrow(size);
    }
    return 0;
}
