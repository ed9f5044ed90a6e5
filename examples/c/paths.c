/* A manager's view: reads a parcel and puts a shortest path from address 0 to each ADDRESS, plain.
 *
 *     cc -std=c11 -Iinclude examples/c/paths.c target/staticlib/libpost_guard.a -o paths
 *     ./paths examples/credit-routine.parcel 25 23
 *
 * The first call lends a short place; where the path does not go in, a second one lends a place that always suffices.
 * docs/REFERENCE.md, "Shortest paths", says how to read them. */
#include <stdio.h>
#include <stdlib.h>

#include "post_guard.h"

#define SHORT 8

static uint8_t parcel[PG_MAX_PARCEL + 1];
static uint64_t memory[PG_MAX_CODE + PG_MAX_DATA];
static uint16_t edges[2 * PG_MAX_EDGES], path[PG_MAX_CODE];
static size_t len, n, edge_numbers;

/* the bytes of the file; one more than a parcel has is refused as 4 */
static size_t bytes_of(const char *name) {
    FILE *file = fopen(name, "rb");
    size_t size;
    if (file == NULL) {
        perror(name);
        exit(1);
    }
    size = fread(parcel, 1, sizeof parcel, file);
    fclose(file);
    return size;
}

static uint64_t number_of(const char *text) {
    char *end;
    unsigned long long number = strtoull(text, &end, 10);
    if (*text == 0 || *end != 0) {
        printf("'%s' is no number\n", text);
        exit(2);
    }
    return number;
}

/* the addresses, and the steps of words that lead elsewhere than to the next word alone */
static void print_path(size_t count) {
    static const char *const names[] = {[PG_BGT] = "bgt", [PG_JD] = "jd", [PG_JMP] = "jmp", [PG_CALL] = "call", [PG_RET] = "ret"};
    size_t i;
    printf("%zu addresses:", count);
    for (i = 0; i < count; i++) printf(" %u", (unsigned)path[i]);
    printf("\n");
    for (i = 0; i + 1 < count; i++) {
        uint32_t fields[5];
        pg_decode(memory[path[i]], fields, 5);
        if (fields[0] <= PG_RET && names[fields[0]] != NULL)
            printf("  at %u: %s to %u\n", (unsigned)path[i], names[fields[0]], (unsigned)path[i + 1]);
    }
}

/* whether it is not refused */
static int answered(uint64_t address) {
    uint64_t count[1], place[2];
    uint32_t answer = pg_shortest_path(PG_PLAIN, memory, len, n, edges, edge_numbers, address, path, SHORT, count, 1, place, 2);
    printf("%llu: ", (unsigned long long)address);
    if (answer == PG_PLACE_TOO_SHORT) {
        printf("%d numbers are too few, refused %u; ", SHORT, (unsigned)answer);
        answer = pg_shortest_path(PG_PLAIN, memory, len, n, edges, edge_numbers, address, path, PG_MAX_CODE, count, 1, place, 2);
    }
    if (answer == PG_OK) {
        print_path((size_t)count[0]);
        return 1;
    }
    if (answer == PG_UNREACHABLE) {
        printf("unreachable\n");
        return 1;
    }
    printf("refused %u", (unsigned)answer);
    if (place[0] != 0) printf(" at %s %llu", place[0] == 1 ? "edge" : "address", (unsigned long long)place[1]);
    printf("\n");
    return 0;
}

int main(int argc, char **argv) {
    uint64_t counts[3];
    uint32_t answer;
    int all = 1, i;
    if (argc < 2) {
        printf("usage: paths PARCEL [ADDRESS...]\n");
        return 2;
    }
    answer = pg_read_parcel(parcel, bytes_of(argv[1]), memory, PG_MAX_CODE + PG_MAX_DATA, edges, 2 * PG_MAX_EDGES, counts, 3);
    if (answer != PG_OK) {
        printf("not a parcel: refused %u\n", (unsigned)answer);
        return 1;
    }
    n = (size_t)counts[0];
    edge_numbers = 2 * (size_t)counts[1];
    len = n + (size_t)counts[2];
    for (i = 2; i < argc; i++) all &= answered(number_of(argv[i]));
    return all ? 0 : 1;
}
