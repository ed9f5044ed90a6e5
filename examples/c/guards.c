/* Guards put in for the installer: read a parcel of bare code, put labels and guards in, map the movi words that hold an address,
 * check what came out, and write it as a parcel.
 *
 *     cc -std=c11 -Iinclude examples/c/guards.c target/staticlib/libpost_guard.a -o guards
 *     ./guards examples/clipping-bare.parcel clipping.parcel 0 2 7
 *
 * The numbers are the bare addresses of movi words that hold an address of code or data. */
#include <stdio.h>
#include <stdlib.h>

#include "post_guard.h"

static uint8_t parcel[PG_MAX_PARCEL + 1];
static uint64_t memory[PG_MAX_CODE + PG_MAX_DATA], guarded[PG_MAX_CODE + PG_MAX_DATA];
static uint16_t edges[2 * PG_MAX_EDGES], new_edges[2 * PG_MAX_EDGES], map[PG_MAX_CODE];
static size_t n, new_n, data_words;

static void stop(const char *why, uint32_t answer, const uint64_t place[2]) {
    printf("%s: refused %u", why, (unsigned)answer);
    if (place[0] != 0) printf(" at %s %llu", place[0] == 1 ? "edge" : "address", (unsigned long long)place[1]);
    printf("\n");
    exit(1);
}

/* the bytes of the file; one more than a parcel has is refused as 4 */
static size_t bytes_of(const char *name) {
    FILE *file = fopen(name, "rb");
    size_t size;
    if (file == NULL) {
        perror(name);
        exit(1);
    }
    size = fread(parcel, 1, sizeof parcel, file);
    fclose(file);
    return size;
}

/* where the word at a bare address is now: after the label, if there is one. Bare code has none of its own */
static size_t word_of(size_t old) {
    uint32_t fields[5];
    pg_decode(guarded[map[old]], fields, 5);
    return (size_t)map[old] + (fields[0] == PG_LABEL ? 1 : 0);
}

/* the movi at this bare address holds a bare address of code or data, and gets the new one */
static void map_movi(size_t old) {
    uint32_t fields[5] = {PG_ILLEGAL};
    uint32_t held;
    if (old < n) pg_decode(guarded[word_of(old)], fields, 5);
    held = fields[4];
    if (fields[0] != PG_MOVI || held >= n + data_words) {
        printf("address %zu: no movi that holds an address\n", old);
        exit(1);
    }
    fields[4] = (uint32_t)(held < n ? (size_t)map[held] : new_n + (held - n));
    guarded[word_of(old)] = pg_encode(PG_MOVI, (uint8_t)fields[1], 0, 0, fields[4]);
    printf("the movi at %zu holds %u, and held %u\n", old, (unsigned)fields[4], (unsigned)held);
}

int main(int argc, char **argv) {
    const uint64_t nowhere[2] = {0, 0};
    uint64_t counts[3], place[2];
    size_t size, edge_numbers, i;
    uint32_t answer;
    FILE *file;
    if (argc < 3) {
        fprintf(stderr, "usage: guards BARE-PARCEL PARCEL [ADDRESS...]\n");
        return 2;
    }
    size = bytes_of(argv[1]);
    answer = pg_read_parcel(parcel, size, memory, PG_MAX_CODE + PG_MAX_DATA, edges, 2 * PG_MAX_EDGES, counts, 3);
    if (answer != PG_OK) stop("not a parcel", answer, nowhere);
    n = (size_t)counts[0];
    edge_numbers = 2 * (size_t)counts[1];
    data_words = (size_t)counts[2];

    answer = pg_rewrite(memory, n + data_words, n, edges, edge_numbers, guarded, PG_MAX_CODE, new_edges, 2 * PG_MAX_EDGES, map,
                        PG_MAX_CODE, counts, 2, place, 2);
    if (answer != PG_OK) stop("no guards", answer, place);
    new_n = (size_t)counts[0];
    for (i = 0; i < data_words; i++) guarded[new_n + i] = memory[n + i]; /* the data words stay as they are */
    printf("%zu code words become %zu\nmap:", n, new_n);
    for (i = 0; i < n; i++) printf(" %u", (unsigned)map[i]);
    printf("\nedges:");
    for (i = 0; i < edge_numbers; i += 2) printf(" (%u, %u)", (unsigned)new_edges[i], (unsigned)new_edges[i + 1]);
    printf("\n");
    for (i = 3; i < (size_t)argc; i++) map_movi((size_t)strtoul(argv[i], NULL, 10));

    answer = pg_check(PG_PLAIN, guarded, new_n + data_words, new_n, new_edges, edge_numbers, place, 2);
    if (answer != PG_OK) stop("plain", answer, place);
    printf("plain: accepted\n");
    answer = pg_write_parcel_placed(guarded, new_n + data_words, new_n, new_edges, edge_numbers, parcel, PG_MAX_PARCEL, counts, 1,
                                    place, 2);
    if (answer != PG_OK) stop("no parcel", answer, place);
    file = fopen(argv[2], "wb");
    if (file == NULL || fwrite(parcel, 1, (size_t)counts[0], file) != counts[0] || fclose(file) != 0) {
        perror(argv[2]);
        return 1;
    }
    return 0;
}
