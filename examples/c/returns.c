/* Where a routine returns to: runs a plain program from a fresh state, step by step, and tells each call, each ret and each jmp that
 * is made. With three numbers more, the bus writes once: when the program first comes to ADDRESS, register REGISTER becomes WORD.
 *
 *     cc -std=c11 -Iinclude examples/c/returns.c target/staticlib/libpost_guard.a -o returns
 *     ./returns examples/shared-routine.parcel 10 9 7
 *     ./returns examples/shared-return-by-jump.parcel 14 9 10
 *
 * docs/REFERENCE.md, "Calls that return", tells what the two programs show. */
#include <stdio.h>
#include <stdlib.h>

#include "post_guard.h"

#define LIMIT 10000

static uint8_t parcel[PG_MAX_PARCEL + 1];
static uint64_t memory[PG_MAX_CODE + PG_MAX_DATA], state[PG_STATE_WORDS];
static uint16_t edges[2 * PG_MAX_EDGES];

static void stop(const char *why, uint32_t answer, const uint64_t place[2]) {
    printf("%s: refused %u", why, (unsigned)answer);
    if (place[0] != 0) printf(" at %s %llu", place[0] == 1 ? "edge" : "address", (unsigned long long)place[1]);
    printf("\n");
    exit(1);
}

/* the bytes of the file; one more than a parcel has is refused as 4 */
static size_t bytes_of(const char *name) {
    FILE *file = fopen(name, "rb");
    size_t size;
    if (file == NULL) {
        perror(name);
        exit(1);
    }
    size = fread(parcel, 1, sizeof parcel, file);
    fclose(file);
    return size;
}

static uint64_t number_of(const char *text) {
    char *end;
    unsigned long long number = strtoull(text, &end, 10);
    if (*text == 0 || *end != 0) {
        printf("'%s' is no number\n", text);
        exit(2);
    }
    return number;
}

/* the step from pc to next, where the word at pc is a call, a ret or a jmp */
static void tell(uint64_t pc, uint64_t next) {
    uint32_t fields[5];
    unsigned long long from = pc, to = next;
    pg_decode(memory[pc], fields, 5);
    if (fields[0] == PG_CALL) printf("  at %llu: call to %llu, to come back to %llu\n", from, to, from + 1);
    if (fields[0] == PG_RET) printf("  at %llu: ret to %llu\n", from, to);
    if (fields[0] == PG_JMP) printf("  at %llu: jmp to %llu\n", from, to);
}

int main(int argc, char **argv) {
    uint64_t counts[3], place[2] = {0, 0}, address, word = 0;
    size_t n, len, reg = 0;
    uint32_t answer;
    int writes = argc == 5, steps = 0;
    if (argc != 2 && argc != 5) {
        printf("usage: returns PARCEL [ADDRESS REGISTER WORD]\n");
        return 2;
    }
    address = writes ? number_of(argv[2]) : 0;
    if (writes) {
        reg = number_of(argv[3]);
        word = number_of(argv[4]);
    }
    answer = pg_read_parcel(parcel, bytes_of(argv[1]), memory, PG_MAX_CODE + PG_MAX_DATA, edges, 2 * PG_MAX_EDGES, counts, 3);
    if (answer != PG_OK) stop(argv[1], answer, place);
    n = counts[0];
    len = n + counts[2];
    answer = pg_check(PG_PLAIN, memory, len, n, edges, 2 * counts[1], place, 2);
    if (answer != PG_OK) stop(argv[1], answer, place);

    printf("accepted\n");

    /* the state is fresh: all its words are 0 */
    for (;; steps++) {
        uint64_t pc = state[32];
        if (steps == LIMIT) {
            printf("still running after %d steps, at %llu\n", LIMIT, (unsigned long long)pc);
            return 0;
        }
        if (writes && pc == address) {
            answer = pg_write_register(state, PG_STATE_WORDS, reg, word);
            if (answer != PG_OK) stop("the bus write", answer, place);
            printf("  at %llu: the bus writes %llu into r%zu\n", (unsigned long long)pc, (unsigned long long)word, reg);
            writes = 0;
        }
        answer = pg_step(PG_PLAIN, state, PG_STATE_WORDS, memory, len, n);
        if (answer != PG_OK) break;
        tell(pc, state[32]);
    }
    printf("stop %u at %llu after %d steps\n", (unsigned)PG_STOP_NUMBER(answer), (unsigned long long)state[32], steps);
    for (; n < len; n++) printf("  data word %llu\n", (unsigned long long)memory[n]);
    return 0;
}
