/* Post guard for C and C++: the calls of libpost_guard.a.
 *
 * Build the library with `tools/library` and link target/staticlib/libpost_guard.a. It needs nothing but memcpy, memmove and memset.
 * Every call is proved to meet its contract, which is in crates/capi/src/lib.rt; for figures and totals in
 * crates/owner/src/lib.rt, for the second edition and the converters in crates/wide/src/lib.rt, for guards that are put in in
 * crates/installer/src/lib.rt, for shortest paths in crates/manager/src/lib.rt. This page says the same in plain words.
 * docs/REFERENCE.md has the rest: instructions, steps, what the check asks, the parcel, and for each number what to do about it.
 *
 * Common to all calls:
 *
 * - A place is a pointer and a count of its elements, not of bytes. The pointer is not null (also where the count is 0), is
 *   aligned for its type and points to that many elements; places of one call do not overlap unless all are const. That is
 *   all a caller owes: every number is allowed everywhere.
 * - A call changes nothing but what its comment says, and nothing in a place past what it puts there. Where a call is
 *   refused, nothing is changed but what it reports: the count of pg_run (with PG_SHAPE), and the place of pg_check,
 *   pg_write_parcel_placed, pg_check_wide, pg_write_wide_parcel, pg_widen, pg_narrow, pg_rewrite, pg_report,
 *   pg_report_parcel, pg_add_report, pg_add_parcel and pg_shortest_path. The two additions also count the refused parcel in
 *   totals[0].
 * - Calls keep nothing between them and may run at the same time on different places.
 *
 * A state is PG_STATE_WORDS words, and only those of the place are read or written: state[0] to state[31] are r0 to r31,
 * state[32] is the pc, state[33] the depth, and state[34] to state[161] are the PG_STACK_PLACES places of the stack of return
 * addresses, the oldest first. In a fresh state all but the registers are 0. The depth says how many places hold an address
 * to return to: PG_CALL puts one down, PG_RET goes to the latest. Neither stores nor bus writes reach pc, depth and stack. A
 * depth above PG_STACK_PLACES is refused with PG_SHAPE by the three calls that get a state.
 * Memory is n words of code and, directly after them, D words of data; memory_len is n + D.
 * Edges are pairs of numbers: a jump's address, then a target. Calls that check or write a program ask that they rise by jump
 * address, then by target, without repeats.
 * A parcel has two editions: an edge's numbers have 16 bits in the first and 32 bits in the second, and all else is alike.
 * pg_check_wide, pg_read_wide_parcel and pg_write_wide_parcel are for the second; pg_widen and pg_narrow convert; every other
 * call is for the first. The bytes do not say which edition they are.
 * Bare code has no labels and no guards: pg_rewrite puts them in. Every other call takes code as it stands.
 * Figures are PG_FIGURES numbers and totals PG_TOTALS numbers, as pg_report and pg_add_report say.
 * A technique is PG_PLAIN, or PG_MEMORY_GUARDS (any number but 0 means that one). */
#ifndef POST_GUARD_H
#define POST_GUARD_H

#include <stddef.h>
#include <stdint.h>

#ifdef __cplusplus
extern "C" {
#endif

#define PG_PLAIN 0
#define PG_MEMORY_GUARDS 1

#define PG_STATE_WORDS 162
#define PG_STACK_PLACES 128 /* the most return addresses that a state holds */
#define PG_MAX_CODE 2048
#define PG_MAX_DATA 2048
#define PG_MAX_EDGES 2048
/* the bytes of the longest parcel: three counts of 4 bytes, PG_MAX_CODE and PG_MAX_DATA words of 8, PG_MAX_EDGES edges of 4 */
#define PG_MAX_PARCEL 40972
/* the same in the second edition, where an edge has 8: 12 + 3 * 2048 * 8 */
#define PG_MAX_WIDE_PARCEL 49164
/* figures of a program, and totals over many: how many numbers, and where each stands (the words of a kind stand at its
 * opcode, those of illegal words at PG_FIGURE_ILLEGAL) */
#define PG_FIGURES 16
#define PG_FIGURE_ILLEGAL 11
#define PG_FIGURE_SETS 12
#define PG_FIGURE_LARGEST 13
#define PG_FIGURE_EDGES 14
#define PG_FIGURE_POSSIBLE 15
#define PG_TOTALS 6
#define PG_TOTAL_PARCELS 0
#define PG_TOTAL_EDGES 1
#define PG_TOTAL_POSSIBLE 2
#define PG_TOTAL_LARGEST 3
#define PG_TOTAL_LARGEST_EDGES 4
#define PG_TOTAL_LARGEST_POSSIBLE 5

/* What calls answer. 0 is success. */
#define PG_OK 0

/* Stops: why a step cannot be made. pg_step and pg_run answer the first that applies, in the sequence 1, 2, 3, 5, 6, 4.
 * Stops 1 to 4 answer their numbers. Stops 5 and 6 came later, and 5 and 6 were taken: the same two calls answer
 * PG_PLACE_TOO_SHORT and PG_SHAPE. So these two stops answer 256 more. PG_STOP_NUMBER of the answer is the number of
 * docs/REFERENCE.md, for every stop. */
#define PG_STOP_FETCH 1   /* the pc is outside code (plain) or outside memory (with memory guards) */
#define PG_STOP_ILLEGAL 2 /* the word at the pc is illegal */
#define PG_STOP_ACCESS 3  /* a load outside memory, or a store outside data (plain) or outside memory; an address is the exact sum
                           * of the register and w, and one of 2^64 or more is outside */
#define PG_STOP_NEXT 4    /* plain only: the next pc is outside code; in an accepted program, at a jmp only */
#define PG_STOP_FULL 261  /* stop 5: a call where the depth is PG_STACK_PLACES: the stack is full */
#define PG_STOP_EMPTY 262 /* stop 6: a ret where the depth is 0: the stack is empty */
#define PG_STOP_NUMBER(answer) ((answer) & 255)

/* Refusals: why a call is turned away. 1 to 4 come from the calls that read a parcel (pg_read_parcel, pg_read_wide_parcel,
 * pg_widen, pg_narrow, pg_report_parcel and pg_add_parcel), 7 to 15 from those that check a program (pg_check, pg_check_wide,
 * pg_report, pg_add_report, pg_report_parcel, pg_add_parcel and pg_shortest_path), 18 from these, which test it after 8 and
 * before 9, and from those that write a program (pg_write_parcel, pg_write_parcel_placed and pg_write_wide_parcel), 19 from
 * pg_narrow alone, 20 to 22 from pg_rewrite alone, which tests 7, 8, 18, 9 and 10 before them, and 23 from pg_shortest_path
 * alone, after all that a check refuses. */
#define PG_COUNT_MISSING 1       /* fewer than four bytes are left for a count */
#define PG_COUNT_LIMIT 2         /* a count breaks its section's limits */
#define PG_ITEMS_MISSING 3       /* the bytes for a section's items are not all there */
#define PG_TRAILING_BYTES 4      /* bytes follow the third section */
#define PG_PLACE_TOO_SHORT 5     /* a place is too short */
#define PG_SHAPE 6               /* n, D, the count of edge numbers or the depth of a state is outside its limits */
#define PG_EDGE_FROM_NO_JUMP 7   /* this edge starts where no jmp of the code is */
#define PG_TARGET_OUTSIDE_CODE 8 /* this edge's target is outside code */
#define PG_JUMP_WITHOUT_EDGE 9   /* this jmp has no edge */
#define PG_SETS_OVERLAP 10       /* this jump's target set meets another's and differs from it */
#define PG_LAST_WORD_LEGAL 11    /* the last code word is not illegal */
#define PG_LABEL_CONDITION 12    /* the label condition fails at this address */
#define PG_STORE_UNGUARDED 13    /* with memory guards: this st lacks its form or sequence */
#define PG_JUMP_UNGUARDED 14     /* this jmp lacks its form or sequence */
#define PG_BRANCH_TARGET 15      /* this bgt, jd or call leads into a guard or out of code */
#define PG_NOT_DATA 16           /* a bus write names an address outside data */
#define PG_NOT_REGISTER 17       /* a bus write names a register outside r3 to r31 */
#define PG_EDGE_NOT_RISING 18    /* this edge is not above the one before it, by jump address, then by target */
#define PG_EDGE_TOO_WIDE 19      /* this edge has an address above 65535: the first edition has no room for it */
#define PG_LABEL_OR_RESERVED 20  /* bare code has a label, or a word that names r0, r1 or r2, at this address */
#define PG_BRANCH_OUT 21         /* this bgt, jd or call leads out of the bare code */
#define PG_RESULT_TOO_LONG 22    /* with its guards the code has more than PG_MAX_CODE words */
#define PG_OUTSIDE_CODE 23       /* the address that a path is asked for is outside code */

/* What else became of a parcel that was to be added to totals. pg_add_report and pg_add_parcel answer them. */
#define PG_WITHOUT_JUMPS 256 /* accepted, but without jumps: passed over */
#define PG_UNCHANGED 257     /* the totals are as they were: they are full, a sum would pass 64 bits, or they are no totals */

/* What pg_shortest_path answers of an accepted program where no path leads to the address. It is no refusal. */
#define PG_UNREACHABLE 258

/* Opcodes, as pg_decode gives them and pg_encode takes them. */
#define PG_LABEL 0
#define PG_ADD 1
#define PG_ADDI 2
#define PG_MOVI 3
#define PG_BGT 4
#define PG_JD 5
#define PG_JMP 6
#define PG_LD 7
#define PG_ST 8
#define PG_CALL 9 /* puts pc + 1 on the stack and goes to w */
#define PG_RET 10 /* takes the latest address off the stack and goes there; every field is 0 */
#define PG_ILLEGAL 255

/* Takes an instruction word apart.
 * Answers PG_OK, and puts opcode, a, b, c and w into fields[0] to fields[4]; an illegal word is 255 and zeros.
 * Answers PG_PLACE_TOO_SHORT where fields_len is below 5. */
uint32_t pg_decode(uint64_t word, uint32_t *fields, size_t fields_len);

/* The word of an instruction. Fields that the instruction does not name are passed over. An opcode that is none, or a named
 * register above 31, gives the illegal word, all bits set. */
uint64_t pg_encode(uint8_t opcode, uint8_t a, uint8_t b, uint8_t c, uint32_t w);

/* Makes one step.
 * Answers PG_OK: the state and at most one word of memory are changed. A stop, PG_PLACE_TOO_SHORT where state_len is below
 * PG_STATE_WORDS (tested first), or PG_SHAPE where n, D or the depth is outside its limits (tested before every stop): nothing
 * is changed. A ret takes an address off by the depth alone, and its place keeps it. */
uint32_t pg_step(uint8_t technique, uint64_t *state, size_t state_len, uint64_t *memory, size_t memory_len, size_t n);

/* Makes steps until one cannot be made or the limit is reached, and puts the count of steps made into count[0].
 * Answers PG_OK where the limit was reached; the stop; PG_PLACE_TOO_SHORT where state_len is below PG_STATE_WORDS or
 * count_len is 0 (tested first): nothing is changed, not even the count; or PG_SHAPE, with count 0. */
uint32_t pg_run(uint8_t technique, uint64_t *state, size_t state_len, uint64_t *memory, size_t memory_len, size_t n,
                uint16_t limit, uint64_t *count, size_t count_len);

/* A bus write to a data word: memory[address] becomes word.
 * Answers PG_OK, PG_SHAPE, or PG_NOT_DATA. */
uint32_t pg_write_data(uint64_t *memory, size_t memory_len, size_t n, uint64_t address, uint64_t word);

/* A bus write to a register: state[reg] becomes word.
 * Answers PG_OK, PG_PLACE_TOO_SHORT where state_len is below PG_STATE_WORDS (tested first), PG_SHAPE where the depth is above
 * PG_STACK_PLACES, or PG_NOT_REGISTER. */
uint32_t pg_write_register(uint64_t *state, size_t state_len, uint64_t reg, uint64_t word);

/* Checks a program: its code, its claimed edges and its data size.
 * Answers PG_OK where it is accepted; PG_PLACE_TOO_SHORT where place_len is below 2 (tested first, nothing is changed); or 6
 * to 15 or 18, the first rule that is broken, in the sequence 6, 7, 8, 18, 9 to 15. place[0] is then 0 for no place, 1 for an
 * edge, 2 for an address, and place[1] the edge, counted from 0, or the address; both are 0 where there is no place, and where
 * the program is accepted. */
uint32_t pg_check(uint8_t technique, const uint64_t *memory, size_t memory_len, size_t n, const uint16_t *edges,
                  size_t edges_len, uint64_t *place, size_t place_len);

/* Reads a parcel: code, and data directly after it, into memory, and the edge numbers into edges.
 * Answers PG_OK, and puts the counts of code words, edges (pairs) and data words into counts[0] to counts[2]; or 1 to 4; or
 * PG_PLACE_TOO_SHORT where memory, edges or counts (below 3) is too short, tested last. */
uint32_t pg_read_parcel(const uint8_t *parcel, size_t parcel_len, uint64_t *memory, size_t memory_len, uint16_t *edges,
                        size_t edges_len, uint64_t *counts, size_t counts_len);

/* Writes a program as a parcel.
 * Answers PG_OK, and puts the number of its bytes into count[0]; PG_SHAPE; then PG_EDGE_NOT_RISING; or PG_PLACE_TOO_SHORT
 * where parcel or count (0) is too short, tested last. */
uint32_t pg_write_parcel(const uint64_t *memory, size_t memory_len, size_t n, const uint16_t *edges, size_t edges_len,
                         uint8_t *parcel, size_t parcel_len, uint64_t *count, size_t count_len);

/* The same, with the place of a refusal: place is put as by pg_check, and so PG_EDGE_NOT_RISING comes with 1 and the first
 * edge that is not above the one before it, and every other answer with 0 and 0. Answers PG_PLACE_TOO_SHORT also where
 * place_len is below 2, after the other tests as before; nothing is put into the place then. */
uint32_t pg_write_parcel_placed(const uint64_t *memory, size_t memory_len, size_t n, const uint16_t *edges,
                                size_t edges_len, uint8_t *parcel, size_t parcel_len, uint64_t *count, size_t count_len,
                                uint64_t *place, size_t place_len);

/* Checks a program whose edge numbers have 32 bits, by the same rules over numbers: answers as pg_check does. An edge number
 * above 65535 is outside code, and so it gives 7 or 8. */
uint32_t pg_check_wide(uint8_t technique, const uint64_t *memory, size_t memory_len, size_t n, const uint32_t *edges,
                       size_t edges_len, uint64_t *place, size_t place_len);

/* Reads a parcel of the second edition: as pg_read_parcel, with edge numbers of 32 bits.
 * Answers PG_OK, and puts the counts of code words, edges (pairs) and data words into counts[0] to counts[2]; or 1 to 4; or
 * PG_PLACE_TOO_SHORT where memory, edges or counts (below 3) is too short, tested last. */
uint32_t pg_read_wide_parcel(const uint8_t *parcel, size_t parcel_len, uint64_t *memory, size_t memory_len, uint32_t *edges,
                             size_t edges_len, uint64_t *counts, size_t counts_len);

/* Writes a program as a parcel of the second edition, with the place of a refusal: as pg_write_parcel_placed, with edge numbers
 * of 32 bits.
 * Answers PG_OK, and puts the number of its bytes into count[0]; PG_SHAPE; then PG_EDGE_NOT_RISING, with 1 and the first edge
 * that is not above the one before it in the place; or PG_PLACE_TOO_SHORT where parcel, count (0) or place (below 2) is too
 * short, tested last. Where place_len is 2 or more, every other answer puts 0 and 0 into the place. */
uint32_t pg_write_wide_parcel(const uint64_t *memory, size_t memory_len, size_t n, const uint32_t *edges, size_t edges_len,
                              uint8_t *parcel, size_t parcel_len, uint64_t *count, size_t count_len, uint64_t *place,
                              size_t place_len);

/* Writes a parcel of the first edition again as one of the second: the same code, data and edges. The edges stay as they are
 * listed; whether they rise is not tested. Every parcel that can be read can be widened, and pg_narrow then gives its bytes
 * back.
 * Answers PG_OK, and puts the number of bytes in wide into count[0]; or 1 to 4, as pg_read_parcel answers; or
 * PG_PLACE_TOO_SHORT where wide, count (0) or place (below 2) is too short, tested last. Where place_len is 2 or more, 0 and 0
 * are put into the place: no answer of this call has one. */
uint32_t pg_widen(const uint8_t *parcel, size_t parcel_len, uint8_t *wide, size_t wide_len, uint64_t *count, size_t count_len,
                  uint64_t *place, size_t place_len);

/* Writes a parcel of the second edition again as one of the first: the same code, data and edges, as they are listed; whether
 * they rise is not tested. pg_widen then gives its bytes back.
 * Answers PG_OK, and puts the number of bytes in parcel into count[0]; or 1 to 4, as pg_read_wide_parcel answers; then
 * PG_EDGE_TOO_WIDE, with 1 and the first edge that has a number above 65535 in the place; or PG_PLACE_TOO_SHORT where parcel,
 * count (0) or place (below 2) is too short, tested last. Where place_len is 2 or more, every other answer puts 0 and 0 into
 * the place. */
uint32_t pg_narrow(const uint8_t *wide, size_t wide_len, uint8_t *parcel, size_t parcel_len, uint64_t *count, size_t count_len,
                   uint64_t *place, size_t place_len);

/* Puts labels and plain guards into bare code: new code into code, its edges into new_edges, and into map for each address of
 * the bare code its new one. What comes out is accepted by pg_check, plain, with as many data words after it as the bare code
 * has.
 *
 * Each bare address has a block of new words, in the sequence of the addresses. Where it is a destination, the target of an
 * edge, the block begins with a label, which holds the new address of the lowest target of the jumps that lead there. Then a
 * jmp becomes the six words of its guard, ending in jmp r0; a bgt, jd or call gets the new address of its target; every other
 * word stays as it is, a ret and an illegal one too. After the last block comes one illegal word. So the new code has n words,
 * five more for each jmp, one more for each destination, and one: at most PG_MAX_CODE.
 * map[a] is where the block of a begins: at its label, its word or the first word of its guard. The edges stay in their
 * sequence: one from a to b then starts at the new jmp, the last word of the block of a, and ends at map[b].
 * The data words are only counted. Put them directly after the new code: they have other addresses there. Values are the
 * caller's to map: a movi, a data word or a register that holds an address of the bare program holds the old one still.
 *
 * Answers PG_OK, and puts the count of new code words into counts[0] and that of edge numbers, which is edges_len, into
 * counts[1]; 6, 7, 8, 18, 9 or 10, in this sequence, as pg_check answers them for the bare code; then PG_LABEL_OR_RESERVED,
 * with 2 and the lowest address of a label or of a word that names r0, r1 or r2 in the place; PG_BRANCH_OUT, with 2 and the
 * lowest address of a bgt, jd or call whose target is n or more; PG_RESULT_TOO_LONG; or PG_PLACE_TOO_SHORT where code (below
 * the new code words), new_edges (below edges_len), map (below n), counts (below 2) or place (below 2) is too short, tested last.
 * Where place_len is 2 or more, the place is put for every answer, as by pg_check: 0 and 0 where there is none. */
uint32_t pg_rewrite(const uint64_t *memory, size_t memory_len, size_t n, const uint16_t *edges, size_t edges_len,
                    uint64_t *code, size_t code_len, uint16_t *new_edges, size_t new_edges_len, uint16_t *map, size_t map_len,
                    uint64_t *counts, size_t counts_len, uint64_t *place, size_t place_len);

/* Checks a program and, where it is accepted, puts its figures: how tightly it is held.
 * Answers PG_OK where it is accepted; PG_PLACE_TOO_SHORT where figures_len is below PG_FIGURES or place_len below 2 (tested
 * first, nothing is changed); or 6 to 15 or 18, as pg_check answers, and the figures are unchanged. The place is put as by
 * pg_check.
 *
 * figures[0] to figures[11]: the words of each kind, in the sequence label, add, addi, movi, bgt, jd, jmp, ld, st, call, ret,
 * illegal (so figures[PG_JMP] is the number of jumps); they add up to n. figures[12]: the target sets, equal ones counted
 * once. figures[13]: the size of the largest, 0 without jumps. figures[14] and figures[15]: the freedom of the computed jumps,
 * figures[14] of figures[15]. The first is the edges, as listed, since none repeats; the second is jumps times code words: the
 * edges that there could be if each jump could go to each code word. Without jumps the freedom is left out, and both are 0;
 * with jumps neither is. */
uint32_t pg_report(uint8_t technique, const uint64_t *memory, size_t memory_len, size_t n, const uint16_t *edges,
                   size_t edges_len, uint64_t *figures, size_t figures_len, uint64_t *place, size_t place_len);

/* The same of a parcel, which is read first: answers also 1 to 4, with no place. */
uint32_t pg_report_parcel(uint8_t technique, const uint8_t *parcel, size_t parcel_len, uint64_t *figures,
                          size_t figures_len, uint64_t *place, size_t place_len);

/* Checks a program and adds its freedom to totals over up to 65,535 parcels. Fresh totals are PG_TOTALS zeros.
 *
 * totals[0]: the parcels so far, those passed over included. totals[1]: the sum of the edges of those counted. totals[2]: the
 * sum of their possible edges, jumps times code words. totals[3]: the place of the parcel with the largest freedom, counted
 * from 0; the earliest, where freedoms are equal. totals[4] and totals[5]: its edges and its possible ones. totals[5] is 0
 * where there is none yet; totals[3] and totals[4] are then passed over, and all three are put back as 0.
 *
 * Answers PG_OK where it is counted; PG_WITHOUT_JUMPS where it is accepted but has no jumps; or 6 to 15 or 18, as pg_check
 * answers. totals[0] then goes up by one. Without jumps or refused, the parcel is passed over: it keeps its place, and nothing
 * is added.
 * Answers PG_UNCHANGED, and the totals are as they were, where totals[0] is 65535 (whatever the further parcel is), where
 * totals[1] or totals[2] would pass 64 bits, or where the numbers are no totals: totals[0] or totals[3] above 65535, totals[4]
 * or totals[5] of 2 to the 32 or more. Answers PG_PLACE_TOO_SHORT where totals_len is below PG_TOTALS or place_len below 2
 * (tested first, nothing is changed). For every other answer the place is put: the refusal's, as by pg_check, or 0 and 0. */
uint32_t pg_add_report(uint8_t technique, const uint64_t *memory, size_t memory_len, size_t n, const uint16_t *edges,
                       size_t edges_len, uint64_t *totals, size_t totals_len, uint64_t *place, size_t place_len);

/* The same of a parcel, which is read first: answers also 1 to 4, with no place; it is then passed over like any other
 * refused parcel. */
uint32_t pg_add_parcel(uint8_t technique, const uint8_t *parcel, size_t parcel_len, uint64_t *totals, size_t totals_len,
                       uint64_t *place, size_t place_len);

/* Checks a program and, where it is accepted, puts a shortest path from address 0 to the address: how a routine can be reached.
 *
 * A path begins with 0 and goes from each address to one of its successors in the claimed graph: pc + 1 for ordinary words,
 * pc + 1 and w for a bgt, w for a jd or call, the listed targets for a jmp, the words after all calls for a ret, none for an
 * illegal word, each cut to code. The path with the fewest steps is put; among equals, the one that has the lower address where
 * they first part. The path to 0 is 0 alone. Such a path passes no address twice: a place of PG_MAX_CODE numbers always suffices.
 *
 * Answers PG_OK, puts the path into path, from 0 to the address, and how many addresses it has into count[0];
 * PG_UNREACHABLE exactly where no path leads to the address: nothing is put into path and count; or 6 to 15 or 18, as pg_check
 * answers; then PG_OUTSIDE_CODE, where the address is n or more; or PG_PLACE_TOO_SHORT where path (below the addresses of the
 * path), count (0) or place (below 2) is too short, tested last: what is refused or unreachable needs no room. Where place_len
 * is 2 or more, the place is put for every answer, as by pg_check: 0 and 0 where there is none, as with PG_UNREACHABLE and 23.
 *
 * Where PG_UNREACHABLE is answered, no run of the program that is started at address 0 arrives at the address, whatever the bus
 * writes. A path promises less: it ignores the call stack, and takes a ret to the word after any call. So there need not be a
 * run that follows it. */
uint32_t pg_shortest_path(uint8_t technique, const uint64_t *memory, size_t memory_len, size_t n, const uint16_t *edges,
                          size_t edges_len, uint64_t address, uint16_t *path, size_t path_len, uint64_t *count,
                          size_t count_len, uint64_t *place, size_t place_len);

#ifdef __cplusplus
}
#endif

#endif
