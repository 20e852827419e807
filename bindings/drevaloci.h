/* The C functions of Drevaloci's proved library: a Simplicity interpreter without jets.
 *
 * Build the library with bindings/library.sh (x86-64 Linux) and link target/staticlib/libexports.a.
 *
 * A slice is passed as two arguments: a pointer to its first element, then its length in elements.
 * Each function returns 0 where it passed or gave a value, else the refusal's number of the table in
 * the requirements (1 to 19, 21, 26); the refusal's place is then in *place.
 *
 * What a caller owes; nothing in the library tests it:
 *  - Each pointer is valid for the length that is passed with it, and not NULL even where that is 0.
 *  - Pointers to uint32_t are aligned to 4 bytes. Bytes may stand at any address.
 *  - What is written (a pointer without const) stands apart from all else that is passed.
 *    Slices that are only read may overlap each other.
 *  - Nothing else writes to what is passed while the call runs. Calls share nothing, so any number may run at once.
 *  - DREVALOCI_STACK_BYTES of stack are free.
 * No length, number or byte is owed: whatever stands in the slices, the answer is the one of the requirements.
 */
#ifndef DREVALOCI_H
#define DREVALOCI_H

#include <stddef.h>
#include <stdint.h>

/* Sizes of records, and of stores that are enough for every dossier. */
#include "drevaloci_limits.h"

#ifdef __cplusplus
extern "C" {
#endif

/* Stack that is enough for any call. */
#define DREVALOCI_STACK_BYTES (8u << 20)

/* The whole job. 0: the output's bits stand in answer from the top bit of its first byte, *place is their count.
 * Else the refusal, at *place. What each end leaves in the five stores is in the requirements, "When a run says no". */
uint32_t drevaloci_run(const uint8_t *dossier, size_t dossier_len, uint32_t *nodes, size_t nodes_len,
                       uint8_t *hashes, size_t hashes_len, uint8_t *cells, size_t cells_len,
                       uint32_t *frames, size_t frames_len, uint8_t *answer, size_t answer_len,
                       uint32_t *place);

/* Decodes a program. 0: nodes holds *place records of four numbers, hashes holds *hash_bytes bytes, the rest of both is zero.
 * Else 1, 3 to 10, 17 or 21 at *place, and both stores are zero. */
uint32_t drevaloci_decode(const uint8_t *program, size_t program_len, uint32_t *nodes, size_t nodes_len,
                          uint8_t *hashes, size_t hashes_len, uint32_t *place, uint32_t *hash_bytes);

/* Judges a node table on its own: its records (4, 26), then the left-first walk (6 to 9).
 * 0 where it passes, else the refusal at *place. nodes is just the table's records, not a longer store. */
uint32_t drevaloci_walk(const uint8_t *program, size_t program_len, const uint8_t *hashes, size_t hashes_len,
                        const uint32_t *nodes, size_t nodes_len, uint32_t *place);

/* Judges types and arrows: all that drevaloci_walk does, the type records (2), one-child disconnects (11), equal nodes (9) and arrows (12).
 * 0 where they pass, else the refusal at *place. types has 5 bytes a record, arrows 4 bytes a node, as in a dossier. */
uint32_t drevaloci_arrows(const uint8_t *types, size_t types_len, const uint32_t *nodes, size_t nodes_len,
                          const uint8_t *arrows, size_t arrows_len, const uint8_t *program, size_t program_len,
                          const uint8_t *hashes, size_t hashes_len, uint32_t *place);

/* Judges the supplied hashes, 32 bytes for each two-child disconnect (13), after all that drevaloci_arrows does.
 * 0 where they pass, else the refusal at *place. */
uint32_t drevaloci_hashes(const uint8_t *types, size_t types_len, const uint32_t *nodes, size_t nodes_len,
                          const uint8_t *arrows, size_t arrows_len, const uint8_t *program, size_t program_len,
                          const uint8_t *hashes, size_t hashes_len, const uint8_t *given, size_t given_len,
                          uint32_t *place);

/* The bounds of a program, after all that drevaloci_arrows does. 0: *cells, *frames and *cost are what a run needs at most.
 * Else the refusal (14 where a bound is over its limit): *cells is the place, *frames and *cost are 0. */
uint32_t drevaloci_bounds(const uint8_t *types, size_t types_len, const uint32_t *nodes, size_t nodes_len,
                          const uint8_t *arrows, size_t arrows_len, const uint8_t *program, size_t program_len,
                          const uint8_t *hashes, size_t hashes_len, uint32_t *cells, uint32_t *frames, uint32_t *cost);

/* Runs a program that is given by its tables, after every check of them (2, 4, 6 to 9, 11 to 17, 26).
 * Answers as drevaloci_run does; witness_bits and input_bits are counts of bits, filled into bytes from the top bit. */
uint32_t drevaloci_run_tables(const uint8_t *types, size_t types_len, const uint32_t *nodes, size_t nodes_len,
                              const uint8_t *arrows, size_t arrows_len, const uint8_t *program, size_t program_len,
                              const uint8_t *hashes, size_t hashes_len, const uint8_t *given, size_t given_len,
                              const uint8_t *witness, size_t witness_len, uint32_t witness_bits,
                              const uint8_t *input, size_t input_len, uint32_t input_bits,
                              uint8_t *cells, size_t cells_len, uint32_t *frames, size_t frames_len,
                              uint8_t *answer, size_t answer_len, uint32_t *place);

/* Reads one natural at bit `at`. 0: *value is the natural, at most bound, and *next the bit after its code.
 * Else 3 where the bytes end first, 4 where it is over the bound, 21 where a length in its code is above 31. */
uint32_t drevaloci_natural(const uint8_t *bytes, size_t bytes_len, size_t at, uint32_t bound,
                           uint32_t *value, size_t *next);

#ifdef __cplusplus
}
#endif

#endif
