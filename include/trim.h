/* The subset trimmer for C: four jobs on a problem file, the same four on a circuit with its lemmas, and one that writes the problem file of such
 * a circuit; with nothing to set up and nothing to free.
 *
 * Every call may be made with any bytes as the file or texts, any budget and any length of lent bytes: no prior check is asked. The only duties
 * of a caller are those of C: what is `const` points to so many readable bytes, `marks`, `rows` and the `file` that is written to that many
 * writable ones (a length of 0 takes any pointer that is not null), `report` to seven words, and no two of them overlap. A call reads nothing
 * else, writes nothing else, keeps nothing, and takes no lock; calls may run side by side. It needs up to 1.5 MiB of stack.
 *
 * Each call returns the number of its answer, 0 for an answer and 1 to 15 for a refusal, and fills `report`:
 *
 *   report[0]  the number again
 *   report[1]  the place of a refusal 1 to 8 or 13: a byte offset in the file, or in the text that 13 speaks of
 *   report[2]  the decisions counted; for refusal 10 the budget
 *   report[3]  the rows written (a listing), or the bytes written (trim_circuit_problem)
 *   report[4]  n, the state variables          \
 *   report[5]  m, the inputs and helpers        > where trim_check, trim_circuit_check or trim_circuit_problem answers 0
 *   report[6]  k, the candidate lemmas         /
 *
 * What is not given for an answer is 0.
 *
 *    1  file over 65,536 bytes                      7  more than 4,096 clauses or 128 lemmas
 *    2  a record cut short                          8  bytes after the end record
 *    3  a kind out of place                         9  fewer than k bytes lent (trim_largest, trim_one)
 *    4  a body length not allowed for its kind     10  a decision wanted over the budget
 *    5  n or m out of range                        11  the largest inductive set isn't safe: no subset of these candidates would do
 *    6  literal 0, or a variable not for its kind  12  what doesn't fit: a row (trim_list), a problem file (trim_circuit_problem)
 *
 *   13  a text that is not as its format says, at its first line at fault: the circuit's, and only if that is right the lemmas'
 *   14  a circuit and lemmas over the limits: a text over 65,536 bytes, no latch or more than 96, more than 320 inputs and gates, other than
 *       one literal in outputs and bad states together, more than 128 lemmas, a lemma of more than 64 literals, more than 4,096 clauses
 *   15  a circuit with justice or fairness, which are not read
 *
 * Which text 13 speaks of: the circuit's, if the same call with an empty lemma text is refused by 13 too. 13, then 15, then 14
 * come before 9; a circuit is never refused by 1 to 8. docs/CIRCUITS.md says what the two texts are, and how they become a problem.
 *
 * Refusals 1 to 9, 11 and 13 to 15 write nothing but the report; so does 10, but for a listing, where 10 and 12 keep the rows already found. The budget
 * bounds the decisions of the whole call, 0 to 4,294,967,295. docs/FORMAT.md says what a problem file is. Init clauses and lemmas name state
 * variables (1 to n), Tr clauses every variable (1 to 2n+m), and Bad clauses all but next values (1 to n, 2n+1 to 2n+m): a state is bad if some
 * values of inputs and helpers satisfy all Bad clauses. Tr says nothing of Bad: what defines a helper that Bad names stands in Bad again.
 */
#ifndef TRIM_H
#define TRIM_H

#include <stddef.h>
#include <stdint.h>

#ifdef __cplusplus
extern "C" {
#endif

/* Check a problem file: n, m and k of an accepted one. */
uint32_t trim_check(const uint8_t *file, size_t file_len, uint64_t report[7]);

/* Mark the largest inductive subset: byte p of the first k is 1 if the lemma at position p is in it, and 0 if not. Other bytes keep their
 * value. */
uint32_t trim_largest(const uint8_t *file, size_t file_len, uint32_t budget, uint8_t *marks, size_t marks_len, uint64_t report[7]);

/* Mark one minimal safe inductive subset, in the same way: it is safe and inductive, and no proper part of it is. */
uint32_t trim_one(const uint8_t *file, size_t file_len, uint32_t budget, uint8_t *marks, size_t marks_len, uint64_t report[7]);

/* List all minimal safe inductive subsets: row r stands at bytes r*k to r*k+k-1, marked in the same way. Rows are ordered so that at the
 * first position where two differ, the one that has it comes first; the one set is the last row. Number 0 says that the list is complete. */
uint32_t trim_list(const uint8_t *file, size_t file_len, uint32_t budget, uint8_t *rows, size_t rows_len, uint64_t report[7]);

/* The same four jobs on a circuit in ASCII AIGER (of 2007, or of edition 1.9) and a lemma text: one lemma a line, signed latch
 * numbers closed by 0. Latches are numbered from 1, by the order of their lines, and are the state variables. */
uint32_t trim_circuit_check(const uint8_t *circuit, size_t circuit_len, const uint8_t *lemmas, size_t lemmas_len, uint64_t report[7]);

uint32_t trim_circuit_largest(const uint8_t *circuit, size_t circuit_len, const uint8_t *lemmas, size_t lemmas_len, uint32_t budget,
                              uint8_t *marks, size_t marks_len, uint64_t report[7]);

uint32_t trim_circuit_one(const uint8_t *circuit, size_t circuit_len, const uint8_t *lemmas, size_t lemmas_len, uint32_t budget,
                          uint8_t *marks, size_t marks_len, uint64_t report[7]);

uint32_t trim_circuit_list(const uint8_t *circuit, size_t circuit_len, const uint8_t *lemmas, size_t lemmas_len, uint32_t budget,
                           uint8_t *rows, size_t rows_len, uint64_t report[7]);

/* Write the problem file that is built from a circuit and its lemmas into the first of the lent bytes: report[3] says how many they are, 46,220 at
 * most, and n, m and k are those of trim_check. Refused by 12, with nothing written, where they do not fit. Every job on that file answers as
 * the job on the circuit does. */
uint32_t trim_circuit_problem(const uint8_t *circuit, size_t circuit_len, const uint8_t *lemmas, size_t lemmas_len, uint8_t *file,
                              size_t file_len, uint64_t report[7]);

#ifdef __cplusplus
}
#endif

#endif
