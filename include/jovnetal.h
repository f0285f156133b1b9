/* The calls of the kept-share analyser, for C and C++. `rt lib` in crates/exports writes out/libexports.a, which has them.

   Buffers are lent for the time of a call: each is a pointer, which must not be null, and the number of bytes behind it. No
   buffer that a call writes to may overlap another one. Any bytes may stand in plan, labels, certificate and writes: a call always
   returns, reads and writes nothing outside what it was lent, and tells what is wrong by the number of the refusal
   (README.md has the table). */
#ifndef JOVNETAL_H
#define JOVNETAL_H

#include <stddef.h>
#include <stdint.h>

#ifdef __cplusplus
extern "C" {
#endif

/* The least bytes to lend: work memory, and the output of a certificate, of a trace, of a plan, and of a plan in the first edition. With
   fewer the refusal is 11. */
#define JOVNETAL_WORK_ROOM 65536
#define JOVNETAL_CERTIFICATE_ROOM 19471
#define JOVNETAL_TRACE_ROOM 16384
#define JOVNETAL_PLAN_ROOM 1057
#define JOVNETAL_FIRST_PLAN_ROOM 1045

/* A call that writes bytes answers their number, or the number of the refusal and this. */
#define JOVNETAL_REFUSED 65536

/* Writes the certificate of a plan to out, and to passes the number of passes over all edges in which the solver found the potentials of
   the fraction that it writes, the last included: at most N.
   Answers the number of bytes written, or JOVNETAL_REFUSED + n: 11, 1 to 5.
   Memory: bytes of out past the last one written keep what they had; after a refusal all do, and so does passes. work is all zero, or as
   it was after 11. */
uint64_t jovnetal_solve(const uint8_t *plan, size_t plan_length, uint8_t *work, size_t work_length, uint8_t *out, size_t out_length,
                        uint64_t passes[1]);

/* Checks a certificate against a plan, whoever wrote it.
   Answers 0, with p, q, N and K in numbers, or the number of the refusal: 11, 1 to 5, 6 to 10.
   Memory: after a refusal numbers keeps what it had. work is all zero, or as it was after 11. */
uint64_t jovnetal_check(const uint8_t *plan, size_t plan_length, const uint8_t *certificate, size_t certificate_length,
                        uint8_t *work, size_t work_length, uint64_t numbers[4]);

/* Traces a plan's policy over labels, one byte each: for each label four bytes are written to out, the task that ran, the gain of the slot in
   two bytes, most significant first, and the task of the job that was displaced: the one that ran in the slot before, if it is unfinished,
   still there and does not run now. A task is 0 for none. No locked task is displaced.
   Answers the number of bytes written, or JOVNETAL_REFUSED + n: 11, 1 to 4, 12, 13.
   Memory: bytes of out past the last one written keep what they had; after a refusal all do. */
uint64_t jovnetal_trace(const uint8_t *plan, size_t plan_length, const uint8_t *labels, size_t label_count,
                        uint8_t *out, size_t out_length);

/* Writes a plan's tasks, with their locks, and policy to out with an automaton that admits exactly the runs in which any two releases of the task are at
   least so many slots apart; other tasks are free. Tasks are numbered from 1.
   Answers the number of bytes written, or JOVNETAL_REFUSED + n: 11, 1 to 4, 14.
   Memory: bytes of out past the last one written keep what they had; after a refusal all do. */
uint64_t jovnetal_gap(const uint8_t *plan, size_t plan_length, uint64_t task, uint64_t slots, uint8_t *out, size_t out_length);

/* The same for a set of tasks, written as a label is: bit i - 1 says that task i is of it. Any two releases from the set are at least so many
   slots apart, so two of them never share a slot. A set of one task gives what jovnetal_gap gives for it.
   Answers the number of bytes written, or JOVNETAL_REFUSED + n: 11, 1 to 4, 14, also for a set without a task or with one that the plan lacks.
   Memory: bytes of out past the last one written keep what they had; after a refusal all do. */
uint64_t jovnetal_group_gap(const uint8_t *plan, size_t plan_length, uint64_t set, uint64_t slots, uint8_t *out, size_t out_length);

/* Writes the first plan's tasks, with their locks, and policy to out with an automaton that admits exactly the runs that both plans admit.
   first and second may be the same bytes.
   Answers the number of bytes written, or JOVNETAL_REFUSED + n: 11, the first plan's 1 to 4, the second's 1 to 4, 4 for different tasks or
   locks, 15.
   Memory: bytes of out past the last one written keep what they had; after a refusal all do. */
uint64_t jovnetal_combine(const uint8_t *first, size_t first_length, const uint8_t *second, size_t second_length,
                          uint8_t *out, size_t out_length);

/* Writes a plan of the first edition to out in the long-read edition, which the other calls take: the same tasks, policy, states and arcs.
   Answers the number of bytes written, or JOVNETAL_REFUSED + n: 11, 1 to 4 as the first edition has them.
   Memory: bytes of out past the last one written keep what they had; after a refusal all do. */
uint64_t jovnetal_forth(const uint8_t *plan, size_t plan_length, uint8_t *out, size_t out_length);

/* Writes a plan of the long-read edition to out in the first. Sent forth and back, or back and forth, a plan is the same bytes.
   Answers the number of bytes written, or JOVNETAL_REFUSED + n: 11 (below JOVNETAL_FIRST_PLAN_ROOM), 1 to 4, 16 for a window above 8, a
   value above 255 or a lock.
   Memory: bytes of out past the last one written keep what they had; after a refusal all do. */
uint64_t jovnetal_back(const uint8_t *plan, size_t plan_length, uint8_t *out, size_t out_length);

/* Writes a certificate of the first edition to out in the long-read edition, each mask in two bytes. If it passes the check's tests for a plan
   of the first edition, jovnetal_check accepts it for that plan sent forth, with the same numbers.
   Answers the number of bytes written, or JOVNETAL_REFUSED + n: 11 (below JOVNETAL_CERTIFICATE_ROOM), 6.
   Memory: bytes of out past the last one written keep what they had; after a refusal all do. */
uint64_t jovnetal_widen(const uint8_t *certificate, size_t certificate_length, uint8_t *out, size_t out_length);

/* The register block of the part that a plan sets up, after writes from a fresh block on; no graph is built. writes has two bytes for each
   write, the number of a register byte and the value; a last byte that has no value is no write.
   Registers: byte 0 takes a label; writing 1 to byte 1 runs one slot with that label and clears byte 0, admitted or not; byte 2 is the status
   of the last such write, bit 0 a job finished, bit 1 the label was not admitted and no slot passed; byte 3 is the interrupt mask; byte 4 the
   task that ran, 0 for none; byte 5 is 1 where status and mask share a set bit; bytes 8 to 11 are the gain so far modulo 2^32, most
   significant first. All others are 0.
   Answers the refusal of the last write: 0 for none, 17 for one to another byte than 0, 1 or 3, or of another value than 1 to byte 1, which
   leaves the block as it was; or the plan's fault, 1 to 4.
   Memory: registers has the sixteen bytes as they read after the writes; with a plan's fault it keeps what it had. */
uint64_t jovnetal_block(const uint8_t *plan, size_t plan_length, const uint8_t *writes, size_t writes_length, uint8_t registers[16]);

/* Tells whether a run kept to its cap: at most so much work, the sum of the released tasks' C, in any so many slots in a row. labels is the log of
   the whole run, one byte a slot, of any length; the plan's states play no part, and no graph is built.
   Answers 0 where the log keeps the cap, 1 where it does not, with the first slot in which the last slots, or all so far if fewer, have more
   work in slot, counted from 0; or JOVNETAL_REFUSED + n: 1 to 4; 18 for slots outside 1 to 64 or work above 2,560; 13 for a label with a bit of
   a task that the plan lacks, unless an earlier slot exceeds the cap.
   Memory: only the answer 1 changes slot. */
uint64_t jovnetal_cap(const uint8_t *plan, size_t plan_length, const uint8_t *labels, size_t label_count, uint64_t slots, uint64_t work,
                      uint64_t slot[1]);

#ifdef __cplusplus
}
#endif

#endif
