/* Calls the library as a C program does: solves case B, checks the certificate, traces labels 2, 1, 0 and 3, 0, and the first with task 2
   locked, gives task 1 and then both tasks a gap of two slots, combines case B with the plan of the first gap, sends it back to the first edition and forth again, widens and
   checks a certificate of the first edition, writes to case B's register block, holds logs against caps, and sees that refusals leave memory as it was. */
#include <stdio.h>
#include <string.h>

#include "jovnetal.h"

static const uint8_t plan[] = {1, 1, 1, 0, 1, 1, 2, 2, 0, 3, 2, 1, 3, 1, 4, 0, 0, 0, 4, 0, 1, 0, 4, 0, 2, 0, 4, 0, 3, 0, 5};
static const uint8_t labels[] = {2, 1, 0};
static const uint8_t busy[] = {3, 0};
static uint8_t work[JOVNETAL_WORK_ROOM];
static uint8_t certificate[JOVNETAL_CERTIFICATE_ROOM];
static uint8_t slots[JOVNETAL_TRACE_ROOM];
static uint8_t apart[JOVNETAL_PLAN_ROOM];
static uint8_t both[JOVNETAL_PLAN_ROOM];
static uint8_t first[JOVNETAL_FIRST_PLAN_ROOM];
static uint8_t again[JOVNETAL_PLAN_ROOM];

static int failures;

static void expect(int holds, const char *what) {
    if (!holds) {
        printf("not so: %s\n", what);
        failures++;
    }
}

static int all(const uint8_t *bytes, size_t length, uint8_t value) {
    for (size_t i = 0; i < length; i++) {
        if (bytes[i] != value) {
            return 0;
        }
    }
    return 1;
}

int main(void) {
    static const uint8_t traced[] = {2, 0, 0, 0, 1, 0, 1, 2, 0, 0, 0, 0};
    static const uint8_t in_vain[] = {1, 0, 1, 0, 2, 0, 0, 0};
    static const uint8_t gap[] = {1, 1, 1, 0, 1, 1, 2, 2, 0, 3, 2, 1, 3, 2, 4, 0, 0, 0, 4, 0, 1, 1, 4, 0, 2, 0, 4, 0, 3, 1, 4, 1, 0, 0, 4, 1, 2, 0, 5};
    static const uint8_t shared[] = {1, 1, 1, 0, 1, 1, 2, 2, 0, 3, 2, 1, 3, 2, 4, 0, 0, 0, 4, 0, 1, 1, 4, 0, 2, 1, 4, 1, 0, 0, 5};
    static const uint8_t held[] = {2, 0, 0, 0, 2, 0, 3, 0, 0, 0, 0, 0};
    static const uint8_t locked[] = {1, 1, 1, 0, 1, 1, 2, 2, 0, 3, 9, 2, 2, 1, 3, 1, 4, 0, 0, 0, 4, 0, 1, 0, 4, 0, 2, 0, 4, 0, 3, 0, 5};
    static const uint8_t old[] = {1, 1, 1, 1, 1, 2, 2, 3, 2, 1, 3, 1, 4, 0, 0, 0, 4, 0, 1, 0, 4, 0, 2, 0, 4, 0, 3, 0, 5};
    static const uint8_t wide[] = {1, 1, 9, 0, 1, 2, 1, 3, 1, 5};
    static const uint8_t filed[] = {17, 0, 0, 0, 0, 0, 0, 0, 1, 0, 5, 18, 0, 0, 0, 0, 0, 0, 0, 0, 18, 0, 0, 0, 0, 0, 0, 0, 0, 18, 0, 0, 0, 0, 0, 0,
                                    0, 0, 18, 0, 0, 0, 0, 0, 0, 0, 1, 18, 0, 0, 0, 0, 0, 0, 0, 1, 19, 0, 4, 20, 2, 0, 0, 0, 0, 20, 2, 0, 3, 0, 0, 21};
    static const uint8_t steps[] = {20, 2, 0, 0, 0, 0, 0, 0, 0, 0, 20, 2, 0, 0, 0, 3, 0, 0, 0, 0, 21};
    static const uint8_t other[] = {1, 1, 1, 0, 1, 2, 1, 3, 1, 5};
    static const uint8_t writes[] = {3, 1, 0, 2, 1, 1, 0, 1, 1, 1, 0, 4, 1, 1, 1, 2};
    static const uint8_t after_two[] = {0, 0, 1, 1, 1, 1, 0, 0, 0, 0, 0, 1, 0, 0, 0, 0};
    static const uint8_t after_all[] = {0, 0, 2, 1, 0, 0, 0, 0, 0, 0, 0, 1, 0, 0, 0, 0};
    static const uint8_t log_of_work[] = {1, 2, 3, 0, 4};
    uint8_t registers[16];
    uint64_t slot[1] = {7};
    uint64_t numbers[4] = {7, 7, 7, 7};
    uint64_t passes[1] = {7};
    uint64_t n;

    memset(certificate, 7, sizeof certificate);
    expect(jovnetal_solve(plan, 3, work, sizeof work, certificate, sizeof certificate, passes) == JOVNETAL_REFUSED + 1,
           "a plan cut off is refused with 1");
    expect(jovnetal_solve(plan, sizeof plan, work, sizeof work - 1, certificate, sizeof certificate, passes) == JOVNETAL_REFUSED + 11,
           "short work memory is refused with 11");
    expect(all(certificate, sizeof certificate, 7) && passes[0] == 7, "a refusal leaves the output and the passes as they were");

    n = jovnetal_solve(plan, sizeof plan, work, sizeof work, certificate, sizeof certificate, passes);
    expect(passes[0] == 2, "the potentials are found in two passes");
    expect(n < JOVNETAL_REFUSED && all(certificate + n, sizeof certificate - n, 7), "bytes past the certificate are as they were");
    expect(all(work, sizeof work, 0), "work memory is zero after a call");

    expect(jovnetal_check(plan, sizeof plan, certificate, n - 1, work, sizeof work, numbers) == 6, "a certificate cut off is refused with 6");
    expect(numbers[0] == 7 && numbers[3] == 7, "a refusal leaves the numbers as they were");
    expect(jovnetal_check(plan, sizeof plan, certificate, n, work, sizeof work, numbers) == 0, "the certificate is accepted");
    expect(numbers[0] == 0 && numbers[1] == 1 && numbers[2] == 5 && numbers[3] == 0, "the share is 0/1 of 5 nodes, with allowance 0");

    memset(slots, 7, sizeof slots);
    expect(jovnetal_trace(plan, sizeof plan, labels, sizeof labels, slots, sizeof slots - 1) == JOVNETAL_REFUSED + 11, "short output is refused with 11");
    expect(jovnetal_trace(plan, sizeof plan, plan, sizeof plan, slots, sizeof slots) == JOVNETAL_REFUSED + 13, "a label that is not admitted is refused with 13");
    expect(all(slots, sizeof slots, 7), "and both leave the output as it was");
    n = jovnetal_trace(plan, sizeof plan, labels, sizeof labels, slots, sizeof slots);
    expect(n == sizeof traced && memcmp(slots, traced, sizeof traced) == 0, "tasks 2, 1, none run, the gains are 0, 1, 0, and task 1 cuts task 2");
    expect(all(slots + n, sizeof slots - n, 7), "bytes past the trace are as they were");
    n = jovnetal_trace(plan, sizeof plan, busy, sizeof busy, slots, sizeof slots);
    expect(n == sizeof in_vain && memcmp(slots, in_vain, sizeof in_vain) == 0, "a job that can't finish runs and gains nothing");

    n = jovnetal_trace(locked, sizeof locked, labels, sizeof labels, slots, sizeof slots);
    expect(n == sizeof held && memcmp(slots, held, sizeof held) == 0, "with task 2 locked it runs to its end, gains 3 and is not cut");

    memset(apart, 7, sizeof apart);
    expect(jovnetal_gap(plan, sizeof plan, 3, 2, apart, sizeof apart) == JOVNETAL_REFUSED + 14, "a gap for a third task is refused with 14");
    expect(all(apart, sizeof apart, 7), "and leaves the output as it was");
    n = jovnetal_gap(plan, sizeof plan, 1, 2, apart, sizeof apart);
    expect(n == sizeof gap && memcmp(apart, gap, sizeof gap) == 0, "a gap of two slots has two states");
    expect(all(apart + n, sizeof apart - n, 7), "bytes past the plan are as they were");
    n = jovnetal_gap(locked, sizeof locked, 1, 2, apart, sizeof apart);
    expect(n == sizeof gap + 2 && memcmp(apart, locked, 12) == 0 && memcmp(apart + 12, gap + 10, sizeof gap - 10) == 0, "and keeps the lock");

    memset(apart, 7, sizeof apart);
    expect(jovnetal_group_gap(plan, sizeof plan, 0, 2, apart, sizeof apart) == JOVNETAL_REFUSED + 14, "a gap for no task is refused with 14");
    expect(jovnetal_group_gap(plan, sizeof plan, 5, 2, apart, sizeof apart) == JOVNETAL_REFUSED + 14, "and so is one for a third task beside the first");
    expect(jovnetal_group_gap(plan, sizeof plan, 3, 2, apart, sizeof apart - 1) == JOVNETAL_REFUSED + 11, "short output is refused with 11");
    expect(all(apart, sizeof apart, 7), "and all three leave the output as it was");
    n = jovnetal_group_gap(plan, sizeof plan, 3, 2, apart, sizeof apart);
    expect(n == sizeof shared && memcmp(apart, shared, sizeof shared) == 0, "both tasks share the gap, and no slot");
    expect(all(apart + n, sizeof apart - n, 7), "bytes past the plan are as they were");
    n = jovnetal_group_gap(plan, sizeof plan, 1, 2, apart, sizeof apart);
    expect(n == sizeof gap && memcmp(apart, gap, sizeof gap) == 0, "a set of one is that task");

    memset(both, 7, sizeof both);
    expect(jovnetal_combine(plan, sizeof plan, other, sizeof other, both, sizeof both) == JOVNETAL_REFUSED + 4, "different tasks are refused with 4");
    expect(jovnetal_combine(plan, sizeof plan, locked, sizeof locked, both, sizeof both) == JOVNETAL_REFUSED + 4, "and so are different locks");
    expect(all(both, sizeof both, 7), "and both leave the output as it was");
    n = jovnetal_combine(plan, sizeof plan, gap, sizeof gap, both, sizeof both);
    expect(n == sizeof gap && memcmp(both, gap, sizeof gap) == 0, "a plan that admits all, with one that keeps a gap, keeps the gap");
    expect(all(both + n, sizeof both - n, 7), "bytes past the combined plan are as they were");

    memset(first, 7, sizeof first);
    expect(jovnetal_back(wide, sizeof wide, first, sizeof first) == JOVNETAL_REFUSED + 16, "a window of nine slots is refused with 16");
    expect(jovnetal_back(locked, sizeof locked, first, sizeof first) == JOVNETAL_REFUSED + 16, "a lock is refused with 16");
    expect(jovnetal_back(plan, sizeof plan, first, sizeof first - 1) == JOVNETAL_REFUSED + 11, "short output is refused with 11");
    expect(all(first, sizeof first, 7), "and all three leave the output as it was");
    n = jovnetal_back(plan, sizeof plan, first, sizeof first);
    expect(n == sizeof old && memcmp(first, old, sizeof old) == 0, "case B goes back to the first edition");
    expect(all(first + n, sizeof first - n, 7), "bytes past the plan sent back are as they were");
    memset(again, 7, sizeof again);
    expect(jovnetal_forth(plan, sizeof plan, again, sizeof again) == JOVNETAL_REFUSED + 4, "a long-read plan sent forth is refused");
    n = jovnetal_forth(first, n, again, sizeof again);
    expect(n == sizeof plan && memcmp(again, plan, sizeof plan) == 0, "and forth again it is the same bytes");
    expect(all(again + n, sizeof again - n, 7), "bytes past the plan sent forth are as they were");

    memset(certificate, 7, sizeof certificate);
    expect(jovnetal_widen(filed, sizeof filed, certificate, sizeof certificate - 1) == JOVNETAL_REFUSED + 11, "short output is refused with 11");
    expect(jovnetal_widen(filed, sizeof filed - 1, certificate, sizeof certificate) == JOVNETAL_REFUSED + 6, "a certificate cut off is refused with 6");
    expect(all(certificate, sizeof certificate, 7), "and both leave the output as it was");
    n = jovnetal_widen(filed, sizeof filed, certificate, sizeof certificate);
    expect(n == 80 && memcmp(certificate, filed, 59) == 0 && memcmp(certificate + 59, steps, sizeof steps) == 0, "each mask has two bytes, and all else is as it was");
    expect(all(certificate + n, sizeof certificate - n, 7), "bytes past the widened certificate are as they were");
    numbers[0] = numbers[1] = numbers[2] = numbers[3] = 7;
    expect(jovnetal_check(again, sizeof plan, certificate, n, work, sizeof work, numbers) == 0, "the certificate is accepted, widened, for the plan sent forth");
    expect(numbers[0] == 0 && numbers[1] == 1 && numbers[2] == 5 && numbers[3] == 0, "with the numbers of case B");

    memset(registers, 7, sizeof registers);
    expect(jovnetal_block(plan, 3, writes, sizeof writes, registers) == 1 && all(registers, sizeof registers, 7), "a plan cut off is refused with 1, and the registers are as they were");
    expect(jovnetal_block(plan, sizeof plan, writes, 0, registers) == 0 && all(registers, sizeof registers, 0), "a fresh block is all zero");
    expect(jovnetal_block(plan, sizeof plan, writes, 10, registers) == 0 && memcmp(registers, after_two, sizeof after_two) == 0, "task 1 ran and is done, which the mask shows, and the gain is 1");
    expect(jovnetal_block(plan, sizeof plan, writes, 14, registers) == 0 && memcmp(registers, after_all, sizeof after_all) == 0, "a label that is not admitted passes no slot");
    expect(jovnetal_block(plan, sizeof plan, writes, 15, registers) == 0 && memcmp(registers, after_all, sizeof after_all) == 0, "a number without a value is no write");
    expect(jovnetal_block(plan, sizeof plan, writes, 16, registers) == 17 && memcmp(registers, after_all, sizeof after_all) == 0, "another value than 1 to byte 1 is refused with 17, and the block is as it was");

    expect(jovnetal_cap(plan, 3, log_of_work, 4, 0, 0, slot) == JOVNETAL_REFUSED + 1, "a plan cut off is refused with 1, before 18");
    expect(jovnetal_cap(plan, sizeof plan, log_of_work, 5, 0, 0, slot) == JOVNETAL_REFUSED + 18, "a cap of no slots is refused with 18, before 13");
    expect(jovnetal_cap(plan, sizeof plan, log_of_work, 4, 65, 0, slot) == JOVNETAL_REFUSED + 18, "and so is one of 65");
    expect(jovnetal_cap(plan, sizeof plan, log_of_work, 4, 64, 2561, slot) == JOVNETAL_REFUSED + 18, "and one of 2,561 units of work");
    expect(jovnetal_cap(plan, sizeof plan, log_of_work, 5, 2, 5, slot) == JOVNETAL_REFUSED + 13, "a label of a third task is refused with 13");
    expect(jovnetal_cap(plan, sizeof plan, log_of_work, 4, 2, 5, slot) == 0, "five units in two slots are just the cap");
    expect(jovnetal_cap(plan, sizeof plan, log_of_work, 0, 1, 0, slot) == 0 && slot[0] == 7, "an empty log keeps it, and the slot is as it was after all these");
    expect(jovnetal_cap(plan, sizeof plan, log_of_work, 5, 2, 4, slot) == 1 && slot[0] == 2, "slot 2 is the first with more, also before a label of a third task");

    printf("C: p/q = %llu/%llu, %s\n", (unsigned long long)numbers[0], (unsigned long long)numbers[1], failures ? "FAILED" : "all as said");
    return failures != 0;
}
