/* Calls the proved library through its C interface, for a comparison in another process: requests on standard input, answers on standard
 * output, until the input ends. A request is five 32-bit numbers (job 0 to 8, budget, length of the file or circuit text, length of the lemma
 * text, length of the lent bytes), then the file or circuit text, the lemma text and the lent bytes. Jobs 0 to 3 are over a file and have no
 * lemma text; 4 to 8 are over a circuit. An answer is two 32-bit numbers (what the call returned; 1 if the bytes around the lent ones are as they were), the
 * seven words of the report, and the lent bytes. It stands on nothing but read and write. */
#include "trim.h"

long read(int descriptor, void *bytes, size_t count);
long write(int descriptor, const void *bytes, size_t count);

#define AROUND 16
#define MOST (1 << 20)

static uint8_t file[MOST];
static uint8_t lemmas[MOST];
static uint8_t space[MOST + 2 * AROUND];

static int take(void *bytes, size_t count) {
    uint8_t *to = bytes;
    while (count > 0) {
        long got = read(0, to, count);
        if (got <= 0) return 0;
        to += got;
        count -= (size_t)got;
    }
    return 1;
}

static int give(const void *bytes, size_t count) {
    const uint8_t *from = bytes;
    while (count > 0) {
        long put = write(1, from, count);
        if (put <= 0) return 0;
        from += put;
        count -= (size_t)put;
    }
    return 1;
}

static uint8_t guard(size_t place) { return (uint8_t)(0x5A ^ place); }

static uint32_t call(uint32_t job, uint32_t budget, size_t file_len, size_t lent_len, uint64_t report[7]) {
    uint8_t *lent = space + AROUND;
    if (job == 0) return trim_check(file, file_len, report);
    if (job == 1) return trim_largest(file, file_len, budget, lent, lent_len, report);
    if (job == 2) return trim_one(file, file_len, budget, lent, lent_len, report);
    return trim_list(file, file_len, budget, lent, lent_len, report);
}

static uint32_t circuit_call(uint32_t job, uint32_t budget, size_t file_len, size_t lemmas_len, size_t lent_len, uint64_t report[7]) {
    uint8_t *lent = space + AROUND;
    if (job == 4) return trim_circuit_check(file, file_len, lemmas, lemmas_len, report);
    if (job == 5) return trim_circuit_largest(file, file_len, lemmas, lemmas_len, budget, lent, lent_len, report);
    if (job == 6) return trim_circuit_one(file, file_len, lemmas, lemmas_len, budget, lent, lent_len, report);
    if (job == 7) return trim_circuit_list(file, file_len, lemmas, lemmas_len, budget, lent, lent_len, report);
    return trim_circuit_problem(file, file_len, lemmas, lemmas_len, lent, lent_len, report);
}

static uint32_t guarded(size_t lent_len) {
    for (size_t i = 0; i < AROUND; i++)
        if (space[i] != guard(i) || space[AROUND + lent_len + i] != guard(i)) return 0;
    return 1;
}

int main(void) {
    uint32_t ask[5];
    while (take(ask, sizeof ask)) {
        size_t file_len = ask[2], lemmas_len = ask[3], lent_len = ask[4];
        if (file_len > MOST || lemmas_len > MOST || lent_len > MOST) return 1;
        if (!take(file, file_len) || !take(lemmas, lemmas_len) || !take(space + AROUND, lent_len)) return 1;
        for (size_t i = 0; i < AROUND; i++) space[i] = space[AROUND + lent_len + i] = guard(i);
        uint64_t report[7];
        for (size_t i = 0; i < 7; i++) report[i] = UINT64_MAX;
        uint32_t answer[2];
        answer[0] = ask[0] < 4 ? call(ask[0], ask[1], file_len, lent_len, report)
                               : circuit_call(ask[0], ask[1], file_len, lemmas_len, lent_len, report);
        answer[1] = guarded(lent_len);
        if (!give(answer, sizeof answer) || !give(report, sizeof report) || !give(space + AROUND, lent_len)) return 1;
    }
    return 0;
}
