/* Prints one minimal safe inductive subset of the problem file on standard input: a digit for each candidate lemma, 1 for in and 0 for out, or
 * 'refused NUMBER at PLACE'. It ends with 0 for an answer, 1 for a refusal, 2 if it can't read or write; and it stands on nothing but read and
 * write. */
#include "trim.h"

long read(int descriptor, void *bytes, size_t count);
long write(int descriptor, const void *bytes, size_t count);

enum { FILE_LIMIT = 65536, LEMMA_LIMIT = 128 };
static const uint32_t budget = 10000000;

/* One byte more than a file may have: what has more is refused by its length, and need not be read to its end. */
static uint8_t file[FILE_LIMIT + 1];

/* Reads the file; 0 if that fails. */
static int take(size_t *length) {
    *length = 0;
    while (*length < sizeof file) {
        long got = read(0, file + *length, sizeof file - *length);
        if (got < 0) return 0;
        if (got == 0) return 1;
        *length += (size_t)got;
    }
    return 1;
}

/* Writes text; 0 if that fails. */
static int give(const char *text, size_t count) {
    while (count > 0) {
        long put = write(1, text, count);
        if (put <= 0) return 0;
        text += put;
        count -= (size_t)put;
    }
    return 1;
}

static int give_number(uint64_t number) {
    char digits[20];
    size_t start = sizeof digits;
    do {
        digits[--start] = (char)('0' + number % 10);
        number /= 10;
    } while (number > 0);
    return give(digits + start, sizeof digits - start);
}

static int refused(const uint64_t report[7]) {
    int said = give("refused ", 8) && give_number(report[0]) && give(" at ", 4) && give_number(report[1]) && give("\n", 1);
    return said ? 1 : 2;
}

static int answered(const uint8_t *marks, size_t k) {
    char line[LEMMA_LIMIT + 1];
    for (size_t p = 0; p < k; p++) line[p] = (char)('0' + marks[p]);
    line[k] = '\n';
    return give(line, k + 1) ? 0 : 2;
}

int main(void) {
    size_t length;
    if (!take(&length)) return 2;
    uint64_t report[7];
    if (trim_check(file, length, report) != 0) return refused(report);
    size_t k = (size_t)report[6];
    uint8_t marks[LEMMA_LIMIT];
    if (trim_one(file, length, budget, marks, k, report) != 0) return refused(report);
    return answered(marks, k);
}
