/* Calls the judge from C99, by both calls, with a null pointer where a length is 0. Last line: 'N passed, M failed'. */
#include "../../include/bomqelir.h"

#include <stdio.h>

static int passed = 0;
static int failed = 0;

static void expect(const char *what, uint64_t got, uint64_t answer) {
    if (got == answer) {
        ++passed;
    } else {
        ++failed;
        printf("FAILED: %s: %llu, expected %llu\n", what, (unsigned long long)got, (unsigned long long)answer);
    }
}

int main(void) {
    /* Put 1 with payload 65 finished, and handed out to worker 3. */
    const uint8_t log[32] = {1, 0, 0, 0, 0, 0, 0, 0, 1, 0, 0, 0, 65, 0, 0, 0, 2, 0, 0, 0, 3, 0, 0, 0, 1, 0, 0, 0, 65, 0, 0, 0};
    /* The same with payload 65, 66. */
    const uint8_t wide[40] = {1, 0, 0, 0, 0, 0, 0, 0, 1, 0, 0, 0, 65, 0, 0, 0, 66, 0, 0, 0,
                              2, 0, 0, 0, 3, 0, 0, 0, 1, 0, 0, 0, 65, 0, 0, 0, 66, 0, 0, 0};
    const uint8_t stored[4] = {1, 0, 0, 0};
    uint32_t words;
    uint64_t answer;

    expect("null and null", bomqelir_judge(NULL, 0, NULL, 0), UINT64_C(4294967296));
    expect("a null log", bomqelir_judge(NULL, 0, stored, sizeof stored), UINT64_C(4294967296));
    expect("a null list", bomqelir_judge(log, sizeof log, NULL, 0), UINT64_C(4295032832));
    expect("a null list, the put nowhere", bomqelir_judge(log, 16, NULL, 0), BOMQELIR_NO);
    expect("a list", bomqelir_judge(log, 16, stored, sizeof stored), UINT64_C(4294967296));
    expect("15 bytes", bomqelir_judge(log, 15, NULL, 0), BOMQELIR_BAD_LENGTH);

    for (words = 1; words <= 4; ++words) {
        expect("null and null, by words", bomqelir_judge_words(words, NULL, 0, NULL, 0), UINT64_C(4294967296));
    }
    expect("no words", bomqelir_judge_words(0, NULL, 0, NULL, 0), BOMQELIR_PAYLOAD_WORDS);
    expect("five words", bomqelir_judge_words(5, NULL, 0, NULL, 0), BOMQELIR_PAYLOAD_WORDS);
    expect("one word", bomqelir_judge_words(1, log, sizeof log, NULL, 0), UINT64_C(4295032832));
    expect("two words", bomqelir_judge_words(2, wide, sizeof wide, NULL, 0), UINT64_C(4295032832));
    expect("two words, the put nowhere", bomqelir_judge_words(2, wide, 20, NULL, 0), BOMQELIR_NO);
    expect("two words, a list", bomqelir_judge_words(2, wide, 20, stored, sizeof stored), UINT64_C(4294967296));
    expect("two words, 16 bytes", bomqelir_judge_words(2, wide, 16, stored, sizeof stored), BOMQELIR_BAD_LENGTH);

    answer = bomqelir_judge(log, sizeof log, NULL, 0);
    expect("accepted", bomqelir_accepted(answer) != 0, 1);
    expect("hand-outs", bomqelir_handouts(answer), 1);
    expect("repeats", bomqelir_repeats(answer), 0);

    printf("%d passed, %d failed\n", passed, failed);
    return failed != 0;
}
