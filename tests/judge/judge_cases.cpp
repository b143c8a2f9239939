// Judges logs through the calls that C and C++ have.
//
//     judge_cases < CASES             an answer a line
//     judge_cases bench TIMES < CASE  nanoseconds to judge the first case
//
// A case is an entry's payload words, the log's length and the list's, four bytes
// each, lowest first, and then the bytes of both. With one payload word both
// calls are made, and have to agree.

#include "../../include/bomqelir.h"

#include <chrono>
#include <cstdio>
#include <cstdlib>
#include <cstring>
#include <vector>

namespace {

enum class Reading { Case, End, CutShort };

struct Case {
    uint32_t words;
    std::vector<uint8_t> log, list;
};

// Each of the two has its own memory of just its length, so that a read past
// the end is one that a checker of memory sees. An empty one has a null pointer.
uint64_t judge(const Case &c) {
    return bomqelir_judge_words(c.words, c.log.data(), c.log.size(), c.list.data(), c.list.size());
}

// By the call that has one payload word and no other.
bool agrees(const Case &c, uint64_t answer) {
    return c.words != 1 || bomqelir_judge(c.log.data(), c.log.size(), c.list.data(), c.list.size()) == answer;
}

uint32_t value(const uint8_t *word) {
    return uint32_t(word[0]) | uint32_t(word[1]) << 8 | uint32_t(word[2]) << 16 | uint32_t(word[3]) << 24;
}

bool fill(std::vector<uint8_t> &bytes, size_t count) {
    std::vector<uint8_t>(count).swap(bytes);
    return count == 0 || std::fread(bytes.data(), 1, count, stdin) == count;
}

Reading read(Case &c) {
    uint8_t head[12];
    size_t got = std::fread(head, 1, sizeof head, stdin);
    if (got == 0) return std::ferror(stdin) ? Reading::CutShort : Reading::End;
    if (got < sizeof head || !fill(c.log, value(head + 4)) || !fill(c.list, value(head + 8))) {
        return Reading::CutShort;
    }
    c.words = value(head);
    return Reading::Case;
}

int cut_short() {
    std::fprintf(stderr, "judge_cases: a case is cut short\n");
    return 1;
}

int judge_all() {
    Case c;
    for (;;) {
        switch (read(c)) {
            case Reading::Case: {
                const uint64_t answer = judge(c);
                if (!agrees(c, answer)) {
                    std::fflush(stdout);
                    std::fprintf(stderr, "judge_cases: one case, and the two calls differ\n");
                    return 1;
                }
                std::printf("%llu\n", static_cast<unsigned long long>(answer));
                break;
            }
            case Reading::End:
                return std::fflush(stdout) == 0 ? 0 : 1;
            case Reading::CutShort:
                std::fflush(stdout);
                return cut_short();
        }
    }
}

int bench(long times) {
    Case c;
    if (read(c) != Reading::Case) return cut_short();
    // The library is linked as it stands, so no call can be left out; the
    // answers are compared all the same.
    const uint64_t first = judge(c);
    bool same = true;
    const auto begin = std::chrono::steady_clock::now();
    for (long i = 0; i < times; ++i) same &= judge(c) == first;
    const auto end = std::chrono::steady_clock::now();
    if (!same) {
        std::fprintf(stderr, "judge_cases: one case, two answers\n");
        return 1;
    }
    const auto spent = std::chrono::duration_cast<std::chrono::nanoseconds>(end - begin).count();
    std::printf("%lld\n", static_cast<long long>(spent / times));
    return 0;
}

}  // namespace

int main(int count, char **words) {
    if (count == 1) return judge_all();
    if (count == 3 && std::strcmp(words[1], "bench") == 0 && std::atol(words[2]) > 0) {
        return bench(std::atol(words[2]));
    }
    std::fprintf(stderr, "usage: judge_cases [bench TIMES]\n");
    return 64;
}
