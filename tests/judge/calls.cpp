// Calls the judge from C++, on logs put together by hand from document 02's sentence. Last line: 'N passed, M failed'.
#include "../../include/bomqelir.h"

#include <cstdio>
#include <initializer_list>
#include <vector>

static_assert(BOMQELIR_VERSION == 3, "what is tested here");

namespace {

using Bytes = std::vector<uint8_t>;

int passed = 0;
int failed = 0;

void word(Bytes &to, uint32_t value) {
    for (int shift = 0; shift < 32; shift += 8) {
        to.push_back(static_cast<uint8_t>(value >> shift));
    }
}

struct Log {
    Bytes bytes;
    Log &entry(uint32_t kind, uint32_t worker, uint32_t number, uint32_t payload) {
        for (uint32_t value : {kind, worker, number, payload}) {
            word(bytes, value);
        }
        return *this;
    }
    Log &put(uint32_t number, uint32_t payload) { return entry(1, 0, number, payload); }
    Log &out(uint32_t worker, uint32_t number, uint32_t payload) { return entry(2, worker, number, payload); }
    Log &empty(uint32_t worker) { return entry(3, worker, 0, 0); }
    Log &full(uint32_t number, uint32_t payload) { return entry(4, 0, number, payload); }
    Log &grown() { return entry(5, 0, 0, 0); }
};

using Payload = std::vector<uint32_t>;

// Entries with any count of payload words.
struct Wide {
    Bytes bytes;
    Wide &entry(uint32_t kind, uint32_t worker, uint32_t number, const Payload &payload) {
        for (uint32_t value : {kind, worker, number}) {
            word(bytes, value);
        }
        for (uint32_t value : payload) {
            word(bytes, value);
        }
        return *this;
    }
    Wide &put(uint32_t number, const Payload &payload) { return entry(1, 0, number, payload); }
    Wide &out(uint32_t worker, uint32_t number, const Payload &payload) { return entry(2, worker, number, payload); }
    Wide &empty(uint32_t worker, uint32_t words) { return entry(3, worker, 0, Payload(words)); }
    Wide &full(uint32_t number, const Payload &payload) { return entry(4, 0, number, payload); }
};

Bytes list(std::initializer_list<uint32_t> numbers) {
    Bytes bytes;
    for (uint32_t number : numbers) {
        word(bytes, number);
    }
    return bytes;
}

uint64_t accepted(uint64_t handouts, uint64_t repeats) { return (UINT64_C(1) << 32) + 65536 * handouts + repeats; }

void expect(const char *what, uint64_t got, uint64_t answer) {
    if (got == answer) {
        ++passed;
    } else {
        ++failed;
        std::printf("FAILED: %s: %llu, expected %llu\n", what, static_cast<unsigned long long>(got),
                    static_cast<unsigned long long>(answer));
    }
}

// By the call for any count of payload words.
void expect(const char *what, uint32_t words, const Bytes &log, const Bytes &stored, uint64_t answer) {
    expect(what, bomqelir_judge_words(words, log.data(), log.size(), stored.data(), stored.size()), answer);
}

// With one payload word, by both calls.
void expect(const char *what, const Bytes &log, const Bytes &stored, uint64_t answer) {
    expect(what, bomqelir_judge(log.data(), log.size(), stored.data(), stored.size()), answer);
    expect(what, 1, log, stored, answer);
}

Bytes cut(Bytes bytes, size_t length) {
    bytes.resize(length);
    return bytes;
}

// Wider tasks: each payload word is a part of the task.
void wider(uint32_t words) {
    Payload payload;
    for (uint32_t k = 0; k < words; ++k) {
        payload.push_back(100 + k);
    }
    const Bytes put = Wide().put(1, payload).bytes;
    const Bytes out = Wide().put(1, payload).out(3, 1, payload).bytes;
    expect("a wide put handed out", words, out, {}, accepted(1, 0));
    expect("a wide put that is nowhere", words, put, {}, BOMQELIR_NO);
    expect("a wide put that is stored", words, put, list({1}), accepted(0, 0));
    expect("twice, with FULL and EMPTY between", words,
           Wide().put(1, payload).full(5, payload).out(3, 1, payload).empty(2, words).out(0, 1, payload).bytes, {}, accepted(2, 1));
    expect("a FULL number that falls", words, Wide().put(5, payload).full(5, payload).bytes, list({5}), BOMQELIR_NO);
    expect("a commit between two puts", words, Wide().put(1, payload).entry(5, 0, 0, Payload(words)).put(2, payload).bytes, list({1, 2}),
           accepted(0, 0));
    expect("a commit with odd words", words, Wide().entry(5, 9, 9, payload).bytes, {}, accepted(0, 0));
    expect("kind 6", words, Wide().entry(6, 0, 0, payload).bytes, {}, BOMQELIR_NO);
    expect("EMPTY with odd words", words, Wide().entry(3, 9, 9, payload).bytes, {}, accepted(0, 0));
    for (uint32_t k = 0; k < words; ++k) {
        Payload torn = payload;
        torn[k] = 7;
        expect("one payload word that nobody put", words, Wide().put(1, payload).out(3, 1, torn).bytes, list({1}), BOMQELIR_NO);
        expect("words of two puts", words, Wide().put(1, payload).put(2, torn).out(3, 2, payload).bytes, list({1, 2}), BOMQELIR_NO);
        expect("the words of each", words, Wide().put(1, payload).put(2, torn).out(3, 2, torn).bytes, list({1}), accepted(1, 0));
    }
    expect("a word too few", words, cut(out, out.size() - 4), {}, BOMQELIR_BAD_LENGTH);
    expect("a byte too few", words, cut(out, out.size() - 1), {}, BOMQELIR_BAD_LENGTH);
    expect("a word too many", words, cut(out, out.size() + 4), {}, BOMQELIR_BAD_LENGTH);
    expect("a list of 3 bytes", words, out, Bytes(3), BOMQELIR_BAD_LENGTH);
    expect("a log too long", words, Bytes(65540), Bytes(3), BOMQELIR_TOO_LONG);
    expect("a list too long", words, cut(out, 1), Bytes(65537), BOMQELIR_TOO_LONG);

    // As many entries as 65,536 bytes hold, in pairs of a put and its hand-out.
    const uint32_t pairs = 65536 / (8 * (words + 3));
    Wide many;
    for (uint32_t n = 1; n <= pairs; ++n) {
        payload[words - 1] = n;
        many.put(n, payload).out(n % 8, n, payload);
    }
    expect("the largest wide log", words, many.bytes, Bytes(65536), accepted(pairs, 0));
    many.bytes.back() ^= 1;
    expect("its last byte damaged", words, many.bytes, Bytes(65536), BOMQELIR_NO);
}

// The largest log: 2,048 puts, each handed out.
Bytes largest(uint32_t last_payload) {
    Log log;
    for (uint32_t n = 1; n <= 2048; ++n) {
        log.put(n, n ^ 0x5a5a5a5au).out(n % 8, n, n == 2048 ? last_payload : n ^ 0x5a5a5a5au);
    }
    return log.bytes;
}

} // namespace

int main() {
    expect("an empty log", {}, {}, accepted(0, 0));
    expect("a put that is stored", Log().put(1, 65).bytes, list({1}), accepted(0, 0));
    expect("a put that is nowhere", Log().put(1, 65).bytes, {}, BOMQELIR_NO);
    expect("a put handed out", Log().put(1, 65).out(3, 1, 65).bytes, {}, accepted(1, 0));
    expect("a put handed out three times", Log().put(7, 65).out(0, 7, 65).empty(1).out(1, 7, 65).out(2, 7, 65).bytes, {},
           accepted(3, 2));
    expect("a list in any order, with repeats and unknown numbers", Log().put(1, 5).put(300, 6).put(70000, 7).bytes,
           list({70000, 9, 1, 300, 1}), accepted(0, 0));
    expect("a first number 0", Log().put(0, 1).out(1, 0, 1).bytes, {}, accepted(1, 0));
    expect("a FULL put needs no place", Log().put(1, 65).full(2, 66).bytes, list({1}), accepted(0, 0));
    expect("a FULL put handed out", Log().full(2, 66).out(1, 2, 66).bytes, {}, BOMQELIR_NO);
    expect("another payload", Log().put(1, 65).out(1, 1, 66).bytes, list({1}), BOMQELIR_NO);
    expect("a hand-out before its put", Log().out(1, 1, 65).put(1, 65).bytes, list({1}), BOMQELIR_NO);
    expect("two puts with one number", Log().put(2, 65).full(2, 65).bytes, list({2}), BOMQELIR_NO);
    expect("a number that falls", Log().full(3, 65).put(2, 65).bytes, list({2}), BOMQELIR_NO);
    expect("kind 0", Log().entry(0, 0, 0, 0).bytes, {}, BOMQELIR_NO);
    expect("a commit", Log().grown().bytes, {}, accepted(0, 0));
    expect("a commit between two puts", Log().put(1, 65).grown().put(2, 66).out(3, 2, 66).bytes, list({1}), accepted(1, 0));
    expect("a commit with a number that falls", Log().put(7, 65).entry(5, 0, 7, 0).put(8, 66).bytes, list({7, 8}), accepted(0, 0));
    expect("a commit with a number above the next put's", Log().put(7, 65).entry(5, 0, 9, 0).put(8, 66).bytes, list({7, 8}),
           accepted(0, 0));
    expect("two puts with one number, a commit between", Log().put(2, 65).grown().put(2, 65).bytes, list({2}), BOMQELIR_NO);
    expect("a commit's task handed out", Log().entry(5, 0, 1, 65).out(3, 1, 65).bytes, list({1}), BOMQELIR_NO);
    expect("a commit hands nothing out", Log().put(1, 65).entry(5, 0, 1, 65).bytes, {}, BOMQELIR_NO);
    expect("a commit with odd words", Log().entry(5, 9, 9, 9).bytes, {}, accepted(0, 0));
    expect("kind 6", Log().entry(6, 0, 0, 0).bytes, {}, BOMQELIR_NO);
    expect("kind 256, the second byte of a word", Log().entry(256, 0, 0, 0).bytes, {}, BOMQELIR_NO);
    expect("EMPTY with odd words", Log().entry(3, 9, 9, 9).bytes, {}, accepted(0, 0));
    expect("a log of 15 bytes", cut(Log().put(1, 65).bytes, 15), {}, BOMQELIR_BAD_LENGTH);
    expect("a list of 3 bytes", {}, cut(list({1}), 3), BOMQELIR_BAD_LENGTH);
    expect("a log of 65,552 bytes", Bytes(65552), {}, BOMQELIR_TOO_LONG);
    expect("a list of 65,540 bytes", {}, Bytes(65540), BOMQELIR_TOO_LONG);
    expect("both refusals", Bytes(65537), Bytes(3), BOMQELIR_TOO_LONG);
    expect("the largest log", largest(2048 ^ 0x5a5a5a5au), Bytes(65536), accepted(2048, 0));
    expect("the largest log with its last word damaged", largest(0), Bytes(65536), BOMQELIR_NO);

    Log all;
    all.put(1, 65);
    for (int n = 1; n < 4096; ++n) {
        all.out(1, 1, 65);
    }
    expect("one put handed out 4,095 times", all.bytes, {}, accepted(4095, 4094));

    for (uint32_t words = 1; words <= 4; ++words) {
        wider(words);
        expect("null and null, by words", bomqelir_judge_words(words, nullptr, 0, nullptr, 0), accepted(0, 0));
    }
    // 20 words are five entries of four; as four of five their kinds are 1, 9, 0 and 0.
    const Bytes twenty = Log().put(1, 5).put(9, 9).out(0, 1, 5).out(0, 9, 9).empty(0).bytes;
    expect("20 words as entries of four", 1, twenty, {}, accepted(2, 0));
    expect("20 words as entries of five", 2, twenty, {}, BOMQELIR_NO);
    expect("20 words as entries of six", 3, twenty, {}, BOMQELIR_BAD_LENGTH);
    // No payload words: 16 before 15 before 14.
    for (uint32_t words : {0u, 5u, 16u, 0x3ffffffeu, 0xfffffffdu, 0xffffffffu}) {
        expect("no such payload words", words, {}, {}, BOMQELIR_PAYLOAD_WORDS);
        expect("no such payload words, too long", words, Bytes(65537), Bytes(3), BOMQELIR_PAYLOAD_WORDS);
        expect("no such payload words, a byte", words, Bytes(1), {}, BOMQELIR_PAYLOAD_WORDS);
        expect("no such payload words, null", bomqelir_judge_words(words, nullptr, 0, nullptr, 0), BOMQELIR_PAYLOAD_WORDS);
    }

    // A null pointer where the length is 0, in each place and with each sort of answer.
    const Bytes handed_out = Log().put(1, 65).out(3, 1, 65).bytes;
    const Bytes stored = list({1});
    const Bytes nowhere = Log().put(1, 65).bytes;
    const Bytes too_long(65552);
    expect("null and null", bomqelir_judge(nullptr, 0, nullptr, 0), accepted(0, 0));
    expect("a null log with a list", bomqelir_judge(nullptr, 0, stored.data(), stored.size()), accepted(0, 0));
    expect("a null log with a list of 3 bytes", bomqelir_judge(nullptr, 0, stored.data(), 3), BOMQELIR_BAD_LENGTH);
    expect("a null log with too long a list", bomqelir_judge(nullptr, 0, too_long.data(), too_long.size()), BOMQELIR_TOO_LONG);
    expect("a log with a null list", bomqelir_judge(handed_out.data(), handed_out.size(), nullptr, 0), accepted(1, 0));
    expect("a log with a null list, its put nowhere", bomqelir_judge(nowhere.data(), nowhere.size(), nullptr, 0), BOMQELIR_NO);
    expect("a log of 15 bytes with a null list", bomqelir_judge(nowhere.data(), 15, nullptr, 0), BOMQELIR_BAD_LENGTH);
    expect("too long a log with a null list", bomqelir_judge(too_long.data(), too_long.size(), nullptr, 0), BOMQELIR_TOO_LONG);

    // What is read off an answer: 0 and 0 unless it accepts.
    const uint64_t answer = bomqelir_judge(all.bytes.data(), all.bytes.size(), nullptr, 0);
    expect("accepted", bomqelir_accepted(answer) != 0, true);
    expect("hand-outs", bomqelir_handouts(answer), 4095);
    expect("repeats", bomqelir_repeats(answer), 4094);
    for (uint64_t other : {BOMQELIR_NO, BOMQELIR_BAD_LENGTH, BOMQELIR_TOO_LONG, BOMQELIR_PAYLOAD_WORDS}) {
        expect("not accepted", bomqelir_accepted(other) != 0, false);
        expect("no hand-outs", bomqelir_handouts(other), 0);
        expect("no repeats", bomqelir_repeats(other), 0);
    }

    std::printf("%d passed, %d failed\n", passed, failed);
    return failed != 0;
}
