/* The proved judge of a matcher's log, for C (from C99 on) and C++ (from C++11
 * on).
 *
 * Link target/staticlib/libjudge.a, which `tools/libjudge` proves and
 * builds. It needs memset and about 48 KiB of stack, allocates nothing, keeps
 * nothing between calls, and may be called from several threads at once.
 */
#ifndef BOMQELIR_H
#define BOMQELIR_H

#include <stddef.h>
#include <stdint.h>

/* Rises by one with every change to what this header declares or promises, so
 * that a caller can ask for what it needs: #if BOMQELIR_VERSION < 3 ...
 *
 *     2  bomqelir_judge_words, for 1 to 4 payload words
 *     3  entries of kind 5 are passed over; before, a log with one was not
 *        accepted */
#define BOMQELIR_VERSION 3

/* What the judge answers for a log that it can't judge, and for one that it does
 * not accept. 16 comes before 15 and 15 before 14: what is too long is answered
 * 15, whole entries or not. */
#define BOMQELIR_NO UINT64_C(0)
#define BOMQELIR_BAD_LENGTH UINT64_C(14)    /* not whole entries (4 * (words + 3) bytes), or not whole numbers (4 bytes) */
#define BOMQELIR_TOO_LONG UINT64_C(15)      /* either of them over 65,536 bytes */
#define BOMQELIR_PAYLOAD_WORDS UINT64_C(16) /* payload words not 1 to 4 */

/* Judges the log's bytes: entries of words + 3 words (kind, worker, put number,
 * and as many payload words as `words` says, 1 to 4), each word four bytes,
 * lowest first; with the put numbers that are said to be stored still, four
 * bytes each in the same order.
 *
 * Accepts exactly when kinds are 1 to 5, the numbers of kinds 1 (put finished)
 * and 4 (FULL) together strictly rise, each hand-out (kind 2) repeats number
 * and all payload words of an earlier finished put, and each finished put is
 * handed out or listed. Of EMPTY (kind 3) and of a commit, which grew the array
 * (kind 5), the other words are not looked at. Answers BOMQELIR_NO for a log
 * that is not accepted, and else
 *
 *     2^32 + 65,536 * hand-outs + repeats
 *
 * where repeats are the hand-outs less the different put numbers among them.
 * The bytes are only read. Where a length is 0 nothing is read, and its pointer
 * may be null, as data() of an empty std::vector may be.
 */
#ifdef __cplusplus
extern "C"
#endif
uint64_t bomqelir_judge_words(uint32_t words, const uint8_t *log, size_t log_bytes, const uint8_t *stored, size_t stored_bytes);

/* The same with one payload word: entries of 16 bytes. */
#ifdef __cplusplus
extern "C"
#endif
uint64_t bomqelir_judge(const uint8_t *log, size_t log_bytes, const uint8_t *stored, size_t stored_bytes);

/* Whether the log is accepted, and the two counts: both 0 if it is not. */
static inline int bomqelir_accepted(uint64_t answer) { return (answer >> 32) != 0; }
static inline uint32_t bomqelir_handouts(uint64_t answer) {
    return bomqelir_accepted(answer) ? (answer >> 16) & 0xffffu : 0u;
}
static inline uint32_t bomqelir_repeats(uint64_t answer) {
    return bomqelir_accepted(answer) ? answer & 0xffffu : 0u;
}

#endif
