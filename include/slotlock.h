/* The slot-lock board for C.
 *
 * Each call opens a board over a new reclaimer, runs words on it, writes one record for each word and reports.
 * No board is kept between calls: to look at a longer run, give all its words again.
 *
 * Errors (slotlock_report.error). With any of them no record is changed, and held, free and words are 0.
 *
 *    0  done
 *    1  there is no such scheme
 *    2  there was not enough memory
 *    3  sessions are not 1 to 8, cells not 1 to 256, or there are more than 1024 items
 *    4  a byte string has more than 11 bytes
 *   10  there are fewer records than words
 *   11  the lengths do not add up to the number of bytes
 *   12  a pointer is NULL and its length is not 0
 *
 * Bytes are checked first, string by string (11 before 4), then 1, 10, 3 and 2; 2 can also come from the bytes.
 * A word that is refused is no error: its record has the letter r and as its value
 *
 *    5  no such kind of word          8  no such item
 *    6  a bit that must be zero is set   21  a begin word for a session in an operation
 *    7  no such session              22  a step word for a session in no operation
 *   23  there is no cell for an insert or a push
 *
 * Link libslotlock_c.a and after it librattle_c.a, the part of the toolchain that calls malloc and free; scripts/library makes both.
 * Make no call from a signal handler or in the forked child of a process with threads. malloc has to align a block to each
 * power of two up to 16 that divides its size, as the C library's does.
 */
#ifndef SLOTLOCK_H
#define SLOTLOCK_H

#include <stddef.h>
#include <stdint.h>

#ifdef __cplusplus
extern "C" {
#endif

/* The schemes by which cells are used again. */
#define SLOTLOCK_HAZARD 0
#define SLOTLOCK_EPOCH 1
#define SLOTLOCK_QUIESCENT 2

#define SLOTLOCK_DONE 0
#define SLOTLOCK_NO_SCHEME 1
#define SLOTLOCK_NO_MEMORY 2
#define SLOTLOCK_SIZES 3
#define SLOTLOCK_TOO_LONG 4
#define SLOTLOCK_SHORT_ANSWERS 10
#define SLOTLOCK_LENGTHS 11
#define SLOTLOCK_NULL 12

/* The answer to a word: w under way, y yes, n no, t tidied, r refused. */
typedef struct {
    uint8_t letter;
    uint16_t value;
} slotlock_answer;

/* The held and the free cells at the end, and how many words were done. */
typedef struct {
    uint16_t error;
    uint16_t held;
    uint16_t free;
    uint64_t words;
} slotlock_report;

/* The proved functions. A pointer has to be valid for its length even where that is 0: call the functions below. */
slotlock_report slotlock_play_numbers(uint8_t scheme, uint8_t sessions, uint16_t cells, const uint32_t *items, size_t items_len,
                                      const uint32_t *words, size_t words_len, slotlock_answer *answers, size_t answers_len);

slotlock_report slotlock_play_bytes(uint8_t scheme, uint8_t sessions, uint16_t cells, const uint8_t *bytes, size_t bytes_len,
                                    const uint8_t *lengths, size_t lengths_len, const uint32_t *words, size_t words_len,
                                    slotlock_answer *answers, size_t answers_len);

static inline int slotlock_is_null_(const void *at, size_t len) { return at == NULL && len != 0; }

static inline slotlock_report slotlock_null_(void) {
    slotlock_report refused = {SLOTLOCK_NULL, 0, 0, 0};
    return refused;
}

/* An empty list may be given as NULL: the proved functions get a pointer to something in its place. */
static inline const uint32_t *slotlock_words_at_(const uint32_t *at) {
    static const uint32_t nothing = 0;
    return at == NULL ? &nothing : at;
}

static inline const uint8_t *slotlock_bytes_at_(const uint8_t *at) {
    static const uint8_t nothing = 0;
    return at == NULL ? &nothing : at;
}

/* Runs the words on a new board for these numbers. The records may not overlap the items or the words. */
static inline slotlock_report slotlock_numbers(uint8_t scheme, uint8_t sessions, uint16_t cells, const uint32_t *items, size_t items_len,
                                               const uint32_t *words, size_t words_len, slotlock_answer *answers, size_t answers_len) {
    slotlock_answer none = {0, 0};
    if (slotlock_is_null_(items, items_len) || slotlock_is_null_(words, words_len) || slotlock_is_null_(answers, answers_len))
        return slotlock_null_();
    return slotlock_play_numbers(scheme, sessions, cells, slotlock_words_at_(items), items_len, slotlock_words_at_(words), words_len,
                                 answers == NULL ? &none : answers, answers_len);
}

/* Runs the words on a new board for byte strings: lengths[i] bytes each, one after another in bytes. */
static inline slotlock_report slotlock_bytes(uint8_t scheme, uint8_t sessions, uint16_t cells, const uint8_t *bytes, size_t bytes_len,
                                             const uint8_t *lengths, size_t lengths_len, const uint32_t *words, size_t words_len,
                                             slotlock_answer *answers, size_t answers_len) {
    slotlock_answer none = {0, 0};
    if (slotlock_is_null_(bytes, bytes_len) || slotlock_is_null_(lengths, lengths_len) || slotlock_is_null_(words, words_len) ||
        slotlock_is_null_(answers, answers_len))
        return slotlock_null_();
    return slotlock_play_bytes(scheme, sessions, cells, slotlock_bytes_at_(bytes), bytes_len, slotlock_bytes_at_(lengths), lengths_len,
                               slotlock_words_at_(words), words_len, answers == NULL ? &none : answers, answers_len);
}

/* Words, by session and place. */
static inline uint32_t slotlock_step(uint32_t session) { return session << 24; }
static inline uint32_t slotlock_insert(uint32_t session, uint32_t place) { return 1u << 29 | session << 24 | place; }
static inline uint32_t slotlock_delete(uint32_t session, uint32_t place) { return 2u << 29 | session << 24 | place; }
static inline uint32_t slotlock_contains(uint32_t session, uint32_t place) { return 3u << 29 | session << 24 | place; }
static inline uint32_t slotlock_push(uint32_t session, uint32_t place) { return 4u << 29 | session << 24 | place; }
static inline uint32_t slotlock_pop(uint32_t session) { return 5u << 29 | session << 24; }
static inline uint32_t slotlock_tidy(void) { return 6u << 29; }

#ifdef __cplusplus
}
#endif

#endif
