/* The accident: A begins to remove lock 7 and stalls, B removes it, C locks 9, A wakes.
 * Prints the answers and the tallies, and returns 1 if C's lock was lost. */
#include <stdio.h>

#include "slotlock.h"

enum { A = 0, B = 1, C = 2, SEVEN = 0, NINE = 1, MOST = 64 };

typedef struct {
    uint32_t words[MOST];
    size_t count;
} schedule;

static void give(schedule *s, uint32_t word) {
    if (s->count < MOST)
        s->words[s->count++] = word;
}

static void steps(schedule *s, uint32_t session, size_t n) {
    while (n-- > 0)
        give(s, slotlock_step(session));
}

int main(void) {
    const uint32_t items[] = {7, 9};
    slotlock_answer answers[MOST];
    schedule s = {{0}, 0};

    give(&s, slotlock_insert(A, SEVEN));
    steps(&s, A, 2); /* 7 is locked */
    give(&s, slotlock_delete(A, SEVEN));
    steps(&s, A, 6); /* A has found 7 and stalls before it marks the cell */
    give(&s, slotlock_delete(B, SEVEN));
    steps(&s, B, 8); /* B removes 7 */
    give(&s, slotlock_insert(C, NINE));
    steps(&s, C, 2); /* C locks 9 */
    steps(&s, A, 6); /* A wakes, and answers no */
    size_t shown = s.count;
    give(&s, slotlock_contains(B, NINE)); /* is C's lock there? */
    steps(&s, B, 6);

    slotlock_report report = slotlock_numbers(SLOTLOCK_HAZARD, 3, 2, items, 2, s.words, shown, answers, MOST);
    if (report.error != SLOTLOCK_DONE) {
        printf("refused %u\n", (unsigned)report.error);
        return 1;
    }
    for (size_t i = 0; i < report.words; i++)
        printf("%c %u\n", answers[i].letter, (unsigned)answers[i].value);
    printf("held %u free %u\n", (unsigned)report.held, (unsigned)report.free);

    report = slotlock_numbers(SLOTLOCK_HAZARD, 3, 2, items, 2, s.words, s.count, answers, MOST);
    if (report.error != SLOTLOCK_DONE || answers[report.words - 1].letter != 'y') {
        fprintf(stderr, "C's lock was lost\n");
        return 1;
    }
    fprintf(stderr, "C keeps its lock\n");
    return 0;
}
