/* Document 01's example as a list of calls: load, run of 10 cycles (which ends in the middle of the third instruction), a view that is
 * refused there, run to the end, view; and what the list left. */
#include "r8.h"
#include <inttypes.h>
#include <stdio.h>

static const char listing[] = "0000 7105\n0001 8100\n0002 6105\n0003 B006\n";

static void show(const uint64_t *a) {
    switch (a[0]) {
    case R8_DONE: printf("reset\n"); break;
    case R8_STORED: printf("stored %" PRIu64 "\n", a[1]); break;
    case R8_RAN: printf("cycles %" PRIu64 " instructions %" PRIu64 " end %c\n", a[1], a[2], (char)a[3]); break;
    case R8_VIEWED: printf("R1 %04" PRIX64 " PC %04" PRIX64 " clock %" PRIu64 "\n", a[2], a[17], a[22]); break;
    case R8_LEFT: printf("left: stop state %" PRIu64 ", cycles spent %" PRIu64 ", clock %" PRIu64 "\n", a[20], a[21], a[22]); break;
    case R8_REFUSED: printf("refused %" PRIu64 "\n", a[1]); break;
    case R8_REFUSED_AT: printf("refused %" PRIu64 " at %" PRIu64 "\n", a[1], a[2]); break;
    }
}

int main(void) {
    const uint64_t calls[] = {R8_LOAD, 0, sizeof listing - 1, R8_RUN, 10, 0, R8_VIEW, 0, 0, R8_RUN, 100, 0, R8_VIEW, 0, 0};
    enum { count = sizeof calls / sizeof *calls / R8_CALL };
    static uint16_t memory[256];
    uint64_t answers[(count + 1) * R8_ANSWER], at;
    uint32_t code = r8_replay(calls, count * R8_CALL, (const uint8_t *)listing, sizeof listing - 1, memory, 256, answers,
                              (count + 1) * R8_ANSWER, &at);
    if (code != R8_OK) {
        printf("not played: %" PRIu32 " at %" PRIu64 "\n", code, at);
        return 1;
    }
    for (size_t i = 0; i <= count; i++) show(answers + i * R8_ANSWER);
    return 0;
}
