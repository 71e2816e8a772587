/* include/r8.h against the library: each function, each constant and each code, with what document 01 says comes out. The functions are called
 * by named.h, which tests/library/header makes of the header: NAMED_r8_form is r8_form(word, form, form_count), with the parameters by the
 * header's names in its order. So what stands at a name here must be what the library takes at that place. */
#include "r8.h"
#include "named.h"
#include <stdio.h>
#include <string.h>

static int failed;
static void check(int holds, int line, const char *what) {
    if (!holds && failed++ < 20) printf("tests/library/header.c:%d: %s\n", line, what);
}
#define CHECK(fact) check((fact) ? 1 : 0, __LINE__, #fact)

/* the types, once more */
static uint32_t (*const replay_type)(const uint64_t *, size_t, const uint8_t *, size_t, uint16_t *, size_t, uint64_t *, size_t, uint64_t *) =
    r8_replay;
static uint32_t (*const trace_type)(const uint8_t *, size_t, uint64_t *, size_t, uint64_t *, size_t) = r8_trace;
static uint32_t (*const form_type)(uint16_t, uint16_t *, size_t) = r8_form;
static uint32_t (*const listing_type)(const uint16_t *, size_t, size_t, size_t, uint8_t *, size_t) = r8_listing;
static uint32_t (*const run_type)(uint16_t *, size_t, uint32_t *, size_t, uint32_t, uint16_t *, size_t, uint64_t *, size_t) = r8_run;
static uint32_t (*const step_type)(uint16_t *, size_t, uint32_t *, size_t, uint16_t *, size_t, uint64_t *, size_t) = r8_step;

/* the arguments, by the header's names; behind each slice there is room, so that a wrong count or pointer does no harm */
enum { ROOM = 70000, MARK = 0x5A5A };
static uint64_t some_calls[ROOM], some_answers[ROOM], some_rows[ROOM], some_answer[ROOM], place[ROOM];
static uint8_t some_text[ROOM];
static uint16_t some_memory[ROOM], some_form[ROOM], some_registers[ROOM];
static uint32_t some_state[ROOM];
static const uint64_t *calls;
static const uint8_t *listing;
static uint8_t *text;
static uint64_t *answers, *rows, *answer, *at = place;
static uint16_t word, *memory, *form, *registers;
static uint32_t *state, b;
static size_t calls_count, text_count, listing_count, memory_count, answers_count, rows_count, answer_count, form_count, registers_count, state_count;
static size_t first, count;

static void mark(uint64_t *slice) {
    for (size_t i = 0; i < ROOM; i++) slice[i] = MARK;
}

/* numbers as expected, then zeros up to 23 */
static int is(const uint64_t *found, uint64_t kind, uint64_t first, uint64_t second, uint64_t third) {
    const uint64_t named[] = {kind, first, second, third};
    for (size_t i = 0; i < 23; i++)
        if (found[i] != (i < 4 ? named[i] : 0)) return 0;
    return 1;
}

static int marked(const uint64_t *slice, size_t from, size_t to) {
    for (size_t i = from; i < to; i++)
        if (slice[i] != MARK) return 0;
    return 1;
}

/* 'LDL: k replaces the low byte of Rt', 'LDSP: SP takes Ra', 'SUBI: Rt minus k', here 7 - 8: N alone; HALT: 18 cycles */
static const char program[] = "0000 7109\n0001 7F07\n0002 B017\n0003 6F08\n0004 B006\n";
/* 'address not above the one before': number 3, its line starts at 10 */
static const char faulty[] = "0000 7105\n0000 8100\n";
enum { PROGRAM = sizeof program - 1, FAULTY = sizeof faulty - 1 };

/* two bytes, the program, the faulty listing; 9 words; the numbers of so many calls; room for their answers and three numbers more */
static void lend_list(const uint64_t *list, size_t numbers) {
    memcpy(some_text, "??", 2);
    memcpy(some_text + 2, program, PROGRAM);
    memcpy(some_text + 2 + PROGRAM, faulty, FAULTY);
    memcpy(some_calls, list, numbers * sizeof *list);
    for (size_t i = 0; i < ROOM; i++) some_memory[i] = MARK;
    mark(some_answers);
    mark(place);
    calls = some_calls, calls_count = numbers;
    text = some_text, text_count = 2 + PROGRAM + FAULTY;
    memory = some_memory, memory_count = 9;
    answers = some_answers, answers_count = (numbers / 3 + 1) * R8_ANSWER + 3;
}

static void replay_plays(void) {
    const uint64_t list[][R8_CALL] = {{R8_LOAD, 2, 2 + PROGRAM}, {R8_RUN, 10, 0}, {R8_VIEW, 0, 0}, {R8_RUN, 100, 0}, {R8_VIEW, 0, 0},
                                      {R8_STEP, 0, 0}, {R8_RESET, 0, 0}, {R8_LOAD, 2 + PROGRAM, 2 + PROGRAM + FAULTY},
                                      {R8_STEP, 0, 0}, {R8_RUN, 1, 0}};
    lend_list(list[0], sizeof list / sizeof **list);
    CHECK(NAMED_r8_replay == R8_OK);
    CHECK(place[0] == 10 && marked(place, 1, ROOM));
    const uint64_t *found = some_answers;
    CHECK(is(found, R8_STORED, 5, 0, 0));
    CHECK(is(found += R8_ANSWER, R8_RAN, 10, 2, 'M'));
    CHECK(is(found += R8_ANSWER, R8_REFUSED, 7, 0, 0));
    CHECK(is(found += R8_ANSWER, R8_RAN, 8, 3, 'H'));
    found += R8_ANSWER;
    CHECK(found[0] == R8_VIEWED);
    for (size_t i = 0; i < 16; i++) CHECK(found[1 + i] == (i == 1 ? 9 : i == 15 ? 0xFFFF : 0));
    CHECK(found[17] == 5 && found[18] == 9 && found[19] == 8); /* PC, SP, NZCV */
    CHECK(found[20] == 1 && found[21] == 1 && found[22] == 18); /* halted, cycle due, clock */
    CHECK(is(found += R8_ANSWER, R8_REFUSED, 8, 0, 0));
    CHECK(is(found += R8_ANSWER, R8_DONE, 0, 0, 0));
    CHECK(is(found += R8_ANSWER, R8_REFUSED_AT, 3, 10, 0));
    CHECK(is(found += R8_ANSWER, R8_RAN, 4, 1, 'B'));
    CHECK(is(found += R8_ANSWER, R8_RAN, 1, 0, 'M'));
    found += R8_ANSWER; /* left in the second instruction, after one cycle of it */
    CHECK(found[0] == R8_LEFT && found[20] == 0 && found[21] == 1 && found[22] == 5);
    for (size_t i = 1; i < 20; i++) CHECK(found[i] == 0);
    CHECK(marked(some_answers, 253, ROOM));
    const uint16_t words[] = {0x7109, 0x7F07, 0xB017, 0x6F08, 0xB006, MARK};
    for (size_t i = 0; i < ROOM; i++) CHECK(some_memory[i] == words[i < 5 ? i : 5]);
}

/* a list that is not played: its code, where, and that nothing else was written */
static void replay_returns(const uint64_t *list, size_t numbers, size_t room, uint32_t code, uint64_t where) {
    lend_list(list, numbers);
    answers_count = room;
    uint32_t returned = NAMED_r8_replay;
    CHECK(returned == code && place[0] == where);
    CHECK(marked(some_answers, 0, ROOM) && marked(place, 1, ROOM) && some_memory[0] == MARK);
}

static void replay_codes(void) {
    const uint64_t end = 2 + PROGRAM + FAULTY;
    replay_returns((const uint64_t[]){R8_LOAD, 2, 2 + PROGRAM, 5, 0, 0}, 6, 100, R8_NO_CALL, 1);
    replay_returns((const uint64_t[]){R8_RESET, 0, 0, R8_VIEW, 0, 0, R8_RUN, 4294967296, 0}, 9, 100, R8_NO_CALL, 2);
    replay_returns((const uint64_t[]){R8_VIEW, 0, 0, R8_VIEW, 0}, 5, 100, R8_NO_CALL, 1);
    replay_returns((const uint64_t[]){R8_LOAD, 3, 2}, 3, 100, R8_NO_STRETCH, 0);
    replay_returns((const uint64_t[]){R8_VIEW, 0, 0, R8_LOAD, 0, end + 1}, 6, 100, R8_NO_STRETCH, 1);
    replay_returns((const uint64_t[]){R8_LOAD, 2, 2 + PROGRAM}, 3, 45, R8_NO_ROOM, 0);
    replay_returns((const uint64_t[]){R8_LOAD, 3, 2}, 3, 0, R8_NO_STRETCH, 0);
    replay_returns((const uint64_t[]){R8_VIEW, 0, 0, 5, 0, 0}, 6, 0, R8_NO_CALL, 1);
}

static void replay_of_nothing(void) {
    const uint64_t list[] = {R8_LOAD, 0, 0, R8_RUN, 1, 0};
    lend_list(list, 6);
    text = NULL, text_count = 0;
    CHECK(NAMED_r8_replay == R8_OK && place[0] == 2 && is(some_answers, R8_STORED, 0, 0, 0));
    memory = NULL, memory_count = 0;
    CHECK(NAMED_r8_replay == R8_OK && is(some_answers, R8_REFUSED, 1, 0, 0) && is(some_answers + 23, R8_REFUSED, 1, 0, 0));
    answers = NULL, answers_count = 0;
    CHECK(NAMED_r8_replay == R8_NO_ROOM && place[0] == 0);
    calls = NULL, calls_count = 0;
    place[0] = MARK;
    CHECK(NAMED_r8_replay == R8_NO_ROOM && place[0] == 0);
    place[0] = MARK;
    answers = some_answers, answers_count = 23;
    CHECK(NAMED_r8_replay == R8_OK && place[0] == 0 && is(some_answers, R8_LEFT, 0, 0, 0));
}

static uint32_t trace_of(const char *bytes, size_t count, size_t row_numbers, size_t answer_numbers) {
    if (bytes != NULL) memcpy(some_text, bytes, count);
    mark(some_rows);
    mark(some_answer);
    listing = bytes == NULL && count == 0 ? NULL : some_text, listing_count = count;
    rows = some_rows, rows_count = row_numbers;
    answer = some_answer, answer_count = answer_numbers;
    return NAMED_r8_trace;
}

static int nothing_traced(void) { return marked(some_rows, 0, ROOM) && marked(some_answer, 0, ROOM); }

static void trace_finds(void) {
    const uint64_t found[][4] = {{0, 0x7109, 4, 0}, {1, 0x7F07, 4, 0}, {2, 0xB017, 4, 0}, {3, 0x6F08, 4, 8}, {4, 0xB006, 2, 8}};
    CHECK(trace_of(program, PROGRAM, 5 * R8_ROW, 25) == R8_OK);
    CHECK(memcmp(some_rows, found, sizeof found) == 0 && marked(some_rows, 20, ROOM));
    CHECK(is(some_answer, R8_RAN, 18, 5, 'H') && marked(some_answer, 23, ROOM));
    CHECK(trace_of(program, PROGRAM, 5 * R8_ROW - 1, 25) == R8_NO_ROOM && nothing_traced());
    CHECK(trace_of(program, PROGRAM, 2000, R8_ANSWER - 1) == R8_NO_ROOM && nothing_traced());
    CHECK(trace_of(faulty, FAULTY, 3, R8_ANSWER) == R8_OK);
    CHECK(is(some_answer, R8_REFUSED_AT, 3, 10, 0) && marked(some_answer, 23, ROOM) && marked(some_rows, 0, ROOM));
    memset(some_text, ' ', ROOM); /* one line of spaces, which is skipped; then 250 times ADD of zeros, which sets Z */
    CHECK(trace_of(NULL, 65536, 1001, 23) == R8_OK && is(some_answer, R8_RAN, 1000, 250, 'B'));
    for (uint64_t i = 0; i < 250; i++) CHECK(memcmp(some_rows + 4 * i, (const uint64_t[]){i, 0, 4, 4}, 32) == 0);
    CHECK(marked(some_rows, 1000, ROOM));
    CHECK(trace_of(NULL, 65537, 2000, 23) == R8_TOO_LONG && nothing_traced());
    CHECK(trace_of(NULL, 65537, 0, 0) == R8_TOO_LONG && nothing_traced());
}

static void trace_of_nothing(void) {
    CHECK(trace_of(NULL, 0, 1001, 24) == R8_OK && is(some_answer, R8_RAN, 1000, 250, 'B'));
    rows = NULL, rows_count = 0;
    CHECK(NAMED_r8_trace == R8_NO_ROOM);
    answer = NULL, answer_count = 0;
    CHECK(NAMED_r8_trace == R8_NO_ROOM);
    CHECK(trace_of(faulty, FAULTY, 7, 23) == R8_OK);
    mark(some_answer);
    rows = NULL, rows_count = 0;
    CHECK(NAMED_r8_trace == R8_OK && is(some_answer, R8_REFUSED_AT, 3, 10, 0));
}

static void form_is(uint16_t of, size_t numbers, uint32_t code, const uint16_t *expected) {
    for (size_t i = 0; i < ROOM; i++) some_form[i] = MARK;
    word = of, form = some_form, form_count = numbers;
    uint32_t returned = NAMED_r8_form;
    CHECK(returned == code);
    for (size_t i = 0; i < ROOM; i++) CHECK(some_form[i] == (code == 0 && i < 7 ? expected[i] : MARK));
}

static void forms(void) {
    form_is(0x0123, R8_FORM, R8_OK, (const uint16_t[]){0, 1, 2, 3, 0, 0, 0});     /* ADD R1, R2, R3 */
    form_is(0x7F07, 9, R8_OK, (const uint16_t[]){7, 15, 0, 0, 7, 0, 0});          /* LDL R15, 07 */
    form_is(0xD3FE, 8, R8_OK, (const uint16_t[]){34, 0, 0, 0, 0, 0xFFFE, 0});     /* JMPD -2 */
    form_is(0xF801, R8_FORM, R8_OK, (const uint16_t[]){39, 0, 0, 0, 0, 0, 0xF801}); /* JSRD -2047 */
    form_is(0xB00B, R8_FORM, R8_UNDEFINED, NULL);
    form_is(0x0123, R8_FORM - 1, R8_NO_ROOM, NULL);
    form_is(0xB00B, R8_FORM - 1, R8_NO_ROOM, NULL);
    form = NULL, form_count = 0;
    CHECK(NAMED_r8_form == R8_NO_ROOM);
}

/* 'address, space, word, LF, ten bytes each, capitals': so many words lent, the first ten of them as here; then the stretch, the text's bytes, the
 * code, and the lines: what is past them stays, and so does the memory */
static void listing_is(size_t words, size_t from, size_t stretch, size_t bytes, uint32_t code, const char *lines) {
    static const uint16_t ten[] = {0x0000, 0x00FF, 0x9ABC, 0xFFFF, 0x7105, 0xB006, 0x0D1E, 0x4321, 0xF00D, 0x1001};
    for (size_t i = 0; i < ROOM; i++) some_memory[i] = i < 10 ? ten[i] : MARK;
    memset(some_text, '?', ROOM);
    memory = some_memory, memory_count = words, first = from, count = stretch;
    text = some_text, text_count = bytes;
    uint32_t returned = NAMED_r8_listing;
    CHECK(returned == code);
    const size_t end = strlen(lines);
    int text_holds = memcmp(some_text, lines, end) == 0, memory_holds = 1;
    for (size_t i = end; i < ROOM; i++) text_holds = text_holds && some_text[i] == '?';
    for (size_t i = 0; i < ROOM; i++) memory_holds = memory_holds && some_memory[i] == (i < 10 ? ten[i] : MARK);
    CHECK(text_holds && memory_holds);
}

static void listings(void) {
    listing_is(10, 1, 3, 37, R8_OK, "0001 00FF\n0002 9ABC\n0003 FFFF\n"); /* any two of these four exchanged: other lines, or number 4 or 10 */
    listing_is(10, 4, 2, 2 * R8_LINE, R8_OK, "0004 7105\n0005 B006\n");
    listing_is(10, 4, 2, 2 * R8_LINE - 1, R8_SHORT_TEXT, "");
    listing_is(10, 0, 1, 0, R8_SHORT_TEXT, "");
    listing_is(10, 9, 1, R8_LINE, R8_OK, "0009 1001\n");
    listing_is(10, 9, 2, 2 * R8_LINE, R8_PAST_END, "");
    listing_is(10, 10, 0, 5, R8_OK, "");
    listing_is(10, 11, 0, 5, R8_PAST_END, "");
    listing_is(10, SIZE_MAX, 2, 40, R8_PAST_END, ""); /* 'first address plus count above L': not the sum modulo 2^64, nor 65,536 */
    listing_is(10, 2, SIZE_MAX, 40, R8_PAST_END, "");
    listing_is(10, 65536, 1, 40, R8_PAST_END, "");
    listing_is(65536, 65535, 1, 12, R8_OK, "FFFF 5A5A\n");
    listing_is(65536, 43981, 2, 20, R8_OK, "ABCD 5A5A\nABCE 5A5A\n");
    listing_is(65536, 65536, 0, 12, R8_OK, "");
    listing_is(65536, 65535, 2, 20, R8_PAST_END, "");
    listing_is(65537, 3, 1, 12, R8_WRONG_LENGTH, "");
    listing_is(0, 0, 0, 12, R8_WRONG_LENGTH, "");
    listing_is(0, 1, 1, 9, R8_WRONG_LENGTH, ""); /* 1, then 4, then 10 */
    listing_is(65537, 65536, 1, 9, R8_WRONG_LENGTH, "");
    listing_is(10, 9, 2, 19, R8_PAST_END, "");
}

static void listings_of_nothing(void) {
    memory = some_memory, memory_count = 10, first = 3, count = 0;
    text = NULL, text_count = 0;
    CHECK(NAMED_r8_listing == R8_OK);
    count = 1;
    CHECK(NAMED_r8_listing == R8_SHORT_TEXT);
    first = 10;
    CHECK(NAMED_r8_listing == R8_PAST_END);
    memory = NULL, memory_count = 0;
    CHECK(NAMED_r8_listing == R8_WRONG_LENGTH);
}

/* 'gives the same words at those addresses and changes no others' */
static void listing_loads(void) {
    const uint64_t load[] = {R8_LOAD, 0, 3 * R8_LINE};
    listing_is(10, 2, 3, 3 * R8_LINE, R8_OK, "0002 9ABC\n0003 FFFF\n0004 7105\n");
    memcpy(some_calls, load, sizeof load);
    for (size_t i = 0; i < ROOM; i++) some_memory[i] = MARK;
    calls = some_calls, calls_count = R8_CALL;
    answers = some_answers, answers_count = 2 * R8_ANSWER;
    CHECK(NAMED_r8_replay == R8_OK && is(some_answers, R8_STORED, 3, 0, 0));
    for (size_t i = 0; i < ROOM; i++) CHECK(some_memory[i] == (i == 2 ? 0x9ABC : i == 3 ? 0xFFFF : i == 4 ? 0x7105 : MARK));
}

/* a core between instructions: PC 2, SP 7, clock 1,000, all four flags set; at 2 ADD R3, R1, R2, then ST R3 at R4+R5, PUSH R6, HALT */
static void lend_core(void) {
    const uint16_t words[] = {0x100, 0x1111, 0x2222, 0x103, 4, 2, 0x106, 0x107, 0x108, 0x109, 0x10A, 0x10B, 0x10C, 0x10D, 0x10E, 0x10F,
                              2, 7, 0x201, 0x202, 0x203, 0x204};
    const uint16_t code[] = {0x301, 0x302, 0x0312, 0xA345, 0xB60A, 0xB006, 0x303, 0x304};
    for (size_t i = 0; i < ROOM; i++) some_registers[i] = some_memory[i] = MARK, some_state[i] = MARK;
    memcpy(some_registers, words, sizeof words);
    memcpy(some_memory, code, sizeof code);
    memcpy(some_state, (const uint32_t[]){15, 0, 1, 1000}, 16);
    mark(some_answer);
    registers = some_registers, registers_count = R8_REGISTERS;
    state = some_state, state_count = R8_STATE;
    memory = some_memory, memory_count = 8;
    answer = some_answer, answer_count = R8_ANSWER + 1;
}

/* R3, PC, SP, IR, RA, RB, RALU, all other registers as they were lent; and the state */
static int core_is(const uint16_t *seven, const uint32_t *four) {
    static const size_t at_place[] = {3, 16, 17, 18, 19, 20, 21};
    for (size_t i = 0; i < 7; i++)
        if (some_registers[at_place[i]] != seven[i]) return 0;
    for (size_t i = 6; i < 16; i++)
        if (some_registers[i] != 0x100 + i) return 0;
    return some_registers[0] == 0x100 && some_registers[1] == 0x1111 && some_registers[2] == 0x2222 && some_registers[4] == 4
        && some_registers[5] == 2 && some_registers[22] == MARK && memcmp(some_state, four, 16) == 0 && some_state[4] == MARK;
}

static int stored(uint16_t at6, uint16_t at7) {
    return some_memory[1] == 0x302 && some_memory[5] == 0xB006 && some_memory[6] == at6 && some_memory[7] == at7 && some_memory[8] == MARK;
}

static void run_and_step(void) {
    lend_core();
    b = 6; /* ADD, then cycles 1 and 2 of ST */
    CHECK(NAMED_r8_run == R8_OK && is(some_answer, R8_RAN, 6, 1, 'M') && marked(some_answer, 23, ROOM));
    CHECK(core_is((const uint16_t[]){0x3333, 4, 7, 0xA345, 4, 2, 0x3333}, (const uint32_t[]){0, 0, 3, 1006}) && stored(0x303, 0x304));
    CHECK(NAMED_r8_step == R8_OK && is(some_answer, R8_REFUSED, 7, 0, 0));
    CHECK(core_is((const uint16_t[]){0x3333, 4, 7, 0xA345, 4, 2, 0x3333}, (const uint32_t[]){0, 0, 3, 1006}) && stored(0x303, 0x304));
    b = 2;
    CHECK(NAMED_r8_run == R8_OK && is(some_answer, R8_RAN, 2, 1, 'B'));
    CHECK(core_is((const uint16_t[]){0x3333, 4, 7, 0xA345, 4, 2, 6}, (const uint32_t[]){0, 0, 1, 1008}) && stored(0x3333, 0x304));
    CHECK(NAMED_r8_step == R8_OK && is(some_answer, R8_RAN, 4, 1, 'B') && marked(some_answer, 23, ROOM)); /* PUSH */
    CHECK(core_is((const uint16_t[]){0x3333, 5, 6, 0, 0, 0, 0}, (const uint32_t[]){0, 0, 1, 1012}) && stored(0x3333, 0x106));
    CHECK(NAMED_r8_step == R8_OK && is(some_answer, R8_RAN, 2, 1, 'H'));
    CHECK(core_is((const uint16_t[]){0x3333, 6, 6, 0, 0, 0, 0}, (const uint32_t[]){0, 1, 1, 1014}) && stored(0x3333, 0x106));
    CHECK(NAMED_r8_run == R8_OK && is(some_answer, R8_REFUSED, 8, 0, 0));
    lend_core();
    b = 70003; /* HALT ends it after 14 cycles; from 4000 on, past the memory, it goes on: 0000 is ADD */
    CHECK(NAMED_r8_run == R8_OK && is(some_answer, R8_RAN, 14, 4, 'H'));
    lend_core();
    some_registers[16] = 0x4000;
    CHECK(NAMED_r8_run == R8_OK && is(some_answer, R8_RAN, 70003, 17500, 'M') && some_state[3] == 71003);
    lend_core();
    some_memory[2] = 0xB00B;
    CHECK(NAMED_r8_step == R8_OK && is(some_answer, R8_RAN, 2, 1, 'U') && some_state[1] == 2);
    lend_core();
    some_state[3] = 4294967292u;
    CHECK(NAMED_r8_step == R8_OK && is(some_answer, R8_REFUSED, 9, 0, 0));
    lend_core();
    some_state[2] = 255;
    CHECK(NAMED_r8_run == R8_OK && is(some_answer, R8_REFUSED, 7, 0, 0));
}

/* both calls return the code, and leave all as it was lent */
static void core_code(size_t place_in_state, uint32_t number, uint32_t code) {
    static uint16_t registers_before[ROOM], memory_before[ROOM];
    static uint32_t state_before[ROOM];
    some_state[place_in_state] = number;
    memcpy(registers_before, some_registers, sizeof registers_before);
    memcpy(memory_before, some_memory, sizeof memory_before);
    memcpy(state_before, some_state, sizeof state_before);
    b = 4;
    uint32_t ran = NAMED_r8_run, stepped = NAMED_r8_step;
    CHECK(ran == code && stepped == code && marked(some_answer, 0, ROOM));
    CHECK(memcmp(registers_before, some_registers, sizeof registers_before) == 0);
    CHECK(memcmp(memory_before, some_memory, sizeof memory_before) == 0 && memcmp(state_before, some_state, sizeof state_before) == 0);
    lend_core();
}

static void core_codes(void) {
    lend_core();
    core_code(0, 16, R8_NO_CORE);
    core_code(1, 3, R8_NO_CORE);
    core_code(2, 256, R8_NO_CORE);
    registers_count = R8_REGISTERS - 1, core_code(0, 15, R8_NO_CORE);
    registers_count = R8_REGISTERS + 1, core_code(0, 15, R8_NO_CORE);
    state_count = R8_STATE - 1, core_code(0, 15, R8_NO_CORE);
    state_count = R8_STATE + 1, core_code(0, 15, R8_NO_CORE);
    answer_count = R8_ANSWER - 1, core_code(0, 15, R8_NO_ROOM);
    answer_count = R8_ANSWER - 1, core_code(0, 16, R8_NO_CORE);
    registers = NULL, registers_count = 0, core_code(0, 15, R8_NO_CORE);
    state = NULL, state_count = 0, core_code(0, 15, R8_NO_CORE);
    answer = NULL, answer_count = 0, core_code(0, 15, R8_NO_ROOM);
    memory = NULL, memory_count = 0;
    CHECK(NAMED_r8_run == R8_OK && is(some_answer, R8_REFUSED, 1, 0, 0));
    mark(some_answer);
    CHECK(NAMED_r8_step == R8_OK && is(some_answer, R8_REFUSED, 1, 0, 0));
}

int main(void) {
    CHECK(replay_type != 0 && trace_type != 0 && form_type != 0 && listing_type != 0 && run_type != 0 && step_type != 0);
    replay_plays();
    replay_codes();
    replay_of_nothing();
    trace_finds();
    trace_of_nothing();
    forms();
    listings();
    listings_of_nothing();
    listing_loads();
    run_and_step();
    core_codes();
    return failed > 0;
}
