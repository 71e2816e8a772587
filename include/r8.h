/* The R8 simulator for other languages: link libr8.a (tests/library/build writes target/staticlib/libr8.a).
 *
 * A slice is passed as a pointer and a count of elements. A null pointer is allowed where the count is 0; at is never null. What a function
 * can write (a slice without const, and *at) may overlap nothing else that it is given. 'Number 1' and the like mean a refusal's number of
 * documents 01 and 02: README has the table. */
#ifndef R8_H
#define R8_H
#include <stddef.h>
#include <stdint.h>
#ifdef __cplusplus
extern "C" {
#endif

/* What a function returns: R8_OK, also where an answer that it wrote is a refusal; or why it changed nothing, but for *at of r8_replay. A
 * number of those documents is returned as itself; the codes from 100 on are this header's own. */
#define R8_OK 0
#define R8_WRONG_LENGTH 1 /* number 1: the memory has 0 words, or more than 65,536 */
#define R8_PAST_END 4     /* number 4, its offset being 0: first address plus count is above the memory's length */
#define R8_UNDEFINED 6    /* number 6: the word is undefined */
#define R8_SHORT_TEXT 10  /* number 10: the text is shorter than ten bytes a word */
#define R8_NO_ROOM 100    /* a slice is too short for what would be written to it */
#define R8_NO_CORE 101    /* registers and state are no core's */
#define R8_NO_CALL 102    /* three numbers are no call, or fewer are left */
#define R8_NO_STRETCH 103 /* a load is of no stretch of the text */
#define R8_TOO_LONG 104   /* the listing is longer than 65,536 bytes */

/* A call is three numbers: the case, then two, called first and second; those that a case does not name are ignored. */
#define R8_CALL 3
#define R8_RESET 0
#define R8_LOAD 1 /* of the bytes of the text from first up to second, which is not included */
#define R8_RUN 2  /* first is the budget in cycles, at most 4,294,967,295 */
#define R8_STEP 3
#define R8_VIEW 4

/* An answer is 23 numbers: the case, then what it names, then zeros. */
#define R8_ANSWER 23
#define R8_DONE 0       /* of a reset */
#define R8_STORED 1     /* of a load: how many words were stored */
#define R8_RAN 2        /* of a run or a step: cycles used, instructions finished, end letter (its ASCII code) */
#define R8_VIEWED 3     /* R0 to R15, PC, SP, 8N+4Z+2C+V, stop state (0 going, 1 halted, 2 undefined), cycle due, clock */
#define R8_REFUSED 4    /* number 1, 7, 8 or 9 */
#define R8_REFUSED_AT 5 /* number 2, 3 or 4, then where the faulty line starts, counted from the start of what was to be loaded */

/* What a list of calls left is 23 numbers too: the case, then as of R8_VIEWED, with the cycles spent in an unfinished instruction, 0 to 3, in
 * place of the cycle due. Where some are spent, R0 to R15, PC, SP and 8N+4Z+2C+V are 0. */
#define R8_LEFT 6

/* Plays calls on a fresh core and the lent memory, one after the other, refused ones too, and writes the answer of each from answers[0]
 * on, and behind them what the list left; what is past that stays. A memory of 0 or of more than 65,536 words is taken: its loads, runs
 * and steps answer number 1.
 * Returns R8_OK, and *at is how many calls were played; or, with *at the index, from 0, of the first faulty call,
 *   R8_NO_CALL: its case is above 4, its budget above 4,294,967,295, or fewer than three numbers are left;
 *   R8_NO_STRETCH: it is a load, and first is above second, or second above text_count;
 * or, where no call is faulty, R8_NO_ROOM, with 0 in *at: the answers are shorter than 23 numbers a call and 23 more. */
uint32_t r8_replay(const uint64_t *calls, size_t calls_count, const uint8_t *text, size_t text_count,
                   uint16_t *memory, size_t memory_count, uint64_t *answers, size_t answers_count, uint64_t *at);

/* What the program r8trace finds, as numbers: a listing of at most 65,536 bytes is loaded into 16,384 zero words, and a fresh core runs
 * for 1,000 cycles, fewer if it stops. Each finished instruction has a row of four numbers: address, word, cycles, 8N+4Z+2C+V after. The
 * answer is R8_RAN, with as many rows as instructions, or R8_REFUSED_AT, with none. What is past the rows, and past the 23 numbers of the
 * answer, stays. Returns R8_OK; or, the first that applies, R8_TOO_LONG, or R8_NO_ROOM: the answer is shorter than 23 numbers, or the
 * rows are shorter than four numbers for each finished instruction (2,000 are always enough). */
#define R8_ROW 4
uint32_t r8_trace(const uint8_t *listing, size_t listing_count, uint64_t *rows, size_t rows_count,
                  uint64_t *answer, size_t answer_count);

/* The form of a word in seven numbers: which instruction, then t, a, b, k, d10, d12, those that it does not have zero; a displacement is a
 * word of 16 bits (cast it to int16_t). The instructions are numbered in the order of document 01's table:
 *    0 ADD     1 SUB     2 AND     3 OR      4 XOR     5 ADDI    6 SUBI    7 LDL     8 LDH     9 LD
 *   10 ST     11 SL0    12 SL1    13 SR0    14 SR1    15 NOT    16 NOP    17 HALT   18 LDSP   19 RTS
 *   20 POP    21 PUSH   22 JMPR   23 JMPNR  24 JMPZR  25 JMPCR  26 JMPVR  27 JMP    28 JMPN   29 JMPZ
 *   30 JMPC   31 JMPV   32 JSRR   33 JSR    34 JMPD   35 JMPND  36 JMPZD  37 JMPCD  38 JMPVD  39 JSRD
 * What is past the seventh number stays. Returns R8_OK; or, the first that applies, R8_NO_ROOM: form is shorter than seven; or
 * R8_UNDEFINED. */
#define R8_FORM 7
uint32_t r8_form(uint16_t word, uint16_t *form, size_t form_count);

/* A listing out of memory: the words at count addresses from first on, each as a line of R8_LINE bytes, one after the other from text[0] on:
 * address, space, word, LF, address and word in four capital hexadecimal digits. What is past the last line stays. A load of just these bytes,
 * into any memory of as many words, on a core with cycle 1 due, gives the same words at those addresses and changes no others. No core is taken
 * here, and the memory stays as it is.
 * Returns R8_OK; or, the first that applies, with the text as it was,
 *   R8_WRONG_LENGTH: memory_count is 0 or above 65,536;
 *   R8_PAST_END: first plus count, a sum of any size, is above memory_count (so a count of 0 is taken up to first = memory_count);
 *   R8_SHORT_TEXT: text_count is below R8_LINE times count. */
#define R8_LINE 10
uint32_t r8_listing(const uint16_t *memory, size_t memory_count, size_t first, size_t count,
                    uint8_t *text, size_t text_count);

/* One run of b cycles, or one step, of a core given as numbers, also one that no call made. registers has 22 words: R0 to R15, PC, SP, IR,
 * RA, RB, RALU. state has four numbers: 8N+4Z+2C+V, stop state, cycle due (0 to 255), clock. Both become the next core's, and the answer
 * is written to the first 23 numbers of answer; what is past them stays. Returns R8_OK, also where the answer is R8_REFUSED
 * (number 7, for a cycle due outside 1 to 4 or, of a step, not 1, comes after 1 and 8); or, the first that applies,
 *   R8_NO_CORE: registers are not 22, state is not four, or state has flags above 15, a stop state above 2 or a cycle due above 255;
 *   R8_NO_ROOM: answer is shorter than 23. */
#define R8_REGISTERS 22
#define R8_STATE 4
uint32_t r8_run(uint16_t *registers, size_t registers_count, uint32_t *state, size_t state_count, uint32_t b,
                uint16_t *memory, size_t memory_count, uint64_t *answer, size_t answer_count);
uint32_t r8_step(uint16_t *registers, size_t registers_count, uint32_t *state, size_t state_count,
                 uint16_t *memory, size_t memory_count, uint64_t *answer, size_t answer_count);
#ifdef __cplusplus
}
#endif
#endif
