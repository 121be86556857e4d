/*
 * How much stack each call takes: the stack below is filled with a pattern, the call is made, and
 * where the pattern is lost it was used. Prints a line for each call, in bytes, and fails where one
 * takes more than the header says.
 *
 * Link it as for a board, statically or with -z now: memcpy and memset are then bound before the
 * first call. Bound lazily, the first call that copies takes the loader's stack too.
 */
#include <stdio.h>

#include "sample.h"
#include "tannoplex.h"

#define DEPTH 65536 /* more than any call takes */
#define PATTERN 0x5A

static const uint8_t text[] = TABLE, input[] = TABLE CHOICES;
static const uint32_t choices[] = {0, 3, 1, 4};
static uint32_t table[TANNOPLEX_TABLE_WORDS], state[TANNOPLEX_STATE_WORDS];
static uint8_t out[TANNOPLEX_TRACE_OUTPUT_BYTES];
static const size_t words = TANNOPLEX_TABLE_WORDS, state_words = TANNOPLEX_STATE_WORDS;

static uint32_t no_call(void) { return TANNOPLEX_ACCEPTED; }
static uint32_t read_text(void) { return tannoplex_read(text, sizeof text - 1, table, words).reply; }
static uint32_t write_text(void) { return tannoplex_write(table, words, out, sizeof out).reply; }
static uint32_t check(void) { return tannoplex_check(table, words); }
static uint32_t start(void) { return tannoplex_start(table, words, state, state_words); }
static uint32_t pick(void) { return tannoplex_pick(table, words, state, state_words).reply; }
static uint32_t step(void) { return tannoplex_step(table, words, state, state_words, 0, 3); }
static uint32_t run(void) { return tannoplex_run(table, words, state, state_words, choices, 4).reply; }
static uint32_t trace(void) { return tannoplex_trace(input, sizeof input - 1, out, sizeof out).reply; }

/* The stack below the caller, from its deepest byte on: filled with the pattern, or counted where it
   no longer has it. One function for both, so that the array lies where it lay. */
__attribute__((noinline)) static size_t below(int is_to_fill)
{
    volatile unsigned char stack[DEPTH];
    size_t kept = 0;
    for (; kept < DEPTH && (is_to_fill || stack[kept] == PATTERN); kept++) {
        stack[kept] = PATTERN;
    }
    return DEPTH - kept;
}

__attribute__((noinline)) static size_t stack_of(uint32_t (*call)(void), uint32_t *reply)
{
    below(1);
    *reply = call();
    return below(0);
}

int main(void)
{
    static const struct {
        const char *name;
        uint32_t (*call)(void);
        size_t most;
    } calls[] = {
        {"read", read_text, TANNOPLEX_READ_STACK_BYTES}, {"write", write_text, TANNOPLEX_STACK_BYTES},
        {"check", check, TANNOPLEX_STACK_BYTES},         {"start", start, TANNOPLEX_STACK_BYTES},
        {"pick", pick, TANNOPLEX_STACK_BYTES},           {"step", step, TANNOPLEX_STACK_BYTES},
        {"run", run, TANNOPLEX_STACK_BYTES},             {"trace", trace, TANNOPLEX_TRACE_STACK_BYTES},
    };
    uint32_t reply;
    size_t none = stack_of(no_call, &reply);
    int status = 0;
    for (size_t i = 0; i < sizeof calls / sizeof calls[0]; i++) {
        size_t taken = stack_of(calls[i].call, &reply) - none;
        printf("%-5s  %5zu of %5zu bytes of stack\n", calls[i].name, taken, calls[i].most);
        if (taken > calls[i].most) {
            fprintf(stderr, "%s takes more than the header says\n", calls[i].name);
            status = 1;
        }
        /* Every call takes some. A compiler that touches each page of an array hides it. */
        if (taken == 0) {
            fprintf(stderr, "%s: nothing was measured\n", calls[i].name);
            status = 1;
        }
        /* A call that is refused may not go as deep. */
        if (reply != TANNOPLEX_ACCEPTED) {
            fprintf(stderr, "%s is refused with %u\n", calls[i].name, reply);
            status = 1;
        }
    }
    return status;
}
