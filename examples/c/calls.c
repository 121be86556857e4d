/*
 * Each call once accepted and once refused, a read by each refusal of a line's form, two arms of a
 * branch in one time and rows that go back, a write and a pick by each of their refusals, through the
 * header: that its names, types and results are those of the archive.
 * Prints one line, or fails at the first difference.
 */
#include <stdio.h>
#include <stdlib.h>
#include <string.h>

#include "sample.h"
#include "tannoplex.h"

#define KEPT 0x2A
#define OUTPUT                                                                                     \
    "0300010000000300000005000000000000000000000000\n"                                             \
    "0301010000000400000000000000050000000000000000\n"                                             \
    "FE000002\n"

/* A SKIP over one arm, which ends with a JUMP over the other; both arms are in one time. */
#define ARMS                                                                                       \
    "000000000000000000000000000000000000\n"                                                       \
    "010010000002000000000000000100000003\n"                                                       \
    "010000000000000000010000000200000004\n"                                                       \
    "010011000001000000000000000500000008\n"                                                       \
    "010000000000000000020000000200000004\n"                                                       \
    "FF\n"
/* Document 01's case P12: early 4 and then 3. */
#define GOES_BACK                                                                                  \
    "000000000000000000000000000000000000\n"                                                       \
    "010000000000000000010000000400000009\n"                                                       \
    "010000000000000000010000000300000009\n"                                                       \
    "FF\n"

static const uint8_t text[] = TABLE, input[] = TABLE CHOICES, long_end[] = "FF00\n";
static const uint8_t arms[] = ARMS, goes_back[] = GOES_BACK;
static const uint32_t choices[] = {0, 3, 1, 4, 1, 4};
static uint32_t table[TANNOPLEX_TABLE_WORDS], again[TANNOPLEX_TABLE_WORDS];
static uint32_t state[TANNOPLEX_STATE_WORDS], stepped[TANNOPLEX_STATE_WORDS];
static uint8_t out[TANNOPLEX_TRACE_OUTPUT_BYTES];
static uint8_t exact[sizeof TABLE - 1], longest[TANNOPLEX_TABLE_TEXT_BYTES];

static void expect(int good, const char *what)
{
    if (!good) {
        fprintf(stderr, "calls: %s\n", what);
        exit(1);
    }
}

static void expect_wrote(tannoplex_wrote wrote, uint32_t reply, size_t length, const char *what)
{
    expect(wrote.reply == reply && wrote.length == length, what);
}

static void expect_picked(tannoplex_picked picked, uint32_t reply, uint32_t agent, uint32_t time,
                          const char *what)
{
    expect(picked.reply == reply && picked.agent == agent && picked.time == time, what);
}

/* Whether so many bytes are as they were before a call. */
static int are_kept(const uint8_t *bytes, size_t count)
{
    while (count > 0 && bytes[count - 1] == KEPT) {
        count--;
    }
    return count == 0;
}

/* Windows over what a row goes on to: 7 is for the row that goes on, and 8 follows. */
static void test_windows(void)
{
    const size_t words = TANNOPLEX_TABLE_WORDS;
    tannoplex_told told = tannoplex_read(goes_back, sizeof goes_back - 1, again, words);
    expect(told.reply == TANNOPLEX_WINDOW_GOES_BACK && told.line == 2, "read, early 4 and then 3");
    told = tannoplex_read(arms, sizeof arms - 1, again, words);
    expect(told.reply == TANNOPLEX_ACCEPTED && told.line == 0, "read, two arms in one time");
    expect(tannoplex_check(again, words) == TANNOPLEX_ACCEPTED, "check, two arms in one time");

    /* Register 0 is 0, so the SKIP goes on to the second arm. */
    static const uint32_t second_arm[] = {0, 1, 0, 4};
    tannoplex_ran ran = tannoplex_run(again, words, state, TANNOPLEX_STATE_WORDS, second_arm, 4);
    expect(ran.reply == TANNOPLEX_ACCEPTED && ran.count == 2 &&
               state[TANNOPLEX_STATE_REGISTER(0, 0)] == 2,
           "run, the second arm in the time of the first");

    again[TANNOPLEX_TABLE_ROW(0, 3) + TANNOPLEX_ROW_EARLY] = 0;
    expect(tannoplex_check(again, words) == TANNOPLEX_BAD_TABLE, "check, an arm before its SKIP");
}

/* The table that was read, written out again. */
static void test_write(void)
{
    const size_t words = TANNOPLEX_TABLE_WORDS, length = sizeof exact;
    memset(exact, KEPT, sizeof exact);
    memset(longest, KEPT, sizeof longest);

    expect_wrote(tannoplex_write(NULL, 0, exact, length), TANNOPLEX_BUFFER_TOO_SHORT, 0,
                 "write, no table");
    table[TANNOPLEX_TABLE_AGENTS] = 3;
    expect_wrote(tannoplex_write(table, words - 1, NULL, 0), TANNOPLEX_BUFFER_TOO_SHORT, 0,
                 "write, too few words, of a bad table, for no buffer");
    expect_wrote(tannoplex_write(table, words, exact, length), TANNOPLEX_BAD_TABLE, 0,
                 "write, a bad table");
    expect_wrote(tannoplex_write(table, words, NULL, 0), TANNOPLEX_BAD_TABLE, 0,
                 "write, a bad table, for no buffer");
    table[TANNOPLEX_TABLE_AGENTS] = 2;
    expect_wrote(tannoplex_write(table, words, NULL, 0), TANNOPLEX_TEXT_TOO_LONG, length,
                 "write, no buffer");
    expect_wrote(tannoplex_write(table, words, exact, length - 1), TANNOPLEX_TEXT_TOO_LONG, length,
                 "write, one byte too few");
    expect(are_kept(exact, sizeof exact), "a refused write leaves every byte");

    expect_wrote(tannoplex_write(table, words, exact, length), TANNOPLEX_ACCEPTED, length, "write");
    expect(memcmp(exact, text, length) == 0, "what was read is written byte for byte");
    expect_wrote(tannoplex_write(table, words, longest, sizeof longest), TANNOPLEX_ACCEPTED, length,
                 "write, a longer buffer");
    expect(memcmp(longest, text, length) == 0 &&
               are_kept(longest + length, sizeof longest - length),
           "bytes after the text stay as they were");

    tannoplex_told told = tannoplex_read(longest, length, again, words);
    expect(told.reply == TANNOPLEX_ACCEPTED && memcmp(again, table, sizeof table) == 0,
           "what was written is read to the same words");

    /* Register 3 of agent 1: the last eight digits of line 3, high byte first. */
    again[TANNOPLEX_TABLE_REGISTER(1, 3)] = 0x89ABCDEF;
    expect_wrote(tannoplex_write(again, words, exact, length), TANNOPLEX_ACCEPTED, length, "write");
    expect(memcmp(exact + 3 * 37 - 9, "89ABCDEF\n", 9) == 0, "digits are upper-case");
}

/* The table that was read, run by picks to its end. */
static void test_pick(void)
{
    const size_t words = TANNOPLEX_TABLE_WORDS, state_words = TANNOPLEX_STATE_WORDS;
    const uint32_t short_buffer = TANNOPLEX_BUFFER_TOO_SHORT, ended = TANNOPLEX_AGENT_ENDED;
    expect(tannoplex_start(table, words, state, state_words) == TANNOPLEX_ACCEPTED, "start");
    memcpy(stepped, state, sizeof state);
    memcpy(again, table, sizeof table);

    expect_picked(tannoplex_pick(NULL, 0, NULL, 0), short_buffer, 0, 0, "pick, no buffer");
    expect_picked(tannoplex_pick(table, words - 1, state, state_words), short_buffer, 0, 0,
                  "pick, too few words of the table");
    expect_picked(tannoplex_pick(table, words, state, state_words - 1), short_buffer, 0, 0,
                  "pick, too few words of the state");
    again[TANNOPLEX_TABLE_AGENTS] = 3;
    expect_picked(tannoplex_pick(again, words, state, state_words), TANNOPLEX_BAD_TABLE, 0, 0,
                  "pick, a bad table");
    again[TANNOPLEX_TABLE_AGENTS] = 2;
    stepped[TANNOPLEX_STATE_CLOCK] = 0;
    expect_picked(tannoplex_pick(table, words, stepped, state_words), TANNOPLEX_BAD_STATE, 0, 0,
                  "pick, clock 0");
    stepped[TANNOPLEX_STATE_CLOCK] = 1;
    expect_picked(tannoplex_pick(table, words, state, state_words), TANNOPLEX_ACCEPTED, 0, 1,
                  "pick, the least late");
    expect(memcmp(state, stepped, sizeof state) == 0 && memcmp(table, again, sizeof table) == 0,
           "a pick leaves every word");

    expect(tannoplex_step(table, words, state, state_words, 0, 1) == TANNOPLEX_ACCEPTED,
           "step, as picked");
    expect_picked(tannoplex_pick(table, words, state, state_words), TANNOPLEX_ACCEPTED, 1, 4,
                  "pick, the other agent at its early");
    state[TANNOPLEX_STATE_CLOCK] = 7;
    expect_picked(tannoplex_pick(table, words, state, state_words), TANNOPLEX_ACCEPTED, 1, 7,
                  "pick, the other agent at the clock");
    expect(tannoplex_step(table, words, state, state_words, 1, 7) == TANNOPLEX_ACCEPTED,
           "step, as picked");
    expect_picked(tannoplex_pick(table, words, state, state_words), ended, 0, 0,
                  "pick, all have ended");
}

int main(void)
{
    const size_t words = TANNOPLEX_TABLE_WORDS, state_words = TANNOPLEX_STATE_WORDS;

    tannoplex_told told = tannoplex_read(text, sizeof text - 2, table, words);
    expect(told.reply == TANNOPLEX_BAD_CHARACTER && told.line == 5, "read, no last newline");
    told = tannoplex_read(long_end, sizeof long_end - 1, table, words);
    expect(told.reply == TANNOPLEX_BAD_LENGTH && told.line == 1, "read, an end line of four digits");
    told = tannoplex_read(input + sizeof text - 1, sizeof CHOICES - 1, table, words);
    expect(told.reply == TANNOPLEX_UNKNOWN_FIRST_BYTE && told.line == 1, "read, a choice line");
    told = tannoplex_read(text, sizeof text - 1, table, words);
    expect(told.reply == TANNOPLEX_ACCEPTED && told.line == 0 &&
               table[TANNOPLEX_TABLE_AGENTS] == 2,
           "read");
    expect(table[TANNOPLEX_TABLE_ROW_COUNT(1)] == 1 && table[TANNOPLEX_TABLE_REGISTER(0, 0)] == 5,
           "the places of an agent in the table");
    const uint32_t *row = table + TANNOPLEX_TABLE_ROW(1, 0);
    expect(row[TANNOPLEX_ROW_CODE] == TANNOPLEX_CODE(TANNOPLEX_RECV, 1, 0, 0) &&
               row[TANNOPLEX_ROW_K] == 7 && row[TANNOPLEX_ROW_EARLY] == 4 &&
               row[TANNOPLEX_ROW_LATE] == 8,
           "the places of a row in the table");
    test_windows();
    test_write();
    test_pick();

    expect(tannoplex_check(table, words - 1) == TANNOPLEX_BUFFER_TOO_SHORT, "check, too short");
    expect(tannoplex_check(table, words) == TANNOPLEX_ACCEPTED, "check");

    expect(tannoplex_start(table, words, stepped, state_words - 1) == TANNOPLEX_BUFFER_TOO_SHORT,
           "start, too short");
    expect(tannoplex_start(table, words, stepped, state_words) == TANNOPLEX_ACCEPTED &&
               stepped[TANNOPLEX_STATE_CLOCK] == 1 &&
               stepped[TANNOPLEX_STATE_REGISTER(0, 0)] == 5,
           "start");

    expect(tannoplex_step(table, words, stepped, state_words, 1, 4) == TANNOPLEX_TIME_ABOVE_LATE,
           "step, above the other agent's late");
    for (int i = 0; i < 4; i += 2) {
        expect(tannoplex_step(table, words, stepped, state_words, choices[i], choices[i + 1]) ==
                   TANNOPLEX_ACCEPTED,
               "step");
    }
    expect(stepped[TANNOPLEX_STATE_POSITION(1)] == 1 && stepped[TANNOPLEX_STATE_REGISTER(1, 1)] == 5,
           "what was received");
    expect(stepped[TANNOPLEX_STATE_MARK(0, 0)] == 1 && stepped[TANNOPLEX_STATE_VALUE(0, 0)] == 5,
           "what was sent");

    tannoplex_ran ran = tannoplex_run(table, words, state, state_words, choices, 6);
    expect(ran.reply == TANNOPLEX_AGENT_ENDED && ran.count == 2, "run, one choice too many");
    memset(state, 0xFF, sizeof state);
    ran = tannoplex_run(table, words, state, state_words, choices, 4);
    expect(ran.reply == TANNOPLEX_ACCEPTED && ran.count == 2, "run");
    expect(memcmp(state, stepped, sizeof state) == 0, "the states of the run and of its steps");

    tannoplex_traced traced = tannoplex_trace(input, sizeof input - 1, out, sizeof out - 1);
    expect(traced.reply == TANNOPLEX_BUFFER_TOO_SHORT && traced.length == 0, "trace, too short");
    traced = tannoplex_trace(input, sizeof input - 1, out, sizeof out);
    expect(traced.reply == TANNOPLEX_ACCEPTED && traced.length == sizeof OUTPUT - 1 &&
               memcmp(out, OUTPUT, sizeof OUTPUT - 1) == 0,
           "trace");

    printf("the eight calls answer through the header as they must\n");
    return 0;
}
