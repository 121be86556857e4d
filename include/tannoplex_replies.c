/*
 * The replies in words. The tests hold them to those of rust/header, of tannoplex.h and of the
 * README, and scripts read them by line: each number has a line of its own in this form, in order.
 */
#include "tannoplex_replies.h"

static const char *const texts[] = {
    /* 0 */ "accepted",
    /* 1 */ "table, state or output buffer too short",
    /* 2 */ "a character other than 0 to 9 and A to F, or no newline: look for changed letters, spaces, a CR or a cut end",
    /* 3 */ "a line out of its place, or too many agents or rows",
    /* 4 */ "unknown op, register above 3, n above 31, or an unused field not 0",
    /* 5 */ "a target above the row count",
    /* 6 */ "early not below late, or late above 1,000,000",
    /* 7 */ "early or late above that of a row that it goes on to",
    /* 8 */ "the table words break a rule",
    /* 9 */ "the state words do not fit the table",
    /* 10 */ "no such agent",
    /* 11 */ "the agent has ended, or all have where one is to be picked",
    /* 12 */ "time below the clock",
    /* 13 */ "time below the row's early",
    /* 14 */ "reserved: no call gives it",
    /* 15 */ "time above some unfinished agent's late",
    /* 16 */ "the list of choices has an odd number of words",
    /* 17 */ "the trace program's input is above 65,536 bytes",
    /* 18 */ "too few or too many digits for the line's first byte: look for a line that was cut or joined to the next",
    /* 19 */ "no known first byte: look for an empty or cut line, one of another kind, or a missing end line before it",
    /* 20 */ "the table's text is longer than the buffer: lend one of the length told",
};

const char *tannoplex_reply_text(uint32_t reply)
{
    return reply < sizeof texts / sizeof texts[0] ? texts[reply] : "unknown reply";
}
