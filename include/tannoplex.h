/*
 * Tannoplex: a proved executive for instruction time windows.
 *
 * A table gives each of 1 to 16 agents its starting registers and 1 to 32 rows, each row with a
 * window from early to late. A state says how far each agent is, what is in its registers and what
 * was sent. A choice is an agent and a time. Whether a choice is accepted, and what it does, is
 * decided by the table and the state; in whatever order the choices come, each agent passes through
 * the same states.
 *
 * Link with libboard.a, for x86-64, which `tools/proved archive` writes to crates/board/out in the
 * repository. It takes memcpy and memset from the C library, and nothing else. Installed, by
 * `tools/install PREFIX`, it is libtannoplex.a, and pkg-config knows it as tannoplex. The replies in
 * words are a C file of their own, tannoplex_replies.c.
 *
 * Stack
 *   At most what the macros below say, read off the compiled code, measured (examples/c/stack.c) and
 *   covered by no proof. It is that of a board's program, in which memcpy and memset are bound when
 *   it starts: linked statically, or with -z now. Where they are bound lazily, the first call that
 *   copies takes the loader's stack too, which was 3.5 KiB more where it was measured.
 *
 * Buffers
 *   The caller lends every buffer for the time of the call, with its length: in bytes for text, in
 *   words of 32 bits for the others. Nothing is allocated and nothing is kept between calls: a call
 *   goes by what it is lent, so calls on different buffers may be made at the same time.
 *   A table needs TANNOPLEX_TABLE_WORDS and a state TANNOPLEX_STATE_WORDS; a longer buffer may be
 *   lent, and words past these lengths are never read or written. Words are in the machine's order
 *   of bytes and aligned as uint32_t is.
 *   A buffer that a call writes must not overlap any other buffer of the same call.
 *   NULL with length 0 is allowed and is an empty buffer: as table, state or output of a trace it is
 *   too short (TANNOPLEX_BUFFER_TOO_SHORT), as text or input to be read it is the empty text, as
 *   choices the empty list; for a text to be written it has no room (TANNOPLEX_TEXT_TOO_LONG). NULL
 *   with any other length is not allowed.
 *   Any bytes and any words may be lent; nothing need be checked beforehand.
 *
 * Refusals
 *   A call answers TANNOPLEX_ACCEPTED or the number of the first refusal that holds, in the order
 *   that is given with the call. A refusal leaves every lent buffer as it was, with two exceptions:
 *   tannoplex_run that is refused at a choice leaves the state after the steps accepted before, and
 *   tannoplex_trace writes its output with the refusal in the last line, unless that has no room.
 *
 * Words of a table
 *   0              number of agents
 *   1 to 16        row count of each agent
 *   17 to 80       starting registers, four for each agent
 *   81 to 2128     rows of four words, row i of agent a at 81 + 4*(32*a + i):
 *                  op, x, y, n (a byte each, op highest), then k, early, late
 *   Unused words are 0.
 *
 * Words of a state
 *   0              clock
 *   1 to 16        position of each agent; equal to its row count once it has ended
 *   17 to 80       registers, four for each agent
 *   81 to 592      sent marks, 0 or 1, row i of agent a at 81 + 32*a + i
 *   593 to 1104    sent values, at 593 + 32*a + i
 *   Unused words are 0, and so is a value whose mark is 0.
 *
 * Rows (op in hexadecimal; p is the row's own position; other fields are 0)
 *   00 SET x, k      x becomes k
 *   01 ADD x, y      x becomes x+y modulo 2^32
 *   02 SUB x, y      x becomes x-y modulo 2^32
 *   03 ONES x, y     x becomes the number of one bits in y
 *   04 LOW x, y      x becomes the number of zero bits below the lowest one bit of y; 32 if y is 0
 *   10 SKIP x, n     where x is 0 go on at p+1+n, else at p+1
 *   11 JUMP n        go on at p+1+n
 *   20 SEND x, k     the value of x is sent under message number k
 *   30 RECV x, k, n  message found: x becomes its value, on at p+1; none: on at p+1+n
 *   All other rows go on at p+1. No target is above the row count, which is the end.
 *   A RECV finds the messages of its number whose row's late is below its own early; of several
 *   the one of the greatest late, then of the lower agent, then of the higher row.
 *
 * Windows
 *   Early is below late, and late at most TANNOPLEX_LAST_TIME. A row's early and late are each not
 *   above those of every row that it can go on to: of two rows where it is a SKIP or a RECV, and
 *   also where no run comes to it. The end has no window. So two arms of a branch may share the
 *   same time, whichever of them comes first in the table.
 *
 * Getting to the end
 *   A state that fits its table is never stuck: while any agent has not ended some choice is
 *   accepted, and tannoplex_pick gives one. Every accepted step brings its agent nearer to the end,
 *   so no list of accepted choices is longer than the table has rows. A loop that steps some accepted
 *   choice while there is one, whichever it takes, ends all agents in no more steps than that: it
 *   needs no way out for the case that nothing can be run, and no count of its own to stop it.
 */
#ifndef TANNOPLEX_H
#define TANNOPLEX_H

#include <stddef.h>
#include <stdint.h>

#ifdef __cplusplus
extern "C" {
#endif

/* The version: the numbers for #if, and the text of them. CHANGELOG.md says what each brought. */
#define TANNOPLEX_VERSION_MAJOR 0
#define TANNOPLEX_VERSION_MINOR 6
#define TANNOPLEX_VERSION_PATCH 3
#define TANNOPLEX_VERSION "0.6.3"

/* Sizes. */
#define TANNOPLEX_TABLE_WORDS 2129
#define TANNOPLEX_STATE_WORDS 1105
#define TANNOPLEX_AGENTS 16
#define TANNOPLEX_ROWS 32
#define TANNOPLEX_REGISTERS 4
#define TANNOPLEX_ROW_WORDS 4
#define TANNOPLEX_LAST_TIME 1000000
#define TANNOPLEX_TABLE_TEXT_BYTES 19539   /* the longest text: 528 lines of 37 bytes, one of 3 */
#define TANNOPLEX_TRACE_INPUT_BYTES 65536  /* the longest input of a trace */
#define TANNOPLEX_TRACE_OUTPUT_BYTES 24073 /* the longest output: 512 lines of 47 bytes, one of 9 */

/* Stack that a call takes at most: a trace, a read, each of the others. */
#define TANNOPLEX_TRACE_STACK_BYTES 24576
#define TANNOPLEX_READ_STACK_BYTES 9216
#define TANNOPLEX_STACK_BYTES 2048

/* Where the parts of a table and of a state begin. */
#define TANNOPLEX_TABLE_AGENTS 0
#define TANNOPLEX_TABLE_ROW_COUNTS 1
#define TANNOPLEX_TABLE_REGISTERS 17
#define TANNOPLEX_TABLE_ROWS 81
#define TANNOPLEX_STATE_CLOCK 0
#define TANNOPLEX_STATE_POSITIONS 1
#define TANNOPLEX_STATE_REGISTERS 17
#define TANNOPLEX_STATE_MARKS 81
#define TANNOPLEX_STATE_VALUES 593

/* The words of a row, counted from its first. */
#define TANNOPLEX_ROW_CODE 0
#define TANNOPLEX_ROW_K 1
#define TANNOPLEX_ROW_EARLY 2
#define TANNOPLEX_ROW_LATE 3

/* Casts for the macros below, each in the language's own form. */
#ifdef __cplusplus
#define TANNOPLEX_AS_PLACE(number) (static_cast<size_t>(number))
#define TANNOPLEX_AS_WORD(number) (static_cast<uint32_t>(number))
#else
#define TANNOPLEX_AS_PLACE(number) ((size_t)(number))
#define TANNOPLEX_AS_WORD(number) ((uint32_t)(number))
#endif

/*
 * The place of one word, a size_t: table[TANNOPLEX_TABLE_ROW(a, i) + TANNOPLEX_ROW_EARLY] is the
 * early of row i of agent a. Nothing is checked: an agent is below TANNOPLEX_AGENTS, a row below
 * TANNOPLEX_ROWS and a register below TANNOPLEX_REGISTERS, else the place is another's or none (the
 * place of agent 16's position is that of a register of agent 0).
 */
#define TANNOPLEX_TABLE_ROW_COUNT(agent) (TANNOPLEX_TABLE_ROW_COUNTS + TANNOPLEX_AS_PLACE(agent))
#define TANNOPLEX_TABLE_REGISTER(agent, reg)                                                       \
    (TANNOPLEX_TABLE_REGISTERS + TANNOPLEX_REGISTERS * TANNOPLEX_AS_PLACE(agent) +                 \
     TANNOPLEX_AS_PLACE(reg))
#define TANNOPLEX_TABLE_ROW(agent, row)                                                            \
    (TANNOPLEX_TABLE_ROWS + TANNOPLEX_ROW_WORDS * (TANNOPLEX_ROWS * TANNOPLEX_AS_PLACE(agent) +    \
                                                   TANNOPLEX_AS_PLACE(row)))
#define TANNOPLEX_STATE_POSITION(agent) (TANNOPLEX_STATE_POSITIONS + TANNOPLEX_AS_PLACE(agent))
#define TANNOPLEX_STATE_REGISTER(agent, reg)                                                       \
    (TANNOPLEX_STATE_REGISTERS + TANNOPLEX_REGISTERS * TANNOPLEX_AS_PLACE(agent) +                 \
     TANNOPLEX_AS_PLACE(reg))
#define TANNOPLEX_STATE_MARK(agent, row)                                                           \
    (TANNOPLEX_STATE_MARKS + TANNOPLEX_ROWS * TANNOPLEX_AS_PLACE(agent) + TANNOPLEX_AS_PLACE(row))
#define TANNOPLEX_STATE_VALUE(agent, row)                                                          \
    (TANNOPLEX_STATE_VALUES + TANNOPLEX_ROWS * TANNOPLEX_AS_PLACE(agent) + TANNOPLEX_AS_PLACE(row))

/* Ops. */
#define TANNOPLEX_SET 0x00
#define TANNOPLEX_ADD 0x01
#define TANNOPLEX_SUB 0x02
#define TANNOPLEX_ONES 0x03
#define TANNOPLEX_LOW 0x04
#define TANNOPLEX_SKIP 0x10
#define TANNOPLEX_JUMP 0x11
#define TANNOPLEX_SEND 0x20
#define TANNOPLEX_RECV 0x30

/* A row's first word from its four fields, each below 256, and each field from that word. */
#define TANNOPLEX_CODE(op, x, y, n)                                                                \
    (TANNOPLEX_AS_WORD(op) << 24 | TANNOPLEX_AS_WORD(x) << 16 | TANNOPLEX_AS_WORD(y) << 8 |        \
     TANNOPLEX_AS_WORD(n))
#define TANNOPLEX_CODE_OP(code) (TANNOPLEX_AS_WORD(code) >> 24)
#define TANNOPLEX_CODE_X(code) (TANNOPLEX_AS_WORD(code) >> 16 & 0xFF)
#define TANNOPLEX_CODE_Y(code) (TANNOPLEX_AS_WORD(code) >> 8 & 0xFF)
#define TANNOPLEX_CODE_N(code) (TANNOPLEX_AS_WORD(code) & 0xFF)

/* Replies. The words are those of tannoplex_replies.c; what is in parentheses is said here alone. */
#define TANNOPLEX_ACCEPTED 0            /* accepted */
#define TANNOPLEX_BUFFER_TOO_SHORT 1    /* table, state or output buffer too short */
#define TANNOPLEX_BAD_CHARACTER 2       /* a character other than 0 to 9 and A to F, or no newline:
                                           look for changed letters, spaces, a CR or a cut end */
#define TANNOPLEX_LINE_OUT_OF_PLACE 3   /* a line out of its place, or too many agents or rows */
#define TANNOPLEX_BAD_FIELD 4           /* unknown op, register above 3, n above 31, or an unused
                                           field not 0 */
#define TANNOPLEX_BAD_TARGET 5          /* a target above the row count */
#define TANNOPLEX_BAD_WINDOW 6          /* early not below late, or late above 1,000,000 */
#define TANNOPLEX_WINDOW_GOES_BACK 7    /* early or late above that of a row that it goes on to */
#define TANNOPLEX_BAD_TABLE 8           /* the table words break a rule */
#define TANNOPLEX_BAD_STATE 9           /* the state words do not fit the table */
#define TANNOPLEX_NO_SUCH_AGENT 10      /* no such agent */
#define TANNOPLEX_AGENT_ENDED 11        /* the agent has ended, or all have where one is to be
                                           picked */
#define TANNOPLEX_TIME_BELOW_CLOCK 12   /* time below the clock */
#define TANNOPLEX_TIME_BELOW_EARLY 13   /* time below the row's early */
/* 14                                      reserved: no call gives it (it stood for "stuck", which is
                                           proved never to be met: code that recovers from it can be
                                           deleted) */
#define TANNOPLEX_TIME_ABOVE_LATE 15    /* time above some unfinished agent's late */
#define TANNOPLEX_ODD_CHOICES 16        /* the list of choices has an odd number of words */
#define TANNOPLEX_INPUT_TOO_LONG 17     /* the trace program's input is above 65,536 bytes */
#define TANNOPLEX_BAD_LENGTH 18         /* too few or too many digits for the line's first byte:
                                           look for a line that was cut or joined to the next */
#define TANNOPLEX_UNKNOWN_FIRST_BYTE 19 /* no known first byte: look for an empty or cut line, one of
                                           another kind, or a missing end line before it */
#define TANNOPLEX_TEXT_TOO_LONG 20      /* the table's text is longer than the buffer: lend one of
                                           the length told */

/* What tannoplex_read answers: a reply, and the line it is about, counted from 1; 0 with
   TANNOPLEX_ACCEPTED and TANNOPLEX_BUFFER_TOO_SHORT. */
typedef struct { uint32_t reply, line; } tannoplex_told;

/* What tannoplex_write answers: a reply, and the length of the table's text in bytes, also where it
   was too long; 0 with TANNOPLEX_BUFFER_TOO_SHORT and TANNOPLEX_BAD_TABLE. */
typedef struct { uint32_t reply, length; } tannoplex_wrote;

/* What tannoplex_pick answers: a reply, and the agent and the time that it picked; 0 and 0 with a
   refusal. */
typedef struct { uint32_t reply, agent, time; } tannoplex_picked;

/* What tannoplex_run answers: a reply, and how many steps were accepted before it. */
typedef struct { uint32_t reply, count; } tannoplex_ran;

/* What tannoplex_trace answers: the reply number in the output's last line, and how many bytes were
   written; 1 and 0 where the output buffer is too short. */
typedef struct { uint32_t reply; size_t length; } tannoplex_traced;

/*
 * Reads the text of a table. Text is lines of upper-case hexadecimal, numbers high byte first, each
 * line ended by one newline byte:
 *   00, agent, four registers of 4 bytes                    opens an agent; 0, 1, 2 and so on
 *   01, agent, op, x, y, n, k (4), early (4), late (4)      next row of the open agent
 *   FF                                                      the end, and the last line
 * A line with another character or without its newline is refused with 2, whatever else is wrong
 * with it; one of digits alone with 18 where it begins as one of these three and is not as long (36,
 * 36 and 2 digits), and with 19 where it begins otherwise or has fewer than two digits; a good one
 * that is out of place with 3. What follows the end line is not looked at: it is 3.
 * Replies: 1; then 2, 18, 19 or 3 for the earliest line; then 4, 5 or 6 for the first row of all;
 * then, where no row of any agent has one of these, 7 for the first row that goes on to one whose
 * early or late is below its own, told with its own line and not that of the other. Where it is
 * accepted all words of the table are written.
 */
tannoplex_told tannoplex_read(const uint8_t *text, size_t text_len, uint32_t *table,
                              size_t table_len);

/*
 * Writes the text of a table into the buffer and tells its length: 37 bytes for each agent and each
 * row, and 3 for the end line. There is one text for a table: tannoplex_read of what was written
 * gives the same words back, and a text that tannoplex_read accepts is written out again byte for
 * byte. Bytes of the buffer after the text stay as they were, and no zero byte is added.
 * Replies: 1 for too few words of the table, 8; then 20 where the text is longer than the buffer. A
 * buffer of the length told is long enough, and one of TANNOPLEX_TABLE_TEXT_BYTES for every table.
 */
tannoplex_wrote tannoplex_write(const uint32_t *table, size_t table_len, uint8_t *text,
                                size_t text_len);

/* Checks the words of a table. Replies: 1, 8. What tannoplex_read accepts, this accepts. */
uint32_t tannoplex_check(const uint32_t *table, size_t table_len);

/*
 * Makes the start state of a table: clock 1, positions 0, the table's registers, no marks.
 * Replies: 1, 8.
 */
uint32_t tannoplex_start(const uint32_t *table, size_t table_len, uint32_t *state,
                         size_t state_len);

/*
 * Picks a choice that tannoplex_step accepts: of the agents that have not ended the one whose row has
 * the least late, of several the lowest, at the later of the clock and the early of that row. Nothing
 * is written. Where its reply is 0, tannoplex_step with this agent and this time on the same words
 * replies 0. From the start state this loop runs any accepted table to its end, in no more steps than
 * it has rows:
 *     while ((picked = tannoplex_pick(table, table_len, state, state_len)).reply == 0)
 *         tannoplex_step(table, table_len, state, state_len, picked.agent, picked.time);
 * It ends with 11; with 1, 8 or 9 the words were refused.
 * It is one order of many: what each agent passes through does not depend on what is picked.
 * Replies: 1, 8, 9, then 11 where all agents have ended.
 */
tannoplex_picked tannoplex_pick(const uint32_t *table, size_t table_len, const uint32_t *state,
                                size_t state_len);

/*
 * One step. The choice is accepted exactly when the agent exists and has not ended, the time is not
 * below the clock, not below the early of the agent's row, and not above the late of the row of any
 * agent that has not ended. Then the row takes effect and the clock becomes the time.
 * While any agent has not ended some choice is accepted; tannoplex_pick gives one.
 * Replies: 1, 8, 9, then 10, 11, 12, 13 and 15 in that order.
 */
uint32_t tannoplex_step(const uint32_t *table, size_t table_len, uint32_t *state,
                        size_t state_len, uint32_t agent, uint32_t time);

/*
 * A run from the start state: what the state buffer holds beforehand is of no account. A choice is
 * two words, agent and then time. The run stops at the first refusal.
 * Replies: 1, 16, 8, with count 0; then each step's 10 to 13 and 15. An empty list leaves the start
 * state.
 */
tannoplex_ran tannoplex_run(const uint32_t *table, size_t table_len, uint32_t *state,
                            size_t state_len, const uint32_t *choices, size_t choices_len);

/*
 * A trace: what the trace program does. The input is the text of a table and then lines of `02`,
 * agent, time (4 bytes), one for each choice. Written are, for each accepted step, a line of `03`,
 * agent, new position, time (4 bytes), four registers (4 bytes each); then `FE`, the reply number and
 * 2 bytes: the line number for 2 to 7, 18 and 19, zero for 17, else the count of accepted steps.
 * Bytes of the buffer after the text stay as they were. A buffer shorter than
 * TANNOPLEX_TRACE_OUTPUT_BYTES is refused with 1 before all else.
 * Choice lines are refused with 2, 18 and 19 as those of a table are, but there only `02` is known,
 * with 12 digits: once the table is accepted and before any step, with the line's number in the
 * whole input.
 */
tannoplex_traced tannoplex_trace(const uint8_t *input, size_t input_len, uint8_t *out,
                                 size_t out_len);

#ifdef __cplusplus
}
#endif

#endif
