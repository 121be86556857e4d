/*
 * What a compiler alone can tell of the headers: every macro for a place, at the ends of its part,
 * every one for a row's first word, and how the answer of three words lies. It is compiled as each
 * edition of C and C++ that the headers are for, and never run.
 */
#include "tannoplex.h"
#include "tannoplex_replies.h"
/* Once more, as where two headers of a program include them. */
#include "tannoplex.h"
#include "tannoplex_replies.h"

#if TANNOPLEX_VERSION_MAJOR == 0 && TANNOPLEX_VERSION_MINOR < 2
#error "the version cannot be told by #if"
#endif
#if TANNOPLEX_SET != 0 || TANNOPLEX_RECV != 0x30 || TANNOPLEX_TEXT_TOO_LONG != 20
#error "ops and replies cannot be told by #if"
#endif

#ifdef TANNOPLEX_STUCK
#error "14 is reserved, and has no name"
#endif

/* No compiler takes an array of -1 elements. */
#define HOLDS(name, what) typedef char name[(what) ? 1 : -1]

HOLDS(version_is_text, sizeof TANNOPLEX_VERSION >= sizeof "0.0.0");

HOLDS(row_counts, TANNOPLEX_TABLE_ROW_COUNT(0) == TANNOPLEX_TABLE_AGENTS + 1 &&
                      TANNOPLEX_TABLE_ROW_COUNT(15) == TANNOPLEX_TABLE_REGISTERS - 1);
HOLDS(table_registers, TANNOPLEX_TABLE_REGISTER(0, 0) == 17 &&
                           TANNOPLEX_TABLE_REGISTER(1, 2) == 23 &&
                           TANNOPLEX_TABLE_REGISTER(15, 3) == TANNOPLEX_TABLE_ROWS - 1);
HOLDS(rows, TANNOPLEX_TABLE_ROW(0, 0) == 81 && TANNOPLEX_TABLE_ROW(2, 3) == 81 + 4 * (32 * 2 + 3) &&
                TANNOPLEX_TABLE_ROW(15, 31) + TANNOPLEX_ROW_LATE == TANNOPLEX_TABLE_WORDS - 1);
HOLDS(words_of_a_row, TANNOPLEX_ROW_CODE == 0 && TANNOPLEX_ROW_K == 1 && TANNOPLEX_ROW_EARLY == 2 &&
                          TANNOPLEX_ROW_LATE == TANNOPLEX_ROW_WORDS - 1);

HOLDS(texts, TANNOPLEX_TABLE_TEXT_BYTES ==
                 37 * TANNOPLEX_AGENTS * (1 + TANNOPLEX_ROWS) + sizeof "FF\n" - 1);

HOLDS(picked, sizeof(tannoplex_picked) == 12 && offsetof(tannoplex_picked, reply) == 0 &&
                  offsetof(tannoplex_picked, agent) == 4 && offsetof(tannoplex_picked, time) == 8);

HOLDS(positions, TANNOPLEX_STATE_POSITION(0) == TANNOPLEX_STATE_CLOCK + 1 &&
                     TANNOPLEX_STATE_POSITION(15) == TANNOPLEX_STATE_REGISTERS - 1);
HOLDS(state_registers, TANNOPLEX_STATE_REGISTER(0, 0) == 17 &&
                           TANNOPLEX_STATE_REGISTER(1, 2) == 23 &&
                           TANNOPLEX_STATE_REGISTER(15, 3) == TANNOPLEX_STATE_MARKS - 1);
HOLDS(marks, TANNOPLEX_STATE_MARK(0, 0) == 81 && TANNOPLEX_STATE_MARK(2, 3) == 81 + 32 * 2 + 3 &&
                 TANNOPLEX_STATE_MARK(15, 31) == TANNOPLEX_STATE_VALUES - 1);
HOLDS(values, TANNOPLEX_STATE_VALUE(0, 0) == 593 && TANNOPLEX_STATE_VALUE(2, 3) == 593 + 32 * 2 + 3 &&
                  TANNOPLEX_STATE_VALUE(15, 31) == TANNOPLEX_STATE_WORDS - 1);

/* Arguments of 32 bits and of more than one word do not overflow or come apart. */
HOLDS(far_agents, TANNOPLEX_TABLE_ROW(0xFFFFFFFFu, 0) / 128 == 0xFFFFFFFFu || sizeof(size_t) < 8);
HOLDS(sums, TANNOPLEX_TABLE_ROW(1 + 1, 2 | 1) == TANNOPLEX_TABLE_ROW(2, 3) &&
                TANNOPLEX_STATE_VALUE(1 + 1, 2 | 1) == TANNOPLEX_STATE_VALUE(2, 3) &&
                2 * TANNOPLEX_STATE_MARK(0, 0) == 162);
HOLDS(places_are_sizes, sizeof(TANNOPLEX_TABLE_ROW(0, 0)) == sizeof(size_t) &&
                            sizeof(TANNOPLEX_STATE_POSITION(0)) == sizeof(size_t));

HOLDS(codes, TANNOPLEX_CODE(TANNOPLEX_RECV, 1, 2, 31) == 0x3001021F &&
                 TANNOPLEX_CODE(0xFF, 0, 0, 0) == 0xFF000000);
HOLDS(fields, TANNOPLEX_CODE_OP(0xFEFDFBF7) == 0xFE && TANNOPLEX_CODE_X(0xFEFDFBF7) == 0xFD &&
                  TANNOPLEX_CODE_Y(0xFEFDFBF7) == 0xFB && TANNOPLEX_CODE_N(0xFEFDFBF7) == 0xF7);
HOLDS(other_fields, TANNOPLEX_CODE_OP(0x01020408) == 0x01 && TANNOPLEX_CODE_X(0x01020408) == 0x02 &&
                        TANNOPLEX_CODE_Y(0x01020408) == 0x04 && TANNOPLEX_CODE_N(0x01020408) == 0x08);
HOLDS(codes_are_words, sizeof(TANNOPLEX_CODE(0, 0, 0, 0)) == sizeof(uint32_t));
