/*
 * A configuration screen in small: builds a table in memory and writes its text to standard output,
 * for other tools.
 *
 *   screen
 *
 * Agent 0 sends its register 0, which is 5, under message number 7; agent 1 receives it in register
 * 1. 0 where the text is written, 1 where the table is refused, with the reply in words, 2 where
 * standard output cannot be written.
 */
#include <stdio.h>

#include "tannoplex.h"
#include "tannoplex_replies.h"

static uint32_t table[TANNOPLEX_TABLE_WORDS]; /* all 0: what is not used stays so */
static uint8_t text[TANNOPLEX_TABLE_TEXT_BYTES];

/* One row more for an agent. */
static void add_row(uint32_t agent, uint32_t code, uint32_t k, uint32_t early, uint32_t late)
{
    uint32_t *count = &table[TANNOPLEX_TABLE_ROW_COUNT(agent)];
    uint32_t *row = &table[TANNOPLEX_TABLE_ROW(agent, *count)];
    row[TANNOPLEX_ROW_CODE] = code;
    row[TANNOPLEX_ROW_K] = k;
    row[TANNOPLEX_ROW_EARLY] = early;
    row[TANNOPLEX_ROW_LATE] = late;
    ++*count;
}

int main(void)
{
    table[TANNOPLEX_TABLE_AGENTS] = 2;
    table[TANNOPLEX_TABLE_REGISTER(0, 0)] = 5;
    add_row(0, TANNOPLEX_CODE(TANNOPLEX_SEND, 0, 0, 0), 7, 1, 3);
    add_row(1, TANNOPLEX_CODE(TANNOPLEX_RECV, 1, 0, 0), 7, 4, 8);

    tannoplex_wrote wrote = tannoplex_write(table, TANNOPLEX_TABLE_WORDS, text, sizeof text);
    if (wrote.reply != TANNOPLEX_ACCEPTED) {
        fprintf(stderr, "screen: the table is refused with %u: %s\n", wrote.reply,
                tannoplex_reply_text(wrote.reply));
        return 1;
    }
    if (fwrite(text, 1, wrote.length, stdout) != wrote.length || fflush(stdout) != 0) {
        perror("screen");
        return 2;
    }
    return 0;
}
