/* What the examples that are given files share: a file's bytes, and the table in one. What cannot be
   read ends the program with 2, a table that is refused with 1, each told on standard error. */
#include <stdio.h>
#include <stdlib.h>

#include "tannoplex.h"
#include "tannoplex_replies.h"

#define TEXT_BYTES TANNOPLEX_TRACE_INPUT_BYTES

static uint8_t text[TEXT_BYTES];

/* The bytes of a file into text; their number. */
static size_t read_file(const char *name)
{
    FILE *file = fopen(name, "rb");
    if (file == NULL) {
        perror(name);
        exit(2);
    }
    size_t length = fread(text, 1, sizeof text, file);
    if (ferror(file) || fgetc(file) != EOF) {
        fprintf(stderr, "%s: cannot be read, or is above %d bytes\n", name, TEXT_BYTES);
        exit(2);
    }
    fclose(file);
    return length;
}

/* The table in a file into TANNOPLEX_TABLE_WORDS words. */
static void read_table(const char *name, uint32_t *table)
{
    size_t length = read_file(name);
    tannoplex_told told = tannoplex_read(text, length, table, TANNOPLEX_TABLE_WORDS);
    if (told.reply != TANNOPLEX_ACCEPTED) {
        fprintf(stderr, "%s: line %u is refused with %u: %s\n", name, told.line, told.reply,
                tannoplex_reply_text(told.reply));
        exit(1);
    }
}
