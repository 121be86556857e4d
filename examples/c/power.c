/*
 * Reads a table, runs it over a list of choices and prints which socket has power.
 *
 *   power TABLE CHOICES
 *
 * TABLE is the text of a table as in examples/shop, whose last agent is the power agent: its
 * register 0 holds the port that it granted, 0 for none. CHOICES is lines of `02`, agent, time.
 *
 * 0 where all is accepted. 1 where the table or a choice is refused, with the file, the line or the
 * choice in it, and the reply in words. 2 where there are not two files, one cannot be read or is
 * above 65,536 bytes, or a line of CHOICES is no choice: then nothing was run.
 */
#include <string.h>

#include "files.h"

#define CHOICE_DIGITS 12
#define CHOICE_BYTES (CHOICE_DIGITS + 1)

static uint32_t table[TANNOPLEX_TABLE_WORDS];
static uint32_t state[TANNOPLEX_STATE_WORDS];
static uint32_t choices[2 * (TEXT_BYTES / CHOICE_BYTES)];

/* The number that so many hexadecimal digits stand for; *good becomes 0 where one is no digit. */
static uint32_t number(const uint8_t *digits, size_t count, int *good)
{
    static const char all[] = "0123456789ABCDEF";
    uint32_t value = 0;
    for (size_t i = 0; i < count; i++) {
        const char *digit = digits[i] == 0 ? NULL : strchr(all, digits[i]);
        if (digit == NULL) {
            *good = 0;
            return 0;
        }
        value = 16 * value + (uint32_t)(digit - all);
    }
    return value;
}

/* The choice lines in text as words; the number of words. */
static size_t read_choices(const char *name, size_t length)
{
    size_t words = 0;
    for (size_t at = 0; at < length; at += CHOICE_BYTES) {
        const uint8_t *line = text + at;
        int good = length - at >= CHOICE_BYTES && line[CHOICE_DIGITS] == '\n';
        uint32_t kind = good ? number(line, 2, &good) : 0;
        uint32_t agent = good ? number(line + 2, 2, &good) : 0;
        uint32_t time = good ? number(line + 4, 8, &good) : 0;
        if (!good || kind != 2) {
            fprintf(stderr, "%s: line %zu is no choice\n", name, words / 2 + 1);
            exit(2);
        }
        choices[words++] = agent;
        choices[words++] = time;
    }
    return words;
}

int main(int argc, char **argv)
{
    if (argc != 3) {
        fprintf(stderr, "usage: power TABLE CHOICES\n");
        return 2;
    }

    read_table(argv[1], table);
    size_t words = read_choices(argv[2], read_file(argv[2]));
    tannoplex_ran ran = tannoplex_run(table, TANNOPLEX_TABLE_WORDS, state, TANNOPLEX_STATE_WORDS,
                                      choices, words);
    printf("%u steps accepted\n", ran.count);
    if (ran.reply != TANNOPLEX_ACCEPTED) {
        fprintf(stderr, "%s: choice %u is refused with %u: %s\n", argv[2], ran.count + 1, ran.reply,
                tannoplex_reply_text(ran.reply));
        return 1;
    }

    uint32_t power = table[TANNOPLEX_TABLE_AGENTS] - 1;
    uint32_t port = state[TANNOPLEX_STATE_REGISTER(power, 0)];
    if (port == 0) {
        printf("no socket has power\n");
    } else {
        printf("socket %u has power\n", port);
    }
    return 0;
}
