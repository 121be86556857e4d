/*
 * Runs a table to its end: from the start state, picks a choice and steps it until all agents have
 * ended.
 *
 *   loop TABLE
 *
 * TABLE is the text of a table. Prints a line for each step, the agent, the time and the agent's
 * position after it; then how many steps it took, which are no more than the table has rows, and the
 * registers that each agent ended with.
 *
 * 0 where all agents have ended, as those of an accepted table do. 1 where the table is refused, with
 * the file, the line and the reply in words. 2 where there is not one file, it cannot be read or is
 * above 65,536 bytes, or standard output cannot be written. 3 where a call replies what the header
 * rules out.
 */
#include "files.h"

static uint32_t table[TANNOPLEX_TABLE_WORDS];
static uint32_t state[TANNOPLEX_STATE_WORDS];

static tannoplex_picked pick(void)
{
    return tannoplex_pick(table, TANNOPLEX_TABLE_WORDS, state, TANNOPLEX_STATE_WORDS);
}

/* No program need look for a reply that the header rules out; this one is a test too. */
static void must_be(uint32_t reply, uint32_t expected, const char *call)
{
    if (reply != expected) {
        fprintf(stderr, "loop: %s replies %u: %s\n", call, reply, tannoplex_reply_text(reply));
        exit(3);
    }
}

int main(int argc, char **argv)
{
    if (argc != 2) {
        fprintf(stderr, "usage: loop TABLE\n");
        return 2;
    }
    read_table(argv[1], table);
    must_be(tannoplex_start(table, TANNOPLEX_TABLE_WORDS, state, TANNOPLEX_STATE_WORDS),
            TANNOPLEX_ACCEPTED, "start");

    uint32_t steps = 0;
    tannoplex_picked picked;
    for (picked = pick(); picked.reply == TANNOPLEX_ACCEPTED; picked = pick()) {
        must_be(tannoplex_step(table, TANNOPLEX_TABLE_WORDS, state, TANNOPLEX_STATE_WORDS,
                               picked.agent, picked.time),
                TANNOPLEX_ACCEPTED, "step");
        steps++;
        printf("agent %u, time %u: position %u\n", picked.agent, picked.time,
               state[TANNOPLEX_STATE_POSITION(picked.agent)]);
    }
    must_be(picked.reply, TANNOPLEX_AGENT_ENDED, "pick");

    uint32_t agents = table[TANNOPLEX_TABLE_AGENTS], rows = 0;
    for (uint32_t a = 0; a < agents; a++) {
        rows += table[TANNOPLEX_TABLE_ROW_COUNT(a)];
    }
    printf("all agents have ended in %u steps; the table has %u rows\n", steps, rows);
    for (uint32_t a = 0; a < agents; a++) {
        const uint32_t *registers = state + TANNOPLEX_STATE_REGISTER(a, 0);
        printf("agent %u: registers %08X %08X %08X %08X\n", a, registers[0], registers[1],
               registers[2], registers[3]);
    }
    if (fflush(stdout) != 0 || ferror(stdout)) {
        perror("loop");
        return 2;
    }
    return 0;
}
