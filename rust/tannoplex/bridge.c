/*
 * Calls the functions of libboard.a for a process of another machine: src/emulated.rs starts this
 * program under the toolchain's emulator, writes calls to its standard input and reads answers from
 * its standard output. It ends with its input.
 *
 * With a call comes a memory in which the lent buffers lie, and with the answer it goes back, whole
 * and as the function left it. Nothing but the function works on it: copies are slow when emulated.
 */
#include <stdio.h>
#include <stdlib.h>
#include <unistd.h>

#include "tannoplex.h"

enum { READ, CHECK, START, STEP, RUN, TRACE, WRITE, PICK };

/* What comes before the memory. Numbers are low byte first. */
struct call {
    uint32_t function, agent, time;
    uint32_t nulls;     /* bit i: buffer i is NULL */
    uint64_t begin[3];  /* where each buffer begins in the memory */
    uint64_t length[3]; /* in bytes */
    uint64_t size;      /* of the memory, in bytes */
};

/* What goes before the memory: a reply, the line, count, length or agent, and the time. */
struct answer {
    uint64_t reply, more, time;
};

static void need(int good, const char *what)
{
    if (!good) {
        fprintf(stderr, "bridge: %s\n", what);
        exit(2);
    }
}

/* Reads so many bytes; 0 where the input ends before the first. */
static int take(void *to, size_t length)
{
    for (size_t at = 0; at < length;) {
        ssize_t got = read(0, (char *)to + at, length - at);
        if (got == 0 && at == 0) {
            return 0;
        }
        need(got > 0, "a call is cut short");
        at += (size_t)got;
    }
    return 1;
}

static void give(const void *from, size_t length)
{
    for (size_t at = 0; at < length;) {
        ssize_t gone = write(1, (const char *)from + at, length - at);
        need(gone > 0, "an answer cannot be written");
        at += (size_t)gone;
    }
}

static struct answer answer_to(const struct call *call, char *memory)
{
    void *lent[3];
    size_t bytes[3], words[3];
    for (int i = 0; i < 3; i++) {
        lent[i] = call->nulls >> i & 1 ? NULL : memory + call->begin[i];
        bytes[i] = call->length[i];
        words[i] = bytes[i] / sizeof(uint32_t);
    }

    struct answer answer = {0, 0, 0};
    switch (call->function) {
    case READ: {
        tannoplex_told told = tannoplex_read(lent[0], bytes[0], lent[1], words[1]);
        answer.reply = told.reply;
        answer.more = told.line;
        break;
    }
    case CHECK:
        answer.reply = tannoplex_check(lent[0], words[0]);
        break;
    case START:
        answer.reply = tannoplex_start(lent[0], words[0], lent[1], words[1]);
        break;
    case STEP:
        answer.reply = tannoplex_step(lent[0], words[0], lent[1], words[1], call->agent, call->time);
        break;
    case RUN: {
        tannoplex_ran ran = tannoplex_run(lent[0], words[0], lent[1], words[1], lent[2], words[2]);
        answer.reply = ran.reply;
        answer.more = ran.count;
        break;
    }
    case TRACE: {
        tannoplex_traced traced = tannoplex_trace(lent[0], bytes[0], lent[1], bytes[1]);
        answer.reply = traced.reply;
        answer.more = traced.length;
        break;
    }
    case WRITE: {
        tannoplex_wrote wrote = tannoplex_write(lent[0], words[0], lent[1], bytes[1]);
        answer.reply = wrote.reply;
        answer.more = wrote.length;
        break;
    }
    case PICK: {
        tannoplex_picked picked = tannoplex_pick(lent[0], words[0], lent[2], words[2]);
        answer.reply = picked.reply;
        answer.more = picked.agent;
        answer.time = picked.time;
        break;
    }
    default:
        need(0, "there is no such function");
    }
    return answer;
}

int main(void)
{
    struct call call;
    char *memory = NULL;
    size_t room = 0;
    while (take(&call, sizeof call)) {
        if (call.size > room) {
            room = call.size;
            memory = realloc(memory, room);
            need(memory != NULL, "no memory");
        }
        need(take(memory, call.size), "a call is cut short");
        struct answer answer = answer_to(&call, memory);
        give(&answer, sizeof answer);
        give(memory, call.size);
    }
    return 0;
}
