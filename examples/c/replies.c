/*
 * Prints each reply's number and its words, a line for each, up to the first number that is none.
 * Fails where a number far above is taken for a reply.
 */
#include <stdio.h>
#include <string.h>

#include "tannoplex_replies.h"

int main(void)
{
    const char *unknown = tannoplex_reply_text(UINT32_MAX);
    if (strcmp(unknown, "unknown reply") != 0) {
        fprintf(stderr, "replies: %u is told as: %s\n", UINT32_MAX, unknown);
        return 1;
    }
    for (uint32_t reply = 0; strcmp(tannoplex_reply_text(reply), unknown) != 0; reply++) {
        printf("%u %s\n", reply, tannoplex_reply_text(reply));
    }
    return 0;
}
