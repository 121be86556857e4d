/*
 * The replies in words, for messages and logs. They are not in the archive, which holds what is
 * proved and nothing else: compile tannoplex_replies.c with your program.
 */
#ifndef TANNOPLEX_REPLIES_H
#define TANNOPLEX_REPLIES_H

#include <stdint.h>

#ifdef __cplusplus
extern "C" {
#endif

/* The words of a reply's number, or of the one that is reserved; "unknown reply" for any other, never
   NULL. */
const char *tannoplex_reply_text(uint32_t reply);

#ifdef __cplusplus
}
#endif

#endif
