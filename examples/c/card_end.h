/* The card's end: one command, from its bytes to the bytes of the answer; a load of key sets; a reset. */
#ifndef CARD_END_H
#define CARD_END_H

#include "plaid.h"

/* An answer as it is sent, with its status at the end. */
#define CARD_ANSWER_MOST (PLAID_OUTPUT + 2)

/* The status where the platform failed, with no bytes before it (ISO/IEC 7816-4: no precise diagnosis). A reader gets an answer to everything. */
#define CARD_STATUS_FAILED 0x6F00

/* Why the status is 6F00. */
typedef enum {
    CARD_DONE,
    CARD_NO_RANDOM, /* no fresh bytes */
    CARD_DECLINED,  /* plaid_command declined them, the interface or the output */
    CARD_NO_RSA     /* RSA failed */
} card_fault;

typedef struct {
    card_fault fault;
    size_t length; /* at least 2 */
    uint8_t bytes[CARD_ANSWER_MOST];
    plaid_answer told; /* the counts, which stay here, as does the sum */
    uint32_t sum;
} card_reply;

/* A fault in words. */
const char *card_words(card_fault fault);

/* Loads the public RSA keys of a card's handles. False where one is not there. */
bool card_keys(const plaid_card *card);

/*
 * Runs a command that came in by this interface, PLAID_INTERFACE_.., with these fresh bytes, puts the next card in the place of the old one
 * and gives what is to be sent. Where RSA failed the next card stands all the same: the session that it may have opened has an RND1 that
 * nobody was told.
 */
void card_answer(plaid_card *card, size_t interface, const uint8_t *command, size_t command_len, const uint8_t fresh[PLAID_FRESH],
    card_reply *reply);

/* The same with fresh bytes of its own, for the card's L, which are erased. Without any the card stays as it was. */
void card_serve(plaid_card *card, size_t interface, const uint8_t *command, size_t command_len, card_reply *reply);

/* An RSA key is not there: a number beside those of plaid.h, which stay below it. */
#define CARD_NO_KEY 101

/*
 * Puts key sets in the place of those that the card holds, once the public RSA keys of their handles are loaded. Returns 0; or the number
 * of the decline or CARD_NO_KEY, and the card holds the old ones. Nothing is sent. A session that is open goes on under its old FAKey. A
 * product whose memory does not outlive the power writes the new table to lasting memory here, whole or not at all.
 */
int card_load_sets(plaid_card *card, const plaid_key_set *sets, size_t count);

/*
 * A power cycle or a reset: the session ends, and the counts of failed tries stay. A product whose memory does not outlive the power writes
 * them to lasting memory in card_answer, before the answer is sent, each time a final command ran.
 */
void card_reset(plaid_card *card);

#endif
