/* The reader's end: a session with one card, from its key sets to the record. */
#ifndef READER_END_H
#define READER_END_H

#include "plaid.h"

/* Sends a command and gets the answer with its status. Returns how many bytes it has, of which the first answer_room are written; -1: none. */
typedef long reader_exchange(void *line, const uint8_t *command, size_t command_len, uint8_t *answer, size_t answer_room);

/* What the reader wants, and how it reaches the card. */
typedef struct {
    size_t key_length;         /* L, the card's too: 16, 24 or 32 */
    const plaid_key_set *sets; /* in order of preference; a handle names the platform's private RSA key */
    size_t set_count;          /* 1 to 16 */
    plaid_op_mode_id mode;
    size_t record_length;      /* of that mode, as cards are loaded with it */
    const uint8_t *payload;
    size_t payload_len;
    reader_exchange *exchange;
    void *line;
} reader_plan;

/* What a session came to. */
typedef struct {
    plaid_opened opened;
    plaid_sealing sealing;
    plaid_sealed sealed;
    plaid_accepted accepted;
    uint8_t work[PLAID_ANSWER_FINAL_MOST];
    plaid_part record;                 /* of the work buffer; empty where there is none */
    uint8_t ins;                       /* of the last command sent */
    long answered;                     /* its answer's length with the status; -1: none */
    uint16_t status;                   /* its answer's status */
} reader_session;

/* Why there is no record, beside the numbers of plaid.h, which stay below these. */
enum {
    READER_NO_KEY = 101, /* an RSA key is not there */
    READER_NO_ANSWER,   /* the line gave no answer */
    READER_STATUS,      /* the answer's status is not 9000 */
    READER_LENGTH,      /* the answer has a length that none has */
    READER_NO_RANDOM,   /* the platform has no random bytes */
    READER_NO_RSA       /* a private operation failed, and no block opened */
};

/* Loads the private RSA keys of a plan's handles. False where one is not there. */
bool reader_keys(const reader_plan *plan);

/* Returns 0 where the record is there; else the number of the decline, or READER_... Behind it the session holds secrets. */
int reader_run(const reader_plan *plan, reader_session *s);

/* What reader_run returned, in words. */
void reader_words(int number, const reader_session *s, char *to, size_t room);

/* Erases a session. */
void reader_forget(reader_session *s);

#endif
