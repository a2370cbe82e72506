/*
 * A bench on which a card and a reader hold one session. The bench keeps what goes over the line. Beside the card stands another one, with
 * other keys and records but the same shill keys, L and reply size, which gets the same commands and, as an experiment, the same fresh bytes.
 */
#ifndef BENCH_H
#define BENCH_H

#include "card_end.h"
#include "example.h"
#include "reader_end.h"

/* A command and its answer. */
typedef struct {
    uint8_t command[PLAID_COMMAND_MOST];
    size_t command_len;
    card_reply reply;
    size_t answer_len;  /* without the status */
    bool as_other_card; /* the other card sent the same bytes */
    bool in_session;    /* the card has an open session behind it, */
    plaid_key_set_id set; /* of this key set */
} bench_exchange;

/* What is done between the two commands of a session, once the first is answered; and what it is told. */
typedef struct bench bench;
typedef void bench_between(bench *b, const void *told);

/* How a session goes wrong, or what else falls into it; with nothing set it is a plain one. */
typedef struct {
    bool no_common_set;
    bool wrong_key;
    bool unknown_mode;
    bool damage;       /* a bit of the final command's last block */
    bool wrong_length; /* the reader takes the record for longer than what the card sends before DivData */
    bool other_length; /* the reader has another L, and the keys to it */
    bool no_length;    /* the reader's L is none of the three */
    bool short_key;    /* the reader's FAKey has a byte too few */
    bool new_key;      /* the reader has the FAKey that a key change brings */
    bench_between *between;
    const void *told;
} bench_fault;

struct bench {
    plaid_card card, other;
    plaid_card before, behind; /* the card before the last load of key sets, and behind it, */
    int loaded;                /* and what card_load_sets returned */
    size_t interface; /* that the commands come in by, for both cards */
    bench_fault fault;
    plaid_key_set sets[PLAID_LIST_IDS]; /* the reader's */
    reader_plan plan;
    reader_session session;
    int number; /* what reader_run returned */
    size_t exchanges;
    bench_exchange initial, final;
};

/* Loads the RSA keys of the cards and the readers. False where one is not there. */
bool bench_keys(void);

/* Runs a session for a mode, with keys of so many bytes, on new cards. False where a load was declined or the platform failed. */
bool bench_run(bench *b, size_t interface, size_t key_length, const example_mode *mode, bench_fault fault);

/* The next session of the same cards. */
bool bench_run_again(bench *b, size_t interface, const example_mode *mode, bench_fault fault);

/* A key change: loads key sets onto the card, and another set of its own onto the other one. */
void bench_load_sets(bench *b, const plaid_key_set *sets, size_t count);

/*
 * One with new cards over the contacts, nothing wrong, and the list of another maker's reader in the place of ours: the same KeySetIDs,
 * other forms of length.
 */
bool bench_run_other_list(bench *b, size_t key_length, const example_mode *mode);

/* What the library has to decline by 21 or 22, one call for each. */
typedef struct {
    const char *function, *given;
    uint8_t number, wanted;
} bench_decline;

/* Tries them, with all else as in a session that went well. Returns how many. */
#define BENCH_DECLINES 10
size_t bench_decline_all(const bench *good, bench_decline to[BENCH_DECLINES]);

/* Erases it. */
void bench_forget(bench *b);

#endif
