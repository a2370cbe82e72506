#include "card_end.h"
#include "platform.h"

#include <string.h>

const char *card_words(card_fault fault)
{
    static const char *const words[] = {
        "done", "no random bytes, answered 6F00", "plaid_command declined the call, answered 6F00", "RSA failed, answered 6F00"};
    return words[fault];
}

bool card_keys(const plaid_card *card)
{
    for (size_t i = 0; i < PLAID_CARD_KEY_SETS && card->sets[i].held; i++)
        if (!platform_load_public(card->sets[i].handle))
            return false;
    return platform_load_public(card->shill_handle);
}

static void set_status(card_reply *r, size_t length, uint16_t status)
{
    r->bytes[length] = (uint8_t)(status >> 8);
    r->bytes[length + 1] = (uint8_t)status;
    r->length = length + 2;
}

/* Nothing of what was to be sent stays: an initial answer's block is a secret until it is encrypted. */
static void fail(card_reply *r, card_fault fault)
{
    platform_erase(r->bytes, sizeof r->bytes);
    r->fault = fault;
    set_status(r, 0, CARD_STATUS_FAILED);
}

void card_answer(plaid_card *card, size_t interface, const uint8_t *command, size_t command_len, const uint8_t fresh[PLAID_FRESH],
    card_reply *reply)
{
    memset(reply, 0, sizeof *reply);
    plaid_outcome o = plaid_command(*card, interface, command, command_len, fresh, PLAID_FRESH, reply->bytes, PLAID_OUTPUT);
    *card = o.card; /* always: the old card is never used again */
    reply->told = o.answer;
    reply->sum = o.sum;
    platform_erase(&o, sizeof o);
    const plaid_answer *told = &reply->told;
    if (told->number != PLAID_DONE)
        fail(reply, CARD_DECLINED);
    /* An initial answer is encrypted before it leaves, under the shill key too. */
    else if (told->length == PLAID_ANSWER_INITIAL && !platform_encrypt(told->handle, reply->bytes))
        fail(reply, CARD_NO_RSA);
    else
        set_status(reply, told->length, told->status);
}

void card_serve(plaid_card *card, size_t interface, const uint8_t *command, size_t command_len, card_reply *reply)
{
    uint8_t fresh[PLAID_FRESH];
    if (platform_fresh(fresh, card->key_length)) {
        card_answer(card, interface, command, command_len, fresh, reply);
    } else {
        memset(reply, 0, sizeof *reply);
        fail(reply, CARD_NO_RANDOM);
    }
    platform_erase(fresh, sizeof fresh);
}

int card_load_sets(plaid_card *card, const plaid_key_set *sets, size_t count)
{
    plaid_loaded next = plaid_load_sets(sets, count, *card);
    int number = next.number;
    if (number == PLAID_DONE && !card_keys(&next.card))
        number = CARD_NO_KEY; /* a set whose RSA key is missing is not taken: each session with it would end with 6F00 */
    else
        *card = next.card; /* whatever the number: declined, it is the old one */
    platform_erase(&next, sizeof next);
    return number;
}

/* Zeros in every field: no session is open. RND1 and FAKey are secrets. */
void card_reset(plaid_card *card)
{
    platform_erase(&card->session, sizeof card->session);
}
