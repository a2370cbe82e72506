#include "reader_end.h"
#include "platform.h"

#include <stdio.h>
#include <string.h>

bool reader_keys(const reader_plan *plan)
{
    for (size_t i = 0; i < plan->set_count; i++)
        if (!platform_load_private(plan->sets[i].handle))
            return false;
    return true;
}

static plaid_ids ids_of(const reader_plan *plan)
{
    plaid_ids ids;
    memset(&ids, 0, sizeof ids);
    for (size_t i = 0; i < plan->set_count && i < PLAID_LIST_IDS; i++)
        ids.ids[i] = plan->sets[i].id;
    ids.count = plan->set_count;
    return ids;
}

/* One exchange. Returns 0, and the answer's length without its status, which has to be 9000; or why there is none. */
static int ask(const reader_plan *plan, reader_session *s, const uint8_t *command, size_t command_len, uint8_t *answer, size_t room, size_t *length)
{
    s->ins = command[1];
    s->answered = plan->exchange(plan->line, command, command_len, answer, room);
    if (s->answered < 0)
        return READER_NO_ANSWER;
    if (s->answered < 2 || (size_t)s->answered > room)
        return READER_LENGTH;
    *length = (size_t)s->answered - 2;
    s->status = (uint16_t)(answer[*length] * 256 + answer[*length + 1]);
    return s->status == PLAID_ANSWER_OK ? PLAID_DONE : READER_STATUS;
}

/* The card's answer decrypted once for each set, whichever opens. A failed operation's block is zeros, which open nothing. */
static int open_answer(const reader_plan *plan, const uint8_t answer[PLAID_BLOCK], plaid_opened *opened)
{
    uint8_t blocks[PLAID_LIST_IDS][PLAID_BLOCK];
    bool all = true;
    memset(blocks, 0, sizeof blocks);
    for (size_t i = 0; i < plan->set_count && i < PLAID_LIST_IDS; i++) {
        memcpy(blocks[i], answer, PLAID_BLOCK);
        all &= platform_decrypt(plan->sets[i].handle, blocks[i]);
    }
    *opened = plaid_open(plan->key_length, ids_of(plan), blocks[0], plan->set_count * PLAID_BLOCK);
    platform_erase(blocks, sizeof blocks);
    return opened->number == PLAID_DECLINE_NONE_OPENS && !all ? READER_NO_RSA : opened->number;
}

static int initial(const reader_plan *plan, reader_session *s)
{
    uint8_t command[PLAID_LIST_COMMAND_MOST], answer[PLAID_BLOCK + 2];
    size_t length;
    plaid_written list = plaid_list(ids_of(plan), command, sizeof command);
    if (list.number != PLAID_DONE)
        return list.number;
    int number = ask(plan, s, command, list.length, answer, sizeof answer, &length);
    if (number != PLAID_DONE)
        return number;
    return length == PLAID_BLOCK ? open_answer(plan, answer, &s->opened) : READER_LENGTH;
}

static int accept_answer(const reader_plan *plan, reader_session *s, const uint8_t *answer, size_t length)
{
    plaid_accepting accepting;
    accepting.key_length = plan->key_length;
    accepting.keys_hash = s->sealed.keys_hash;
    memcpy(accepting.div_data, s->opened.div_data, PLAID_DIV_DATA);
    accepting.record_length = plan->record_length;
    s->accepted = plaid_accept(accepting, answer, length, s->work, sizeof s->work);
    platform_erase(&accepting, sizeof accepting);
    s->record = plaid_record(s->work, sizeof s->work, s->accepted);
    return s->accepted.number;
}

static int final(const reader_plan *plan, reader_session *s)
{
    uint8_t command[PLAID_FINAL_COMMAND_MOST], answer[PLAID_ANSWER_FINAL_MOST + 2];
    size_t length;
    s->sealing.key_length = plan->key_length;
    s->sealing.fa_key = plan->sets[s->opened.place].fa_key;
    memcpy(s->sealing.div_data, s->opened.div_data, PLAID_DIV_DATA);
    s->sealing.rnd1 = s->opened.rnd1;
    s->sealing.rnd2.length = s->opened.rnd1.length; /* L */
    s->sealing.mode = plan->mode;
    if (!platform_random(s->sealing.rnd2.bytes, s->sealing.rnd2.length))
        return READER_NO_RANDOM;
    s->sealed = plaid_seal(s->sealing, plan->payload, plan->payload_len, command, sizeof command);
    if (s->sealed.number != PLAID_DONE)
        return s->sealed.number;
    int number = ask(plan, s, command, s->sealed.length, answer, sizeof answer, &length);
    return number == PLAID_DONE ? accept_answer(plan, s, answer, length) : number;
}

int reader_run(const reader_plan *plan, reader_session *s)
{
    memset(s, 0, sizeof *s);
    int number = initial(plan, s);
    return number == PLAID_DONE ? final(plan, s) : number;
}

void reader_words(int number, const reader_session *s, char *to, size_t room)
{
    const char *command = s->ins == PLAID_INS_INITIAL ? "initial" : "final";
    switch (number) {
    case PLAID_DONE: snprintf(to, room, "done"); break;
    case READER_NO_KEY: snprintf(to, room, "fault %d: an RSA key is not there", number); break;
    case READER_NO_ANSWER: snprintf(to, room, "fault %d: the line gave no answer to the %s command", number, command); break;
    case READER_STATUS: snprintf(to, room, "fault %d: status %04X to the %s command", number, s->status, command); break;
    case READER_LENGTH: snprintf(to, room, "fault %d: %ld bytes in answer to the %s command", number, s->answered, command); break;
    case READER_NO_RANDOM: snprintf(to, room, "fault %d: the platform has no random bytes", number); break;
    case READER_NO_RSA: snprintf(to, room, "fault %d: the platform's RSA failed", number); break;
    default: snprintf(to, room, "number %d", number);
    }
}

void reader_forget(reader_session *s)
{
    platform_erase(s, sizeof *s);
}
