#include "bench.h"
#include "platform.h"

#include <string.h>

static const char payload[] = "FEEDER-21A";

/* The line between the two ends: a reader_exchange. */
static long exchange(void *line, const uint8_t *command, size_t command_len, uint8_t *answer, size_t answer_room)
{
    bench *b = line;
    bench_exchange *x = b->exchanges++ == 0 ? &b->initial : &b->final;
    uint8_t fresh[PLAID_FRESH];
    card_reply others;
    memcpy(x->command, command, command_len);
    x->command_len = command_len;
    if (b->fault.damage && command[1] == PLAID_INS_FINAL)
        x->command[command_len - 2] ^= 0x01; /* the last data byte; Le stands behind it */
    if (!platform_fresh(fresh, b->card.key_length))
        return -1;
    card_answer(&b->card, b->interface, x->command, command_len, fresh, &x->reply);
    card_answer(&b->other, b->interface, x->command, command_len, fresh, &others);
    platform_erase(fresh, sizeof fresh);
    size_t length = x->reply.length;
    if (x->reply.fault != CARD_DONE || length > answer_room)
        return -1;
    x->answer_len = length - 2;
    x->as_other_card = others.length == length && memcmp(x->reply.bytes, others.bytes, length) == 0;
    x->in_session = b->card.session.opened;
    x->set = b->card.session.id;
    memcpy(answer, x->reply.bytes, length);
    if (b->fault.between && x == &b->initial)
        b->fault.between(b, b->fault.told);
    return (long)length;
}

/*
 * The initial command as another maker's reader may write it: a list without a length, which ends with 00 00, and in its last entry the
 * length 2 in two bytes. plaid_list never writes these forms. Returns how long the command is.
 */
static size_t write_other_list(const plaid_key_set *sets, size_t count, uint8_t command[PLAID_COMMAND_MOST])
{
    static const uint8_t head[] = {0x00, PLAID_INS_INITIAL, 0x00, 0x00, 0x00, 0x30, 0x80};
    size_t at = sizeof head;
    memcpy(command, head, sizeof head);
    for (size_t i = 0; i < count; i++) {
        command[at++] = 0x04;
        if (i + 1 == count) {
            command[at++] = 0x82;
            command[at++] = 0x00;
        }
        command[at++] = 0x02;
        command[at++] = (uint8_t)(sets[i].id.value >> 8);
        command[at++] = (uint8_t)sets[i].id.value;
    }
    command[at++] = 0x00;
    command[at++] = 0x00;
    command[4] = (uint8_t)(at - 5); /* Lc */
    command[at++] = 0x00;           /* Le */
    return at;
}

/* The line with that list in the place of our reader's. The rest goes over it as it is. */
static long other_exchange(void *line, const uint8_t *command, size_t command_len, uint8_t *answer, size_t answer_room)
{
    const bench *b = line;
    uint8_t other[PLAID_COMMAND_MOST];
    if (command[1] != PLAID_INS_INITIAL)
        return exchange(line, command, command_len, answer, answer_room);
    return exchange(line, other, write_other_list(b->sets, b->plan.set_count, other), answer, answer_room);
}

/* Where the reader has stopped, the bench sends a final command of its own, of the usual length and with random data. */
static bool send_random_final(bench *b)
{
    uint8_t command[PLAID_FINAL_COMMAND_MOST] = {0x00, PLAID_INS_FINAL}, answer[PLAID_ANSWER_FINAL_MOST + 2];
    size_t length = PLAID_FINAL_COMMAND_LEAST(b->card.key_length);
    command[4] = (uint8_t)(length - 6);
    return platform_random(command + 5, length - 6) && exchange(b, command, length, answer, sizeof answer) > 0;
}

/* The reader's L: the card's, unless that is what goes wrong. */
static size_t reader_length(const bench *b)
{
    size_t card = b->card.key_length;
    return b->fault.no_length ? 20 : b->fault.other_length ? (card == 32 ? 16 : card + 8) : card;
}

static void prepare_reader(bench *b, const example_mode *mode)
{
    b->plan.key_length = reader_length(b);
    (b->fault.no_common_set ? example_strange_reader : b->fault.new_key ? example_new_reader : example_reader)(b->plan.key_length, b->sets);
    if (b->fault.wrong_key)
        b->sets[1].fa_key.bytes[0] ^= 0x01;
    if (b->fault.short_key)
        b->sets[1].fa_key.length--;
    b->plan.sets = b->sets;
    b->plan.set_count = EXAMPLE_READER_SETS;
    b->plan.mode = b->fault.unknown_mode ? example_unknown.id : mode->id;
    b->plan.record_length = mode->record_length;
    if (b->fault.wrong_length)
        b->plan.record_length = 16 * (b->card.reply_size - 2) + 1;
    b->plan.payload = (const uint8_t *)payload;
    b->plan.payload_len = strlen(payload);
    b->plan.exchange = exchange;
    b->plan.line = b;
}

static bool load_cards(bench *b, size_t key_length)
{
    plaid_loaded card = example_card(key_length), other = example_other_card(key_length);
    b->card = card.card;
    b->other = other.card;
    bool ok = card.number == PLAID_DONE && other.number == PLAID_DONE;
    platform_erase(&card, sizeof card);
    platform_erase(&other, sizeof other);
    return ok;
}

bool bench_keys(void)
{
    static bench b;
    static const bench_fault none, strange = {.no_common_set = true};
    bool ok = load_cards(&b, EXAMPLE_KEY_LENGTH) && card_keys(&b.card) && card_keys(&b.other);
    b.fault = none;
    prepare_reader(&b, &example_wiegand);
    ok = ok && reader_keys(&b.plan);
    b.fault = strange;
    prepare_reader(&b, &example_wiegand);
    ok = ok && reader_keys(&b.plan);
    bench_forget(&b);
    return ok;
}

/* Cards and reader before a session. */
static bool prepare(bench *b, size_t interface, size_t key_length, const example_mode *mode, bench_fault fault)
{
    memset(b, 0, sizeof *b);
    b->interface = interface;
    b->fault = fault;
    if (!load_cards(b, key_length))
        return false;
    prepare_reader(b, mode);
    return true;
}

static bool run(bench *b)
{
    b->number = reader_run(&b->plan, &b->session);
    if (b->number >= READER_NO_KEY)
        return false;
    return b->exchanges == 2 || send_random_final(b);
}

bool bench_run(bench *b, size_t interface, size_t key_length, const example_mode *mode, bench_fault fault)
{
    return prepare(b, interface, key_length, mode, fault) && run(b);
}

bool bench_run_again(bench *b, size_t interface, const example_mode *mode, bench_fault fault)
{
    b->interface = interface;
    b->fault = fault;
    b->exchanges = 0;
    prepare_reader(b, mode);
    return run(b);
}

void bench_load_sets(bench *b, const plaid_key_set *sets, size_t count)
{
    plaid_key_set other;
    example_new_other_set(b->other.key_length, &other);
    b->before = b->card;
    b->loaded = card_load_sets(&b->card, sets, count);
    b->behind = b->card;
    card_load_sets(&b->other, &other, 1);
    platform_erase(&other, sizeof other);
}

bool bench_run_other_list(bench *b, size_t key_length, const example_mode *mode)
{
    static const bench_fault none;
    if (!prepare(b, PLAID_INTERFACE_CONTACT, key_length, mode, none))
        return false;
    b->plan.exchange = other_exchange;
    return run(b);
}

/* A load with another L than the example's, or a key of another length. */
static uint8_t load_number(const bench *good, size_t key_length, size_t fa_key, size_t shill_key)
{
    plaid_given g;
    memset(&g, 0, sizeof g);
    g.key_length = key_length;
    g.modes[0] = (plaid_mode){example_wiegand.id, 0, example_wiegand.record_length};
    g.mode_count = 1;
    memcpy(g.shill_key.bytes, good->card.shill_key, PLAID_VALUE_MOST);
    g.shill_key.length = (uint8_t)shill_key;
    g.shill_handle = good->card.shill_handle;
    plaid_key_set set = good->sets[1];
    set.fa_key.length = (uint8_t)fa_key;
    uint8_t number = plaid_load(&set, 1, g, good->card.area, PLAID_CARD_AREA).number;
    platform_erase(&g, sizeof g);
    platform_erase(&set, sizeof set);
    return number;
}

static uint8_t open_number(const bench *good, size_t key_length)
{
    static const uint8_t block[PLAID_BLOCK];
    plaid_ids ids = {{good->sets[1].id}, 1};
    return plaid_open(key_length, ids, block, sizeof block).number;
}

/* A Seal with the example's keys, each of so many bytes; 0 where it is not declined. */
static uint8_t seal_number(const bench *good, size_t key_length, size_t fa_key, size_t rnd1, size_t rnd2)
{
    uint8_t command[PLAID_FINAL_COMMAND_MOST];
    plaid_sealing of = good->session.sealing;
    of.key_length = key_length;
    of.fa_key.length = (uint8_t)fa_key;
    of.rnd1.length = (uint8_t)rnd1;
    of.rnd2.length = (uint8_t)rnd2;
    uint8_t number = plaid_seal(of, good->plan.payload, 0, command, sizeof command).number;
    platform_erase(&of, sizeof of);
    return number;
}

static uint8_t accept_number(const bench *good, size_t key_length, size_t keys_hash)
{
    uint8_t work[PLAID_ANSWER_FINAL_MOST];
    plaid_accepting of;
    memset(&of, 0, sizeof of);
    of.key_length = key_length;
    of.keys_hash = good->session.sealed.keys_hash;
    of.keys_hash.length = (uint8_t)keys_hash;
    memcpy(of.div_data, good->card.div_data, PLAID_DIV_DATA);
    of.record_length = good->plan.record_length;
    plaid_accepted a = plaid_accept(of, good->final.reply.bytes, good->final.answer_len, work, sizeof work);
    platform_erase(&of, sizeof of);
    return a.number;
}

size_t bench_decline_all(const bench *good, bench_decline to[BENCH_DECLINES])
{
    size_t l = good->card.key_length, count = 0;
#define DECLINE(function, given, number, wanted) to[count++] = (bench_decline){function, given, number, wanted}
    DECLINE("plaid_load", "L is 20", load_number(good, 20, 20, 20), PLAID_DECLINE_KEY_LENGTH);
    DECLINE("plaid_load", "a FAKey of a byte too few", load_number(good, l, l - 1, l), PLAID_DECLINE_VALUE_LENGTH);
    DECLINE("plaid_load", "a shill key of a byte too many", load_number(good, l, l, l + 1), PLAID_DECLINE_VALUE_LENGTH);
    DECLINE("plaid_open", "L is 20", open_number(good, 20), PLAID_DECLINE_KEY_LENGTH);
    DECLINE("plaid_seal", "L is 20", seal_number(good, 20, 20, 20, 20), PLAID_DECLINE_KEY_LENGTH);
    DECLINE("plaid_seal", "a FAKey of a byte too few", seal_number(good, l, l - 1, l, l), PLAID_DECLINE_VALUE_LENGTH);
    DECLINE("plaid_seal", "RND1 of a byte too many", seal_number(good, l, l, l + 1, l), PLAID_DECLINE_VALUE_LENGTH);
    DECLINE("plaid_seal", "RND2 that says 255 bytes", seal_number(good, l, l, l, 255), PLAID_DECLINE_VALUE_LENGTH);
    DECLINE("plaid_accept", "L is 20", accept_number(good, 20, 20), PLAID_DECLINE_KEY_LENGTH);
    DECLINE("plaid_accept", "KeysHash of a byte too few", accept_number(good, l, l - 1), PLAID_DECLINE_VALUE_LENGTH);
#undef DECLINE
    return count;
}

void bench_forget(bench *b)
{
    platform_erase(b, sizeof *b);
}
