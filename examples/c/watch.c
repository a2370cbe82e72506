/*
 * Sessions to watch: a card and a reader on the bench, for each of the card's two records, each message with its fields in words; one that
 * another maker's list opens; one with keys of 24 bytes, one with keys of 32; one that a key change falls into, and the next one of that
 * card; then one refused session of each kind, as a stranger sees it and as the key holder sees it; a card's counts of failed tries; and
 * what the library declines for its lengths. Each record stands in the door system's form too; at the end such texts become the records
 * again, and others are declined. Exit status 1 where something was not as expected.
 *
 *   watch [KEYS]      KEYS: the folder of RSA keys; none: the stand-in, which the output names
 */
#include "bench.h"
#include "door.h"
#include "platform.h"

#include <stdio.h>
#include <string.h>

#define ROW 24   /* bytes to a row */
#define PIECE 16 /* of a field */

static void show_bytes(const uint8_t *bytes, size_t count)
{
    for (size_t i = 0; i < count; i++)
        printf("%s%02X", i > 0 ? " " : "", bytes[i]);
}

static void show_rows(const uint8_t *bytes, size_t count)
{
    for (size_t i = 0; i < count; i += ROW) {
        printf("    ");
        show_bytes(bytes + i, count - i < ROW ? count - i : ROW);
        printf("\n");
    }
}

/* A field: its name, its bytes, and what it says. */
static void show_field(const char *name, const uint8_t *bytes, size_t count, const char *note)
{
    for (; count > PIECE; bytes += PIECE, count -= PIECE, name = "") {
        printf("    %-10s  ", name);
        show_bytes(bytes, PIECE);
        printf("\n");
    }
    printf("    %-10s  ", name);
    show_bytes(bytes, count);
    if (note[0])
        printf("%*s%s", count < 5 ? (int)(14 - 3 * count) : 2, "", note);
    printf("\n");
}

static void show_value(const char *name, const plaid_value *value)
{
    show_field(name, value->bytes, value->length, "");
}

static void show_sets(const char *name, const plaid_card *card)
{
    printf("    %-10s  ", name);
    for (size_t i = 0; i < PLAID_CARD_KEY_SETS && card->sets[i].held; i++)
        printf("%s%04X (RSA key %02X)", i > 0 ? ", " : "", card->sets[i].id.value, card->sets[i].handle);
    printf("\n");
}

static void show_card(const plaid_card *card)
{
    size_t filled = 16 * (card->reply_size - 2);
    printf("THE CARD AS LOADED\n");
    show_sets("key sets", card);
    printf("    modes       ");
    for (size_t i = 0; i < PLAID_CARD_MODES && card->modes[i].held; i++)
        printf("%s%04X (record of %zu bytes)", i > 0 ? ", " : "", card->modes[i].id.value, card->modes[i].len);
    printf("\n    key length  L = %zu: FAKeys, shill key, RND1, RND2 and KeysHash have %zu bytes\n", card->key_length, card->key_length);
    show_field("DivData", card->div_data, PLAID_DIV_DATA, "");
    printf("    shill keys  RSA key %02X and an AES key, for answers to strangers\n", card->shill_handle);
    printf("    reply size  %zu blocks: every final answer has %zu bytes, and a record of\n", card->reply_size, 16 * card->reply_size);
    printf("                under %zu bytes is followed by zero bytes, up to %zu in all\n", filled, filled);
}

/* A command's bytes and the first four of its fields. */
static void show_command(const bench_exchange *x, const char *name)
{
    char note[32];
    show_rows(x->command, x->command_len);
    show_field("CLA", x->command, 1, "");
    show_field("INS", x->command + 1, 1, name);
    show_field("P1 P2", x->command + 2, 2, "");
    snprintf(note, sizeof note, "%d data bytes", x->command[4]);
    show_field("Lc", x->command + 4, 1, note);
}

/* How many bytes a tag and its length have. 80 has none behind it. */
static size_t head_length(const uint8_t *at)
{
    return at[1] > 0x80 ? 2 + at[1] - 0x80u : 2;
}

/* The list, which is well formed, in whatever form its lengths are. */
static void show_list(const bench *b, const uint8_t *at)
{
    bool indefinite = at[1] == 0x80;
    char note[64];
    snprintf(note, sizeof note, "a list of %zu entries%s", b->plan.set_count, indefinite ? ", up to 00 00: indefinite form" : "");
    show_field("data", at, head_length(at), note);
    at += head_length(at);
    for (size_t i = 0; i < b->plan.set_count; i++) {
        size_t head = head_length(at);
        snprintf(note, sizeof note, "KeySetID %04X%s", b->sets[i].id.value, head > 2 ? ", its length in a long form" : "");
        show_field("", at, head + 2, note);
        at += head + 2;
    }
    if (indefinite)
        show_field("", at, 2, "end of the list");
}

static void show_initial(const bench *b)
{
    const bench_exchange *x = &b->initial;
    printf("\n1  READER TO CARD: initial command, %zu bytes\n", x->command_len);
    show_command(x, "initial");
    show_list(b, x->command + 5);
    show_field("Le", x->command + x->command_len - 1, 1, "");
}

static void show_opened(const bench *b)
{
    const plaid_opened *o = &b->session.opened;
    printf("\n2  CARD TO READER: %zu bytes, status %04X\n", b->initial.answer_len, b->initial.reply.told.status);
    show_rows(b->initial.reply.bytes, b->initial.answer_len);
    printf("    One padded block, encrypted under RSA key %02X. The reader decrypts it\n", b->initial.reply.told.handle);
    printf("    with the private key of each listed set:\n");
    for (size_t i = 0; i <= o->place; i++)
        printf("    entry %zu     KeySetID %04X  %s\n", i, b->sets[i].id.value, i < o->place ? "does not open" : "opens, so this set wins");
    show_field("DivData", o->div_data, PLAID_DIV_DATA, "");
    show_value("RND1", &o->rnd1);
}

/* The FAKey of a KeySetID in a card's table; NULL where the card does not hold it. */
static const uint8_t *key_in_table(const plaid_card *card, plaid_key_set_id id)
{
    for (size_t i = 0; i < PLAID_CARD_KEY_SETS; i++)
        if (card->sets[i].held && card->sets[i].id.value == id.value)
            return card->sets[i].fa_key;
    return NULL;
}

/* A load of key sets that gave the open session's set another FAKey. */
static void show_change(const bench *b)
{
    const plaid_session *open = &b->behind.session;
    printf("\nBETWEEN THE TWO COMMANDS: key sets are loaded onto the card. Nothing is sent.\n");
    show_sets("old table", &b->before);
    show_sets("new table", &b->behind);
    show_field("old FAKey", open->fa_key, b->card.key_length, "in the session");
    show_field("new FAKey", key_in_table(&b->behind, open->id), b->card.key_length, "in the table");
    printf("    The session was opened with set %04X as the old table had it, and keeps\n", open->id.value);
    printf("    that FAKey up to its end.\n");
}

static void show_final(const bench *b)
{
    const bench_exchange *x = &b->final;
    const plaid_sealing *of = &b->session.sealing;
    printf("\n3  READER TO CARD: final command, %zu bytes\n", x->command_len);
    show_command(x, "final");
    printf("    data        STR2, enciphered under the card's diversified key:\n");
    printf("    - OpModeID  %04X\n", of->mode.value);
    show_value("- RND2", &of->rnd2);
    printf("    - payload   %zu bytes: %.*s\n", b->plan.payload_len, (int)b->plan.payload_len, (const char *)b->plan.payload);
    show_value("- KeysHash", &b->session.sealed.keys_hash);
    printf("    - padding   80 and %zu bytes 00\n", x->command[4] - (2 + 2 * of->key_length + b->plan.payload_len) - 1);
    show_field("Le", x->command + x->command_len - 1, 1, "");
}

/* How many bytes of the deciphered answer stand before DivData: the record and its filler. */
static size_t body_length(const bench *b)
{
    size_t end = b->final.answer_len;
    while (end > 0 && b->session.work[end - 1] == 0)
        end--;
    return end < PLAID_DIV_DATA + 1 ? 0 : end - PLAID_DIV_DATA - 1; /* the padding begins with 80 */
}

/* A record handed back, and its door form. */
static void show_handed_back(const uint8_t *record, size_t length)
{
    show_field("record", record, length, "handed back");
    printf("    door form   ");
    door_write(stdout, record, length);
    printf("\n");
}

static void show_record(const bench *b)
{
    const plaid_part *part = &b->session.record;
    const uint8_t *record = b->session.work + part->start;
    size_t body = body_length(b);
    printf("\n4  CARD TO READER: %zu bytes, status %04X\n", b->final.answer_len, b->final.reply.told.status);
    show_rows(b->final.reply.bytes, b->final.answer_len);
    printf("    Enciphered under KeysHash. The reader, which knows that the record of mode\n");
    printf("    %04X has %zu bytes, accepts it:\n", b->plan.mode.value, b->plan.record_length);
    show_handed_back(record, part->length);
    if (body > part->length)
        show_field("filler", record + part->length, body - part->length, "not looked at");
    else
        printf("    filler      none\n");
    show_field("DivData", record + body, PLAID_DIV_DATA, "");
    printf("    padding     80 and %zu bytes 00\n", b->final.answer_len - body - PLAID_DIV_DATA - 1);
}

static void show_count(const char *name, size_t initial, size_t final)
{
    printf("    %-16s%10zu%10zu\n", name, initial, final);
}

static const char *interface_name(size_t interface)
{
    return interface == PLAID_INTERFACE_CONTACT ? "contact" : "contactless";
}

static bool tries_are(const plaid_card *card, unsigned contact, unsigned contactless)
{
    plaid_tries tries = plaid_read_tries(*card);
    return tries.contact == contact && tries.contactless == contactless;
}

static void show_counts(const card_reply *initial, const card_reply *final)
{
    const plaid_answer *i = &initial->told, *f = &final->told;
    printf("\nTHE CARD'S WORK        initial     final\n");
    show_count("comparisons", i->comparisons, f->comparisons);
    show_count("decipherments", i->decipherments, f->decipherments);
    show_count("encipherments", i->encipherments, f->encipherments);
    show_count("expansions", i->expansions, f->expansions);
    show_count("hash blocks", i->hash_blocks, f->hash_blocks);
    printf("    %-16s  %08X  %08X   not sent\n", "work sum", (unsigned)initial->sum, (unsigned)final->sum);
}

/* The reader has the card's record of that mode, and no byte more. */
static bool record_is(const bench *b, const example_mode *mode)
{
    const plaid_mode_slot *slot = b->card.modes;
    while (slot->id.value != mode->id.value)
        if (++slot == b->card.modes + PLAID_CARD_MODES)
            return false;
    return b->session.record.length == slot->len
        && memcmp(b->session.work + b->session.record.start, b->card.area + slot->start, slot->len) == 0;
}

/* It is a door number, and from its text it comes again. */
static bool door_comes_back(const bench *b)
{
    const uint8_t *record = b->session.work + b->session.record.start;
    size_t length = b->session.record.length;
    char text[DOOR_TEXT];
    uint8_t again[PLAID_UUID_RECORD];
    bool ok = door_has(length) && door_text(record, length, text) == PLAID_DONE && door_record(text, again, length) == PLAID_DONE
        && memcmp(again, record, length) == 0;
    platform_erase(text, sizeof text);
    platform_erase(again, sizeof again);
    return ok;
}

/* What the card sends is as long, and its status 9000. */
static bool answered_alike(const bench *a, const bench *b)
{
    return a->initial.answer_len == b->initial.answer_len && a->final.answer_len == b->final.answer_len
        && a->initial.reply.told.status == PLAID_ANSWER_OK && a->final.reply.told.status == PLAID_ANSWER_OK;
}

/* What a stranger can tell two sessions by is the same, from the card's first answer on. */
static bool alike_behind_the_list(const bench *a, const bench *b)
{
    return a->final.command_len == b->final.command_len && answered_alike(a, b);
}

static bool alike_on_the_line(const bench *a, const bench *b)
{
    return a->initial.command_len == b->initial.command_len && alike_behind_the_list(a, b);
}

/* The counts of a card, as the personaliser reads them. */
static void show_tries(const char *before, const plaid_card *card, const char *behind)
{
    plaid_tries tries = plaid_read_tries(*card);
    printf("%scontact %u, contactless %u%s\n", before, tries.contact, tries.contactless, behind);
}

/* A session that yielded the record. The card has counted nothing. */
static bool is_good(const bench *b, const example_mode *mode)
{
    return b->number == PLAID_DONE && record_is(b, mode) && door_comes_back(b)
        && b->final.command_len == PLAID_FINAL_COMMAND_LEAST(b->card.key_length) && tries_are(&b->card, 0, 0);
}

static void show_session(const bench *b)
{
    printf("    interface   %s: the card's platform says %zu in each call\n", interface_name(b->interface), b->interface);
    show_initial(b);
    show_opened(b);
    if (b->fault.between)
        show_change(b);
    show_final(b);
    show_record(b);
    show_counts(&b->initial.reply, &b->final.reply);
    show_tries("    failed tries    ", &b->card, "    not sent");
}

/* One on new cards, in full. */
static bool watch_good(bench *b, size_t interface, size_t key_length, const example_mode *mode)
{
    static const bench_fault none;
    if (!bench_run(b, interface, key_length, mode, none) || !is_good(b, mode))
        return false;
    if (key_length == EXAMPLE_KEY_LENGTH) {
        printf("\nSESSION FOR MODE %04X: %s, %zu bytes\n", mode->id.value, mode->name, mode->record_length);
    } else {
        printf("\nSESSION WITH KEYS OF %zu BYTES: mode %04X\n", key_length, mode->id.value);
        printf("    Both ends have L = %zu: a rule of this house, that no other maker's end has.\n", key_length);
        printf("    The diversified key is made of two enciphered blocks and not of one.\n");
    }
    show_session(b);
    return true;
}

/* A message as a stranger sees it: its length and how it begins. */
static void show_message(const char *from, const uint8_t *bytes, size_t count, unsigned status)
{
    printf("    %-7s %4zu bytes  ", from, count);
    show_bytes(bytes, 12);
    printf(" ..");
    if (status)
        printf("  %04X", status);
    printf("\n");
}

static void show_exchange(const bench_exchange *x)
{
    show_message("reader", x->command, x->command_len, 0);
    show_message("card", x->reply.bytes, x->answer_len, x->reply.told.status);
}

/* What Open gave, where it declined. */
static const char *open_words(int number)
{
    return number == PLAID_DECLINE_KEY_LENGTH ? "its L is none of the three" : "no block opens";
}

/* What the key holder sees of the initial command. */
static void explain_initial(const bench *b)
{
    const plaid_opened *o = &b->session.opened;
    if (b->initial.in_session)
        printf("    card     holds set %04X: RSA key %02X, session open\n", b->initial.set.value, b->initial.reply.told.handle);
    else
        printf("    card     holds none of the sets: shill RSA key %02X, no session\n", b->initial.reply.told.handle);
    if (o->number == PLAID_DONE)
        printf("    reader   Open finds entry %zu, set %04X\n", o->place, o->id.value);
    else
        printf("    reader   Open gives %d: %s\n", o->number, open_words(o->number));
}

/* A session that another maker's list opens: the list in full, and of the rest what the key holder sees. */
static bool watch_other_list(const bench *good)
{
    static bench b;
    const example_mode *mode = &example_wiegand;
    bool ok = bench_run_other_list(&b, EXAMPLE_KEY_LENGTH, mode) && b.number == PLAID_DONE && b.initial.in_session && record_is(&b, mode)
        && alike_behind_the_list(&b, good);
    if (ok) {
        printf("\nSESSION WITH ANOTHER MAKER'S LIST: mode %04X, the same KeySetIDs\n", mode->id.value);
        show_initial(&b);
        printf("\n2 TO 4  THE REST, with our reader as before\n");
        explain_initial(&b);
        printf("    card     makes %zu comparisons: 8 for every 4 whole bytes of data\n", b.initial.reply.told.comparisons);
        printf("    reader   Accept gives the record\n");
        show_handed_back(b.session.work + b.session.record.start, b.session.record.length);
    }
    bench_forget(&b);
    return ok;
}

/* And of the final one. */
static void explain_final(const bench *b, const char *cause)
{
    printf("    reader   %s\n", cause);
    if (b->final.as_other_card)
        printf("    card     refuses, under the shill AES key: a card with other keys,\n"
               "             given the same fresh bytes, sends the same %zu bytes\n", b->final.answer_len);
    else
        printf("    card     accepts: %zu bytes, record and filler, before DivData\n", 16 * (b->card.reply_size - 2));
    show_tries("    card     has counted failed tries: ", &b->card, "");
    if (b->session.accepted.number != PLAID_DONE)
        printf("    reader   Accept gives %d: not authenticated, no record\n", b->session.accepted.number);
    else
        printf("    reader   has no KeysHash, and no record\n");
}

/* A refused session: who refuses, by what number the reader has to end, and on the line nothing that tells it from the good one. */
typedef struct {
    const char *title;
    bench_fault fault;
    const char *cause;
    bool card_refuses; /* or the reader alone */
    int number;
} refusal;

static void show_refused(const bench *b, const refusal *of)
{
    printf("\nREFUSED: %s\n  as a stranger sees it\n", of->title);
    show_exchange(&b->initial);
    show_exchange(&b->final);
    printf("  as the key holder sees it, interface %s\n", interface_name(b->interface));
    explain_initial(b);
    explain_final(b, of->cause);
}

/* The card counts its own refusal, its first, for the interface of the session alone. */
static bool is_refused(const bench *b, const bench *good, const refusal *of)
{
    bool air = b->interface == PLAID_INTERFACE_CONTACTLESS;
    return b->number == of->number && b->final.as_other_card == of->card_refuses && !b->card.session.opened
        && b->session.record.length == 0 && alike_on_the_line(b, good)
        && tries_are(&b->card, of->card_refuses && !air, of->card_refuses && air);
}

/* Runs it for the L of a good session. */
static bool refused_over(bench *b, size_t interface, const bench *good, const refusal *of)
{
    return bench_run(b, interface, good->card.key_length, &example_wiegand, of->fault) && is_refused(b, good, of);
}

/* On both interfaces; shows the one through the air, where L is the examples'. */
static bool watch_refused(const bench *good, const refusal *of)
{
    static bench b;
    bool expected = refused_over(&b, PLAID_INTERFACE_CONTACT, good, of) && refused_over(&b, PLAID_INTERFACE_CONTACTLESS, good, of);
    if (good->card.key_length == EXAMPLE_KEY_LENGTH)
        show_refused(&b, of);
    bench_forget(&b);
    return expected;
}

static const refusal refusals[] = {
    {"no key set in common", {.no_common_set = true}, "stops; the bench sends random bytes as a final command", true, 15},
    {"another key length", {.other_length = true}, "has L = 24 and stops; the bench sends random bytes as final command", true, 15},
    {"a key length that is none", {.no_length = true}, "has L = 20 and stops; the bench sends random bytes as final command", true, 21},
    {"a FAKey that is not of L bytes", {.short_key = true}, "Seal gives 22: FAKey has 15 bytes; the bench sends random bytes", true, 22},
    {"wrong FAKey", {.wrong_key = true}, "Seal, under a FAKey that differs in one bit", true, 20},
    {"unknown mode", {.unknown_mode = true}, "Seal, for mode 0BAD, which the card does not hold", true, 20},
    {"damaged padding", {.damage = true}, "Seal; a bit of the last block flips on the line: padding lost", true, 20},
    {"wrong record length", {.wrong_length = true}, "Seal, for mode 0007, whose record it takes for 17 bytes", false, 20},
};
#define REFUSALS (sizeof refusals / sizeof refusals[0])

static bool watch_all_refused(const bench *good)
{
    for (size_t i = 0; i < REFUSALS; i++)
        if (!watch_refused(good, &refusals[i]))
            return false;
    if (good->card.key_length != EXAMPLE_KEY_LENGTH)
        printf("\nREFUSED WITH KEYS OF %zu BYTES: the same %zu sessions, with the same numbers\n", good->card.key_length, REFUSALS);
    return true;
}

/* The key change of the examples: the session's set gets another FAKey, another set goes, and one comes. */
static void load_new_sets(bench *b, const void *told)
{
    plaid_key_set sets[EXAMPLE_NEW_SETS];
    (void)told;
    example_new_sets(b->card.key_length, sets);
    bench_load_sets(b, sets, EXAMPLE_NEW_SETS);
    platform_erase(sets, sizeof sets);
}

/* The table was changed, and the open session was not. */
static bool key_was_changed(const bench *b)
{
    const plaid_session *open = &b->behind.session;
    const uint8_t *old = key_in_table(&b->before, open->id), *new = key_in_table(&b->behind, open->id);
    return b->loaded == PLAID_DONE && open->opened && old && memcmp(open->fa_key, old, PLAID_VALUE_MOST) == 0
        && new && memcmp(open->fa_key, new, PLAID_VALUE_MOST) != 0 && !key_in_table(&b->behind, (plaid_key_set_id){0x0203});
}

/* A load makes no steps: the card's work is that of a session without one. */
static bool same_work(const plaid_answer *a, const plaid_answer *b)
{
    return a->comparisons == b->comparisons && a->decipherments == b->decipherments && a->encipherments == b->encipherments
        && a->expansions == b->expansions && a->hash_blocks == b->hash_blocks;
}

/* A session that the key change falls into: it ends under the old key. */
static bool watch_change(bench *b, const bench *good)
{
    static const bench_fault change = {.between = load_new_sets};
    const example_mode *mode = &example_wiegand;
    if (!bench_run(b, PLAID_INTERFACE_CONTACT, EXAMPLE_KEY_LENGTH, mode, change) || !is_good(b, mode) || !key_was_changed(b)
        || !alike_on_the_line(b, good) || !same_work(&b->final.reply.told, &good->final.reply.told))
        return false;
    printf("\nSESSION WITH A KEY CHANGE IN IT: mode %04X\n", mode->id.value);
    show_session(b);
    return true;
}

/* The next ones of that card: the new key yields the record, and the old key does not. */
static bool watch_behind_change(bench *b, const bench *good)
{
    static const bench_fault new_key = {.new_key = true};
    static const refusal old_key = {"the old key, behind the key change", {0}, "Seal, under the old FAKey of set 0102", true, 20};
    const example_mode *mode = &example_wiegand;
    if (!bench_run_again(b, PLAID_INTERFACE_CONTACTLESS, mode, new_key) || !is_good(b, mode) || !alike_on_the_line(b, good))
        return false;
    printf("\nSESSION BEHIND THE KEY CHANGE: mode %04X, the same card\n", mode->id.value);
    show_field("FAKey", b->session.sealing.fa_key.bytes, b->plan.key_length, "of the reader");
    show_session(b);
    if (!bench_run_again(b, PLAID_INTERFACE_CONTACTLESS, mode, old_key.fault) || !is_refused(b, good, &old_key))
        return false;
    show_refused(b, &old_key);
    return true;
}

/* Key sets for that card: so many, with faults in the first of them; and the number that the load has to have. */
typedef struct {
    const char *title;
    size_t count;
    bool short_key, twice, shill;
    int number;
} key_load;

static const key_load key_loads[] = {
    {"none", 0, false, false, false, PLAID_DECLINE_KEY_SET_COUNT},
    {"nine", 9, true, true, true, PLAID_DECLINE_KEY_SET_COUNT},
    {"a FAKey of a byte too few", 2, true, true, true, PLAID_DECLINE_VALUE_LENGTH},
    {"one KeySetID twice", 2, false, true, true, PLAID_DECLINE_KEY_SET_REPEATED},
    {"one with the shill handle", 2, false, false, true, PLAID_DECLINE_SHILL_HANDLE},
    {"0204 alone, so that 0102 goes", 1, false, false, false, PLAID_DONE},
};

static void load_as_told(bench *b, const void *told)
{
    const key_load *of = told;
    plaid_key_set sets[PLAID_CARD_KEY_SETS + 1];
    memset(sets, 0, sizeof sets);
    example_new_sets(b->card.key_length, sets);
    sets[0].fa_key.length -= of->short_key;
    if (of->twice)
        sets[0].id = sets[1].id;
    if (of->shill)
        sets[0].handle = b->card.shill_handle;
    bench_load_sets(b, sets, of->count);
    platform_erase(sets, sizeof sets);
}

/* A session that ends by this number, with the new key: 0 with the record. */
static bool ends_by(bench *b, const bench *good, int number, bench_fault fault)
{
    fault.new_key = true;
    return bench_run_again(b, PLAID_INTERFACE_CONTACT, &example_wiegand, fault) && b->number == number
        && (number != PLAID_DONE || record_is(b, &example_wiegand)) && alike_on_the_line(b, good);
}

/* A load falls into a session, which yields the record. So does the next one, unless its set was dropped. */
static bool watch_load(bench *b, const bench *good, const key_load *of)
{
    const bench_fault load = {.between = load_as_told, .told = of}, none = {0};
    bool dropped = of->number == PLAID_DONE;
    if (!ends_by(b, good, PLAID_DONE, load) || b->loaded != of->number
        || !ends_by(b, good, dropped ? PLAID_DECLINE_NONE_OPENS : PLAID_DONE, none))
        return false;
    printf("    %-29s  number %-8d  %-11s  %s\n", of->title, b->loaded, "record", dropped ? "number 15" : "record");
    return true;
}

static bool watch_loads(bench *b, const bench *good)
{
    bool ok = true;
    printf("\nKEY SETS LOADED ONTO THAT CARD, each time between the commands of a session\n");
    printf("    %-29s  %-15s  %-11s  %s\n", "key sets", "plaid_load_sets", "the session", "the next one");
    for (size_t i = 0; ok && i < sizeof key_loads / sizeof key_loads[0]; i++)
        ok = watch_load(b, good, &key_loads[i]);
    if (ok)
        printf("    A load that is declined keeps the table. The session keeps its FAKey in\n"
               "    any case; what is dropped is missing from the next one on.\n");
    return ok;
}

static bool watch_key_change(const bench *good)
{
    static bench b;
    bool ok = watch_change(&b, good) && watch_behind_change(&b, good) && watch_loads(&b, good);
    bench_forget(&b);
    return ok;
}

/* One session of a card that goes on from those before it, and what it has counted then. */
typedef struct {
    size_t interface;
    const char *title;
    bench_fault fault;
    bool card_refuses;
    unsigned contact, contactless;
} next_try;

static const next_try next_tries[] = {
    {PLAID_INTERFACE_CONTACT, "nothing wrong", {0}, false, 0, 0},
    {PLAID_INTERFACE_CONTACTLESS, "no key set in common", {.no_common_set = true}, true, 0, 1},
    {PLAID_INTERFACE_CONTACTLESS, "wrong FAKey", {.wrong_key = true}, true, 0, 2},
    {PLAID_INTERFACE_CONTACT, "damaged padding", {.damage = true}, true, 1, 2},
    {PLAID_INTERFACE_CONTACTLESS, "unknown mode", {.unknown_mode = true}, true, 1, 3},
    {PLAID_INTERFACE_CONTACTLESS, "nothing wrong", {0}, false, 1, 3},
};

static void show_try(const char *interface, const char *title, const char *answer, const plaid_card *card)
{
    plaid_tries tries = plaid_read_tries(*card);
    printf("    %-11s  %-22s  %-14s%9u%13u\n", interface, title, answer, tries.contact, tries.contactless);
}

/* A call that names no interface, and a reset while a session is open: neither changes a count. */
static bool watch_not_counted(bench *b, unsigned contact, unsigned contactless)
{
    card_reply reply;
    card_serve(&b->card, 2, b->final.command, b->final.command_len, &reply);
    bool ok = reply.fault == CARD_DECLINED && reply.told.number == PLAID_DECLINE_INTERFACE && tries_are(&b->card, contact, contactless);
    show_try("none: 2", "the last command again", "declines, 26", &b->card);
    card_serve(&b->card, PLAID_INTERFACE_CONTACT, b->initial.command, b->initial.command_len, &reply);
    ok = ok && b->card.session.opened;
    card_reset(&b->card);
    show_try("contact", "opened, then a reset", "", &b->card);
    return ok && !b->card.session.opened && tries_are(&b->card, contact, contactless);
}

/* One card, session by session: what it counts. Every session is on the line like a good one. */
static bool watch_tries(const bench *good)
{
    static bench b;
    const size_t count = sizeof next_tries / sizeof next_tries[0];
    const next_try *of = next_tries;
    bool ok = true;
    printf("\nFAILED TRIES OF ONE CARD, which plaid_read_tries gives and no answer tells\n");
    printf("    %-11s  %-22s  %-14s%9s%13s\n", "interface", "session", "the card", "contact", "contactless");
    for (size_t i = 0; ok && i < count; i++, of++) {
        ok = i == 0 ? bench_run(&b, of->interface, EXAMPLE_KEY_LENGTH, &example_wiegand, of->fault)
                    : bench_run_again(&b, of->interface, &example_wiegand, of->fault);
        ok = ok && b.final.as_other_card == of->card_refuses && (b.number == PLAID_DONE) == !of->card_refuses && alike_on_the_line(&b, good)
            && tries_are(&b.card, of->contact, of->contactless);
        if (ok)
            show_try(interface_name(of->interface), of->title, of->card_refuses ? "refuses" : "accepts", &b.card);
    }
    ok = ok && watch_not_counted(&b, of[-1].contact, of[-1].contactless);
    if (ok)
        show_tries("    The other card refused in all six, and sent the same bytes where this one\n"
                   "    refused too. It has counted ", &b.other, ": no byte tells.");
    bench_forget(&b);
    return ok;
}

/* What the library declines for its lengths, with all else as in a good session. */
static bool watch_declined(const bench *good)
{
    bench_decline of[BENCH_DECLINES];
    size_t count = bench_decline_all(good, of);
    bool ok = true;
    printf("\nDECLINED FOR A LENGTH, with L = %zu else: nothing is written\n", good->card.key_length);
    for (size_t i = 0; i < count; i++) {
        printf("    %-12s  %-32s  number %d\n", of[i].function, of[i].given, of[i].number);
        ok = ok && of[i].number == of[i].wanted;
    }
    return ok;
}

/* The example card's records as the door system exports them: its texts become the records that the card was loaded with. */
static bool watch_door_records(const bench *good)
{
    static const struct {
        const char *text, *note;
    } of[] = {{"00001010100010010011001111", "a Wiegand number"}, {"F81D4FAE-7DEC-11D0-A765-00A0C91E6BF6", "a UUID, in capitals"}};
    bool ok = true;
    printf("\nDOOR NUMBERS TO RECORDS, as before a load\n");
    for (size_t i = 0; i < sizeof of / sizeof of[0]; i++) {
        const plaid_mode_slot *slot = &good->card.modes[i];
        uint8_t record[PLAID_UUID_RECORD] = {0};
        ok = ok && door_has(slot->len) && door_record(of[i].text, record, slot->len) == PLAID_DONE
            && memcmp(record, good->card.area + slot->start, slot->len) == 0;
        printf("    text        %s  %s\n", of[i].text, of[i].note);
        show_field("record", record, slot->len, "");
        platform_erase(record, sizeof record);
    }
    return ok;
}

/* A conversion that has to be declined, by one number. */
typedef struct {
    const char *function, *given;
    plaid_converted (*convert)(const uint8_t *in, size_t in_len, uint8_t *out, size_t out_len);
    const char *in;
    size_t in_len, out_len;
    uint8_t number;
} door_decline;

static const door_decline door_declines[] = {
    {"plaid_wiegand_record", "a text with a line end", plaid_wiegand_record, "00001010100010010011001111\n", 27, 4, 23},
    {"plaid_wiegand_record", "a character 2", plaid_wiegand_record, "00001010100010010011001112", 26, 4, 25},
    {"plaid_wiegand_record", "the odd parity turned", plaid_wiegand_record, "00001010100010010011001110", 26, 4, 24},
    {"plaid_wiegand_text", "a record of 3 bytes", plaid_wiegand_text, "\x2A\x24\xCF", 3, 26, 23},
    {"plaid_wiegand_text", "the even parity turned", plaid_wiegand_text, "\x02\x2A\x24\xCF", 4, 26, 24},
    {"plaid_wiegand_text", "a bit above the 26", plaid_wiegand_text, "\x04\x2A\x24\xCF", 4, 26, 24},
    {"plaid_uuid_record", "an output of 15 bytes", plaid_uuid_record, "f81d4fae-7dec-11d0-a765-00a0c91e6bf6", 36, 15, 23},
    {"plaid_uuid_record", "a letter g", plaid_uuid_record, "g81d4fae-7dec-11d0-a765-00a0c91e6bf6", 36, 16, 25},
    {"plaid_uuid_record", "a hyphen at another place", plaid_uuid_record, "f81d4fa-e7dec-11d0-a765-00a0c91e6bf6", 36, 16, 25},
    {"plaid_uuid_text", "a record of 15 bytes", plaid_uuid_text, "FIFTEEN BYTES..", 15, 36, 23},
};

static bool watch_door_declined(void)
{
    static const uint8_t untouched[DOOR_TEXT];
    bool ok = true;
    printf("\nDOOR NUMBERS DECLINED: nothing is written\n");
    for (size_t i = 0; i < sizeof door_declines / sizeof door_declines[0]; i++) {
        const door_decline *of = &door_declines[i];
        uint8_t out[DOOR_TEXT] = {0};
        plaid_converted c = of->convert((const uint8_t *)of->in, of->in_len, out, of->out_len);
        printf("    %-20s  %-26s  number %d\n", of->function, of->given, c.number);
        ok = ok && c.number == of->number && c.length == 0 && memcmp(out, untouched, sizeof out) == 0;
    }
    return ok;
}

/* A session for keys of 24 or 32 bytes. */
static bool watch_longer(bench *b, size_t key_length, const bench *good)
{
    size_t interface = key_length == 24 ? PLAID_INTERFACE_CONTACTLESS : PLAID_INTERFACE_CONTACT;
    return watch_good(b, interface, key_length, &example_wiegand) && b->initial.command_len == good->initial.command_len
        && answered_alike(b, good);
}

static bool watch_all(bench good[3])
{
    static bench second;
    plaid_loaded loaded = example_card(EXAMPLE_KEY_LENGTH);
    show_card(&loaded.card);
    platform_erase(&loaded, sizeof loaded);
    bool ok = watch_good(&good[0], PLAID_INTERFACE_CONTACT, 16, &example_wiegand)
        && watch_good(&second, PLAID_INTERFACE_CONTACTLESS, 16, &example_uuid) && alike_on_the_line(&second, &good[0]);
    bench_forget(&second);
    ok = ok && watch_other_list(&good[0]) && watch_longer(&good[1], 24, &good[0]) && watch_longer(&good[2], 32, &good[0])
        && watch_key_change(&good[0]);
    for (size_t i = 0; ok && i < 3; i++)
        ok = watch_all_refused(&good[i]);
    return ok && watch_tries(&good[0]) && watch_declined(&good[0]) && watch_door_records(&good[0]) && watch_door_declined();
}

int main(int argc, char **argv)
{
    static bench good[3]; /* of 16, 24 and 32 bytes */
    if (argc > 2 || (argc == 2 && argv[1][0] == '-')) {
        fprintf(stderr, "usage: watch [KEYS]\n");
        return 2;
    }
    platform_open(argc > 1 ? argv[1] : NULL);
    if (!bench_keys()) {
        fprintf(stderr, "watch: %s\n", platform_trouble());
        return READER_NO_KEY;
    }
    printf("PLAID sessions. Fresh bytes: %s.\nRSA: %s.\n\n", platform_source(), platform_rsa());
    bool ok = watch_all(good);
    if (ok)
        printf("\nOn the line all sessions with keys of 16 bytes were alike, the other list's\n"
               "length apart: messages of %zu, %zu, %zu and %zu bytes, status 9000. With keys of 24\n"
               "and 32 bytes the final command had %zu and %zu. Twenty sessions gave a record.\n",
            good[0].initial.command_len, good[0].initial.answer_len, good[0].final.command_len, good[0].final.answer_len,
            good[1].final.command_len, good[2].final.command_len);
    else
        printf("\nNOT AS EXPECTED: stopped.\n");
    for (size_t i = 0; i < 3; i++)
        bench_forget(&good[i]);
    platform_close();
    return ok ? 0 : 1;
}
