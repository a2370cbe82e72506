/*
 * PLAID (ISO/IEC 25185-1), both ends: the card's loads and commands, and the
 * reader's List, Open, Seal and Accept; and the door system's numbers, from
 * text to record and back. This header is their manual.
 *
 * Link with libplaid.a, for x86-64 Linux. C99 or later, or C++.
 *
 * A session
 *
 *   personaliser  plaid_load      makes the card
 *   reader        plaid_list      makes the initial command
 *   card          plaid_command   answers with a block of 256 bytes, which the
 *                                 card's platform encrypts by RSA
 *   reader        plaid_open      finds the key set, once the reader's platform
 *                                 has decrypted the block for each listed set
 *   reader        plaid_seal      makes the final command for one mode
 *   card          plaid_command   answers with the mode's record, enciphered
 *   reader        plaid_accept    checks the answer and deciphers it, told how
 *                                 long that mode's record is
 *   reader        plaid_record    says where the record stands
 *
 * To a stranger a card never refuses. A refused command is answered like an
 * accepted one, with the same length and status 9000, under the shill keys.
 *
 * Key change
 *
 *   A card gets other key sets at any time, also between the two commands of a
 *   session:
 *
 *   personaliser   plaid_load_sets   puts key sets in the place of the card's
 *
 *   A session that is open then goes on with the FAKey that it was opened with,
 *   and ends under it. The next one uses the new key sets. The reader does the
 *   same where its own keys are changed: it seals with the FAKey that the set
 *   had at List.
 *
 * Failed tries
 *
 *   A card counts the final commands that it refused, those over its contacts
 *   and those through the air apart. At any time:
 *
 *   personaliser, maintenance   plaid_read_tries   reads the two counts
 *
 *   Nothing that is sent depends on the counts, and they are not sent.
 *
 * Door numbers
 *
 *   A door system exports Wiegand numbers and UUIDs as text; a card holds them
 *   as records of 4 and 16 bytes. Before plaid_load the personaliser turns text
 *   to record, and behind Accept the reader turns a record to text:
 *
 *     a Wiegand number   plaid_wiegand_record   plaid_wiegand_text
 *     a UUID             plaid_uuid_record      plaid_uuid_text
 *
 *   There and back, a record that is not refused is the same record, and a text
 *   the same text, but for capitals. A text is its characters in ASCII, one
 *   byte each, and nothing else: no NUL and no line end behind them, no blank,
 *   no brace. Take a line's end off before the call, and add a NUL after it.
 *
 *   These four are no part of a session. To load, command and Accept a record
 *   is any bytes: they look for no parity, and a card may hold a record of 4 or
 *   16 bytes that is no door number.
 *
 * Key length
 *
 *   A card and its reader have one key length L: 16, 24 or 32 bytes, for
 *   AES-128, AES-192 or AES-256. FAKeys, the shill key, RND1, RND2 and KeysHash
 *   have L bytes each. DivData has 16 and an RSA key 2048 bits, whatever L is.
 *   The card keeps its load's L. The reader says L to Open, Seal and Accept.
 *   Where a size depends on L it is written here for 16, 24 and 32, in this
 *   order, and has a macro below that takes L.
 *
 *   Set L once at each end, together with the keys. No message says it, and no
 *   end finds out the other's; a stranger may see it by the length of a final
 *   command. Between two ends of unequal L no block opens: the reader has 15,
 *   as from a card that holds none of its sets.
 *
 *   Take 16 where another maker's card or reader is in play. ISO/IEC 25185-1
 *   names the three lengths in clause 11, but its clause 1, table 1 and clause
 *   10 have keys of 16 bytes and a diversified key of one block. So 24 and 32
 *   are a rule of this house, and no other maker's end has it:
 *     STR1, STR2 and KeysHash are as with 16, with L bytes for each RND and for
 *     KeysHash, the first L bytes of SHA-256 over RND1 and RND2;
 *     the diversified key is the first L bytes of two blocks enciphered under
 *     FAKey: DivData, and DivData with the top bit of its first byte flipped.
 *
 * Rules for every call
 *
 *   - Each function takes every value of its arguments. It has no error but
 *     its `number`: 0, or one of PLAID_DECLINE_.. below. Where several apply,
 *     the first one in the order written is given. plaid_record and
 *     plaid_read_tries decline nothing and have no number.
 *   - A pointer is never NULL, also where its length is 0. It points to at
 *     least as many elements as the length says.
 *   - Buffers given to one call do not overlap.
 *   - Structs pass by value and hold no pointers. A struct's unnamed bytes
 *     have no meaning: compare structs field by field. A bool is 0 or 1.
 *   - Nothing is allocated, nothing is kept between calls, and no buffer is
 *     kept after its call. Two threads may call at once, as long as neither
 *     writes to a buffer that the other uses, and each card is used by one
 *     call at a time.
 *   - A declined call writes nothing, and hands back its number and zeros,
 *     unless said below.
 *   - A key, RND or KeysHash passes as a plaid_value, which says its own
 *     length. One that is not of L bytes is declined by 22.
 *   - Numbers inside commands, blocks and answers stand high byte first. The
 *     functions write and read them so; the structs hold plain numbers.
 *
 * On the line
 *
 *   The two commands belong together. A card has one session: each initial
 *   command ends the last one, and each final command closes it, also one that
 *   is refused. So a reader holds a transaction over both (PC/SC:
 *   SCardBeginTransaction to SCardEndTransaction). Without it two programs
 *   that take turns at one card both end with 20.
 *
 *   Each command call names its interface: 0 where the command came in over the
 *   contacts, 1 where it came through the air. The platform names it by where
 *   the bytes came in, never by what they say. The session is one for both: a
 *   platform that wants no final command on one interface behind an initial
 *   command on the other takes the change for a reset.
 *
 *   A power cycle or a reset ends the session; the counts of failed tries and
 *   the key sets outlive it. The card's platform goes on from the card that the
 *   last plaid_command or plaid_load_sets returned, with its session closed:
 *   all fields of `session` set to 0. It does NOT go back to the card that
 *   plaid_load returned. That one has counts of 0, and a stranger would clear
 *   them by a reset; and it has the first key sets, which would be good again.
 *
 *   Where memory is lost with the power, the platform keeps the counts in
 *   lasting memory, and the key sets that a plaid_load_sets put in the place of
 *   the first. A command changes a card in `session` and `tries` alone, and
 *   plaid_load_sets in `sets` alone. So the card that plaid_load returned, with
 *   `sets` and `tries` as they were kept, is the card to start from.
 *   It writes the counts before the answer is sent, or 61 with T=0: else a
 *   stranger who pulls the card early is not counted. It writes each time a
 *   final command ran, accepted or refused, whether or not a count has changed,
 *   and by the same steps: else the time of the write tells the two apart. The
 *   memory has to bear as many writes as strangers send final commands.
 *   It writes the key sets before the next command runs, and in such a way that
 *   a card which is pulled meanwhile has all the old ones or all the new ones.
 *
 *   T=1 and contactless cards carry a command and its answer whole, as
 *   plaid_command takes and gives them. T=0 does not; there the platforms map.
 *   The reader's sends Lc + 5 bytes, without Le. The card's adds Le 00, calls
 *   plaid_command, keeps the answer and sends 61 and its length, 00 for 256.
 *   The reader's sends GET RESPONSE (00 C0 00 00 and that length) and gets the
 *   bytes and the status. The library has no GET RESPONSE: it says 6D00. An
 *   answer kept is sent once, and erased at any other command.
 *
 * What the platform lends
 *
 *   Fresh bytes. plaid_command gets 253 in each call. They are random and no
 *   stranger can guess them. The first 50, 66 or 82 may have any value. The
 *   other 203, 187 or 171 are pad bytes, and none of them is 0: draw a zero
 *   again. Never use the bytes of a call twice, and never for another card.
 *   Draw new ones for each call, also after a call that was declined.
 *   plaid_seal gets RND2, L bytes, which are as fresh: new for each session.
 *   Where there are no random bytes, make no call. A card answers status 6F00
 *   then, with no bytes before it, and stays as it was: a reader that gets no
 *   answer waits for one.
 *
 *   RSA on the card. An answer to an initial command is a padded block and a
 *   key handle. The platform encrypts the block by the public RSA key that the
 *   handle names, adds no padding of its own, and sends the 256 bytes that
 *   result. It never sends the block itself. It does the same for the shill
 *   handle. Where RSA fails it answers status 6F00, with no bytes before it.
 *
 *   RSA in the reader. The platform decrypts the card's 256 bytes once for
 *   each listed key set, with that set's private key. It takes no padding off
 *   and hands over all 256 bytes. It makes ONE FULL PRIVATE OPERATION FOR EACH
 *   SET, whichever opens, and whatever number the 256 bytes are: a stranger's
 *   card may have chosen it. A library refuses a number that is not below the
 *   modulus at once. A card sees that by time alone, and finds the modulus
 *   with a few thousand answers. So the platform compares before the library
 *   does, by steps that do not depend on the number. Where the number is not
 *   below the modulus, it decrypts the number less the modulus, throws the
 *   result away and hands over 256 zero bytes, which open nothing. It takes
 *   only keys whose modulus has 2048 bits: then one subtraction is enough.
 *   Where an operation itself fails, it hands over 256 zero bytes too.
 *
 * Secrets. A card holds its keys and records as they are, and an open session
 * its FAKey, though the card may not hold that set any more. FAKeys, the shill
 * key, fresh bytes, RND1, RND2, KeysHash, a block before encryption or after
 * decryption, and the record, as bytes and as text, are secrets. The caller
 * erases its copies, a card that was replaced too, by a function that no
 * compiler leaves out.
 */
#ifndef PLAID_H
#define PLAID_H

#include <stdbool.h>
#include <stddef.h>
#include <stdint.h>

#ifdef __cplusplus
extern "C" {
#endif

/* The library's numbers of type size_t have 64 bits. */
typedef char plaid_size_is_64_bits[sizeof(size_t) == 8 ? 1 : -1];

/*
 * Sizes, in bytes where nothing else is said
 */
#define PLAID_CARD_KEY_SETS 8           /* key sets of a card, at most */
#define PLAID_CARD_MODES 16             /* modes of a card, at most */
#define PLAID_CARD_AREA 1024            /* record area, at most */
#define PLAID_CARD_RECORD 64            /* a record, at most; at least 1 */
#define PLAID_DIV_DATA 16               /* DivData, whatever L is */
#define PLAID_VALUE_MOST 32             /* a key, RND or KeysHash, at most */

#define PLAID_INTERFACE_CONTACT 0       /* the interface of a command call: */
#define PLAID_INTERFACE_CONTACTLESS 1   /* one of these two */
#define PLAID_TRIES_MOST 65535          /* failed tries of one, at most */

#define PLAID_FRESH 253                 /* fresh bytes of a command call */
#define PLAID_OUTPUT 256                /* output of a command, at least */
#define PLAID_BLOCK 256                 /* an RSA block */

#define PLAID_COMMAND_LEAST 7           /* a command: Lc 1 */
#define PLAID_COMMAND_MOST 261          /* a command: Lc 255 */
#define PLAID_INS_INITIAL 0x87          /* second byte of an initial command */
#define PLAID_INS_FINAL 0x86            /* second byte of a final command */

#define PLAID_LIST_IDS 16               /* KeySetIDs of a reader, at most */
#define PLAID_LIST_COMMAND_LEAST 12     /* List's command for 1 KeySetID */
#define PLAID_LIST_COMMAND_MOST 72      /* List's command for 16 */
#define PLAID_FINAL_COMMAND_MOST 246    /* Seal's command, longest payload */

#define PLAID_ANSWER_INITIAL 256        /* answer to an initial command */
#define PLAID_CARD_REPLY_LEAST 2        /* reply size B, in blocks of 16 */
#define PLAID_CARD_REPLY_MOST 6
#define PLAID_ANSWER_FINAL_LEAST 32     /* answer to a final command: 16 B, */
#define PLAID_ANSWER_FINAL_MOST 96      /* so 32, 48, 64, 80 or 96 */

#define PLAID_WIEGAND_TEXT 26           /* a Wiegand number as text */
#define PLAID_WIEGAND_RECORD 4          /* and as a record */
#define PLAID_UUID_TEXT 36              /* a UUID as text */
#define PLAID_UUID_RECORD 16            /* and as a record */

/*
 * Sizes that depend on L, which is 16, 24 or 32. Each is a constant expression
 * where L is one.
 */
/* whether l is one of the three: 1 or 0 */
#define PLAID_IS_KEY_LENGTH(l) ((l) == 16 || (l) == 24 || (l) == 32)
/* the first fresh bytes, of any value; STR1: 50, 66 or 82 */
#define PLAID_FRESH_ANY(l) (18 + 2 * (l))
/* the other fresh bytes, pad bytes, none of them 0: 203, 187 or 171 */
#define PLAID_FRESH_PADS(l) (235 - 2 * (l))
/* payload of Seal, at most: 205, 189 or 173 */
#define PLAID_PAYLOAD(l) (237 - 2 * (l))
/* Seal's command without payload: 54, 70 or 86 */
#define PLAID_FINAL_COMMAND_LEAST(l) (22 + 2 * (l))

/*
 * Stack, in bytes: how much of the caller's stack a call takes, at most.
 *
 * Counted from the caller's stack pointer before the arguments are laid, so
 * the structs that pass by value are in it, the return address, and all that
 * the library uses below. The result is not: it stands where the caller has
 * it. What interrupts and signals put on the same stack comes on top. So does
 * what the platform's memcpy and memset, which the library calls, take beyond
 * their return address.
 *
 * Measured on x86-64 and not proved: by the deepest byte that accepted,
 * refused and declined calls write on a painted stack, and by the bytes that
 * the library's machine code reserves, written or not, in its deepest chain
 * of calls. It is the greater of the two, in whole sixteens.
 */
#define PLAID_STACK_LOAD 11856
#define PLAID_STACK_LOAD_SETS 12048
#define PLAID_STACK_COMMAND 16224
#define PLAID_STACK_READ_TRIES 1872
#define PLAID_STACK_LIST 208
#define PLAID_STACK_OPEN 352
#define PLAID_STACK_SEAL 2000
#define PLAID_STACK_ACCEPT 1440
#define PLAID_STACK_RECORD 16
#define PLAID_STACK_WIEGAND_RECORD 112
#define PLAID_STACK_WIEGAND_TEXT 80
#define PLAID_STACK_UUID_RECORD 256
#define PLAID_STACK_UUID_TEXT 80

/*
 * Status of a command's answer (ISO/IEC 7816-4)
 */
#define PLAID_ANSWER_OK 0x9000
#define PLAID_ANSWER_WRONG_LENGTH 0x6700
#define PLAID_ANSWER_WRONG_CLASS 0x6E00
#define PLAID_ANSWER_WRONG_INSTRUCTION 0x6D00
#define PLAID_ANSWER_WRONG_PARAMETERS 0x6A86

/*
 * Numbers. Each call hands back 0 or the number of its decline.
 */
#define PLAID_DONE 0

/* plaid_load, plaid_open, plaid_seal, plaid_accept: first of all */
#define PLAID_DECLINE_KEY_LENGTH 21       /* L is not 16, 24 or 32 */
/* plaid_load, plaid_load_sets, behind 1; plaid_seal, plaid_accept, behind 21 */
#define PLAID_DECLINE_VALUE_LENGTH 22     /* a key, RND or KeysHash that is
                                             not of L bytes */
/* plaid_load, plaid_load_sets */
#define PLAID_DECLINE_KEY_SET_COUNT 1     /* not 1 to 8 key sets */
#define PLAID_DECLINE_KEY_SET_REPEATED 2  /* two sets with one KeySetID */
#define PLAID_DECLINE_SHILL_HANDLE 3      /* a set has the shill handle */
/* plaid_load */
#define PLAID_DECLINE_MODE_COUNT 4        /* not 1 to 16 modes */
#define PLAID_DECLINE_MODE_REPEATED 5     /* two modes with one OpModeID */
#define PLAID_DECLINE_RECORD 6            /* area over 1024, or a record that
                                             is empty, over 64 or outside it */
/* 7 was given before, to records of unequal reply size. It is not given any
   more, and its number is not used for anything else. */
/* plaid_command, first of all */
#define PLAID_DECLINE_INTERFACE 26        /* an interface that is not 0 or 1 */
/* plaid_command, behind 26 */
#define PLAID_DECLINE_FRESH_COUNT 8       /* not 253 fresh bytes */
#define PLAID_DECLINE_PAD_BYTE 9          /* a pad byte is 0 */
#define PLAID_DECLINE_OUTPUT 10           /* output below 256 */
/* plaid_list */
#define PLAID_DECLINE_LIST_COUNT 11       /* not 1 to 16 KeySetIDs */
#define PLAID_DECLINE_LIST_REPEATED 12    /* one KeySetID twice */
#define PLAID_DECLINE_LIST_OUTPUT 13      /* output too short */
/* plaid_open */
#define PLAID_DECLINE_BLOCKS 14           /* not 1 to 16 KeySetIDs, or not 256
                                             bytes for each */
#define PLAID_DECLINE_NONE_OPENS 15       /* no block opens */
/* plaid_seal */
#define PLAID_DECLINE_PAYLOAD 16          /* payload over 205, 189 or 173 */
#define PLAID_DECLINE_SEAL_OUTPUT 17      /* output too short */
/* plaid_accept */
#define PLAID_DECLINE_RESPONSE 18         /* no length that an answer has */
#define PLAID_DECLINE_WORK 19             /* work buffer too short */
#define PLAID_DECLINE_AUTHENTICATION 20   /* not authenticated */
/* plaid_wiegand_record, plaid_wiegand_text, plaid_uuid_record,
   plaid_uuid_text: first of all */
#define PLAID_DECLINE_CONVERSION_LENGTH 23 /* input of a wrong length, or
                                             output too short */
/* plaid_wiegand_record, plaid_uuid_record, behind 23 */
#define PLAID_DECLINE_BAD_CHARACTER 25    /* a character that is none of the
                                             text's, or at a wrong place */
/* plaid_wiegand_record, behind 25; plaid_wiegand_text, behind 23 */
#define PLAID_DECLINE_PARITY 24           /* wrong parity, or a bit above the
                                             26 */

/*
 * The two identifiers. They are types of their own, so that a compiler refuses
 * a key set number where a mode number belongs.
 */
typedef struct plaid_key_set_id {
    uint16_t value;
} plaid_key_set_id;

typedef struct plaid_op_mode_id {
    uint16_t value;
} plaid_op_mode_id;

/*
 * A key, RND or KeysHash as it is given and handed back: so many bytes, from
 * the first on. Give it a length of L. Past it nothing is looked at; what is
 * handed back has zeros there. 32 is the most that it holds: one that says more
 * is of no L bytes, and declined. Handed back with a decline it is all zeros.
 */
typedef struct plaid_value {
    uint8_t length;
    uint8_t bytes[PLAID_VALUE_MOST];
} plaid_value;

/*
 * The card
 */

/* A key set as a load gives it. */
typedef struct plaid_key_set {
    plaid_key_set_id id;
    uint8_t handle;                     /* names the platform's RSA key */
    plaid_value fa_key;                 /* L bytes */
} plaid_key_set;

/* A mode as a load gives it. Its record is a part of the record area. */
typedef struct plaid_mode {
    plaid_op_mode_id id;
    size_t start;                       /* counted from 0 */
    size_t len;
} plaid_mode;

/* What a load is given beside the key sets and the record area. */
typedef struct plaid_given {
    size_t key_length;                  /* L: 16, 24 or 32 */
    plaid_mode modes[PLAID_CARD_MODES];
    size_t mode_count;                  /* past it nothing is looked at */
    uint8_t div_data[PLAID_DIV_DATA];
    plaid_value shill_key;              /* L bytes, for answers to strangers */
    uint8_t shill_handle;               /* the same, for RSA */
} plaid_given;

/*
 * A slot of a card. Where held is false it is empty, its other fields 0. Here
 * and below a card holds L bytes as the first of 32, with zeros behind them.
 */
typedef struct plaid_key_set_slot {
    bool held;
    plaid_key_set_id id;
    uint8_t handle;
    uint8_t fa_key[PLAID_VALUE_MOST];   /* the first L */
} plaid_key_set_slot;

typedef struct plaid_mode_slot {
    bool held;
    plaid_op_mode_id id;
    size_t start;
    size_t len;
} plaid_mode_slot;

/*
 * No session, or an open one. Where opened is false its other fields are 0. The
 * FAKey is the one that the key set had at the initial command, whatever sets
 * the card holds since.
 */
typedef struct plaid_session {
    bool opened;
    plaid_key_set_id id;
    uint8_t rnd1[PLAID_VALUE_MOST];     /* the first L */
    uint8_t fa_key[PLAID_VALUE_MOST];   /* the first L */
} plaid_session;

/*
 * Failed tries: how many final commands a card refused, counted apart for the
 * two interfaces. A count that is at 65535 stays there.
 */
typedef struct plaid_tries {
    uint16_t contact;                   /* interface 0 */
    uint16_t contactless;               /* interface 1 */
} plaid_tries;

/*
 * A card. Only plaid_load makes one, and only plaid_command and plaid_load_sets
 * change one; read its fields, but write none. The one exception is the start
 * after a power cycle or a reset, which closes the session and puts back counts
 * and key sets that were kept elsewhere: see "On the line".
 */
typedef struct plaid_card {
    plaid_key_set_slot sets[PLAID_CARD_KEY_SETS];
    plaid_mode_slot modes[PLAID_CARD_MODES];
    uint8_t area[PLAID_CARD_AREA];
    uint8_t div_data[PLAID_DIV_DATA];
    uint8_t shill_key[PLAID_VALUE_MOST]; /* the first L */
    uint8_t shill_handle;
    size_t key_length;                  /* L */
    size_t reply_size;                  /* B: a final answer has 16 B bytes */
    plaid_session session;
    plaid_tries tries;
} plaid_card;

/* What plaid_load and plaid_load_sets hand back. */
typedef struct plaid_loaded {
    uint8_t number;                     /* 0; 1 to 6, 21, 22 */
    plaid_card card;
} plaid_loaded;

/*
 * Makes a card.
 *
 * In: L; 1 to 8 key sets; 1 to 16 modes; a record area of at most 1024 bytes,
 * of which each mode's record is a part of 1 to 64 bytes; DivData; the shill
 * keys. Any key_length, set_count and mode_count are taken, and a wrong one is
 * declined. `sets` points to set_count key sets.
 *
 * Back: number 0 and the card. Its key sets and modes fill their slots from
 * the first on, in the order given. The area is copied into it, with zeros
 * behind. Its reply size B is the largest that any of its records needs, from
 * 2 to 6; a record needs floor((record length + 16) / 16) + 1, whatever L is.
 * It has no session, and its counts of failed tries are 0.
 *
 * Declines, in the order in which they are tested:
 *   21  L is not 16, 24 or 32
 *    1  set_count is 0, or over 8
 *   22  the FAKey of a set, or the shill key, is not of L bytes
 *    2  two key sets have the same KeySetID
 *    3  a key set has the shill handle
 *    4  mode_count is 0, or over 16
 *    5  two modes have the same OpModeID
 *    6  the area is over 1024 bytes; or a record is empty, over 64 bytes, or
 *       not wholly inside the area
 * No card results: all fields of `card` are 0. Do not use it as one. There is
 * no 7 any more: it was given where two records have unequal B. Such a load is
 * now accepted, and the number is not used for anything else.
 *
 * Records of unequal length. Every final answer of a card has 16 B bytes: its
 * length does not tell which record it carries. In the answer a record of under
 * 16 (B - 2) bytes is followed by filler, zero bytes up to 16 (B - 2) bytes in
 * all; any other by none. The card adds the filler, the area has none of it.
 *   With 4 bytes (a Wiegand number) and 16 bytes (a UUID) on one card B is 3:
 *   the 4 bytes are answered with 12 zeros behind them, the UUID as it is.
 *   Alone on a card, the 4 bytes have B = 2 and no filler.
 * Nothing in the answer says where the record ends. Our reader is told (see
 * plaid_accept). A relay with another maker's reader gets 4 bytes and 12 zeros
 * from such a card, since ISO/IEC 25185-1 (6.7) allows a payload behind the
 * record and has no mark between the two. See to it that it takes the 4 bytes,
 * or load a card for it whose records need no filler. And load that card with
 * L = 16: a longer one is a rule of this house (see "Key length"), and a reader
 * that has it not opens none of the card's blocks.
 *
 * FAKeys are given undiversified. The card diversifies them by its DivData in
 * each final command, so whoever reads out a card has the FAKeys of its sets,
 * for every card that holds these.
 *
 * DivData is unique for each card, best random, and guarded like a key: Accept
 * knows the card by it. With L over 16 no two cards have DivData that differ in
 * the top bit of the first byte alone: their diversified keys would be made of
 * the same two blocks. The public halves of the RSA keys are guarded too, on
 * the card and off it: who has one can answer an initial command in a card's
 * place. ISO/IEC 25185-1, annex B, recommends that both halves be managed like
 * shared symmetric keys.
 *
 * Shill keys. Decline 3 compares handles and sees no keys: the personaliser
 * sees to it that the shill handle's RSA key is no key set's under another
 * handle. Nobody needs the private half of the shill RSA key; with it refusals
 * can be told from acceptances.
 *
 * ISO/IEC 25185-1 has the shill keys random, made by the card and known to it
 * alone. That two cards' refusals are alike is proved for equal shill keys, L
 * and B; this is the proof's condition, and no advice. What sharing hides: a
 * stranger who gathers refused answers can estimate the RSA modulus, by which
 * cards are told apart where each has its own. What sharing costs: shill keys
 * that leak from one card, or from where they are made, have leaked for all.
 */
plaid_loaded plaid_load(const plaid_key_set *sets, size_t set_count,
                        plaid_given given,
                        const uint8_t *area, size_t area_len);

/*
 * Loads key sets onto a card, in the place of those that it holds.
 *
 * In: 1 to 8 key sets, as plaid_load takes them; and the card, at any time,
 * also in a session. Any set_count is taken, and a wrong one is declined.
 * `sets` points to set_count key sets.
 *
 * Back: number 0 and the next card. It holds these key sets and no others: they
 * fill its slots from the first on, in the order given, as behind plaid_load.
 * All else is as it was: L, modes, area, DivData, shill keys, B, session and
 * failed tries.
 *
 * Declines, in the order in which they are tested:
 *    1  set_count is 0, or over 8
 *   22  the FAKey of a set is not of the card's L bytes
 *    2  two key sets have the same KeySetID
 *    3  a key set has the card's shill handle
 * The card handed back is then the old one, every field: it keeps its key sets
 * and its session.
 *
 * So THE CARD HANDED BACK REPLACES THE OLD ONE here too, whatever the number. A
 * load and a command on one card come one behind the other, each on the card
 * that the other handed back. One that gets an older value takes back what the
 * other did.
 *
 * In a session. The session keeps the FAKey that its key set had at the initial
 * command. A load that drops that set, or gives its KeySetID another key, makes
 * no difference to the final command: sealed with the old FAKey it is accepted,
 * with the new one refused. The next initial command finds the new key sets
 * alone. From there on a reader with an old FAKey gets 20, and one with an old
 * RSA key, or with KeySetIDs that are gone, gets 15. So that no reader is left
 * out, give a new key a new KeySetID, and let the readers list both for a time.
 *
 * Keys that leaked. A load does not end a session that was opened under one. To
 * end it too, close it as at a reset: see "On the line".
 *
 * A load is no command. It has no answer and makes no steps, and on the line
 * only what later sessions come to tells of it. The library does not judge who
 * loads: the platform takes key sets from the personaliser, and never by the
 * way that commands come.
 *
 * What the platform sees to:
 *   - The public RSA key of each new handle is there before the load. Else the
 *     next initial command for that set is answered 6F00, which tells a
 *     stranger that the card holds it.
 *   - A new RSA key gets a new handle. Then the old key sets are good until the
 *     load, and behind a declined one. It is not the shill handle's key, which
 *     3 does not see: see plaid_load, "Shill keys".
 *   - An initial answer is encrypted before the next load. Behind that its
 *     session needs no RSA on the card, so a key whose handle no set has any
 *     more may go.
 *   - The new key sets outlive a power cycle: see "On the line".
 *   - The old FAKeys are erased, with the card that was replaced and wherever
 *     else they were kept. An open session's stands in the next card until the
 *     session closes: by its final command, the next initial one, or a reset.
 *
 * Written: nothing.
 */
plaid_loaded plaid_load_sets(const plaid_key_set *sets, size_t set_count,
                             plaid_card card);

/*
 * What a command call answers beside the output. The counts of steps are for
 * tests and audits; they stay in the card's side and are not sent.
 */
typedef struct plaid_answer {
    uint8_t number;                     /* 0; 8 to 10, 26 */
    uint16_t status;                    /* sent behind the answer's bytes */
    size_t comparisons;                 /* how many steps of each kind */
    size_t decipherments;
    size_t encipherments;
    size_t expansions;
    size_t hash_blocks;
    size_t length;                      /* of the answer, in the output */
    uint8_t handle;                     /* RSA key for an initial answer */
} plaid_answer;

/*
 * What a command call hands back. The work sum is no part of the answer. It is
 * made over keys and texts, for tests and audits; it stays in the card's side
 * and is not sent.
 */
typedef struct plaid_outcome {
    plaid_answer answer;
    uint32_t sum;                       /* work sum over the steps counted */
    plaid_card card;                    /* replaces the old one */
} plaid_outcome;

/*
 * Runs one command on a card.
 *
 * In: the card; the interface that the command came in by, 0 for contact or 1
 * for contactless; the command's bytes; 253 fresh bytes (see "What the platform
 * lends"); and an output buffer of at least 256 bytes. Any number is taken as
 * interface, and a wrong one is declined.
 *
 * Back: the answer, the work sum and the next card. THE CARD HANDED BACK
 * REPLACES THE OLD ONE, after each call, declined ones too. To use an old value
 * again is to roll the session back: a final command that was answered once
 * would be answered again; a failed try would not be counted; and key sets that
 * were changed would be good again. After a power cycle or a reset, go on from
 * the last card with its session closed, and not from the card that plaid_load
 * returned: see "On the line".
 *
 * A command is CLA 00, INS 87 or 86, P1 P2 0000, Lc from 1 to 255, Lc data
 * bytes, Le 00: Lc + 6 bytes in all.
 *
 * Initial command (INS 87). The data is a list of KeySetIDs in BER (ITU-T
 * X.690); the first one that the card holds wins.
 *   The bytes: 30, the length of all that follows, and for each KeySetID 04,
 *   its length 2, and its two bytes. Sets 0001 and 0102, as plaid_list writes
 *   them, are 30 08 04 02 00 01 04 02 01 02, the command 00 87 00 00 0A, these
 *   ten, 00.
 *   A length, the list's or an entry's, is one byte from 00 to 7F; or a byte
 *   from 81 to FE, which is 80 plus how many bytes follow, and these, high byte
 *   first. Leading zeros are allowed: 30 82 00 08 is 30 08, 04 82 00 02 is
 *   04 02. No value wraps: 2^64 + 8 in nine bytes is not 8.
 *   The list alone may have the indefinite form: 30 80, the entries, 00 00.
 *   Anything else is malformed: another tag; a length of the list that is not
 *   what follows it, or of an entry that is not 2; the length byte FF; 80 at an
 *   entry; too few bytes; 30 80 without 00 00; bytes behind the list's end,
 *   00 00 behind a definite length too.
 *   A malformed list is no error: it is refused like one with no set in common,
 *   with 256 bytes and 9000. Where sessions end with 15 for no reason that can
 *   be seen, look at these bytes first.
 *   length 256, status 9000, and in the output a block to encrypt under
 *   `handle`: 00 02, the pad bytes, 00, and 50, 66 or 82 bytes.
 *   accepted: those are KeySetID, DivData, RND1 and RND1 again, where RND1 is
 *       the first L fresh bytes. The handle is that key set's. The session
 *       opens, with that set's FAKey, and replaces any other.
 *   refused (no set in common, or a malformed list): those are the first 50, 66
 *       or 82 fresh bytes. The handle is the shill handle. No session is open.
 *   counts: 8 floor(Lc / 4) comparisons, whatever the list's form; the rest 0.
 *
 * Final command (INS 86). The data is STR2 as plaid_seal writes it.
 *   length 16 B, status 9000, handle 0: nothing to encrypt, the output is sent
 *   as it is.
 *   accepted: record, filler (see plaid_load), DivData and padding, by CBC
 *       under KeysHash. B blocks, whichever record it is.
 *   refused: the first 16 B fresh bytes, by CBC under the shill key.
 *   The FAKey is the session's own. Key sets that were loaded since the initial
 *   command make no difference.
 *   The session closes either way. A payload is checked with the rest and not
 *   used.
 *   counts: 16 comparisons, floor(Lc / 16) decipherments, B + 1 encipherments
 *   or, for L over 16, B + 2; 3 expansions; 1 hash block or, for L = 32, 2.
 *
 * Failed tries. A refused final command adds 1 to the card's count for the
 * interface of its call; where that is at 65535, it stays. The other count is
 * kept. Why the command was refused makes no difference: no session, a wrong
 * key, another mode, a damaged text. Nothing else is counted: not an accepted
 * final command, not an initial one, refused or not, and not a declined call.
 *
 * No answer depends on the counts. Two cards that are equal but for them answer
 * the same calls alike, every byte; this is proved. Nor does an answer depend
 * on which of the two interfaces a call names.
 *
 * Accepted and refused have the same number, status, counts and length. Tell
 * an initial answer from a final one by the command's INS or by the length,
 * 256 or at most 96; not by the handle, since a key set's handle may be 0.
 *
 * Send: the answer's `length` bytes, an initial one's encrypted, and then the
 * status, high byte first.
 *
 * Declines, in the order in which they are tested. Each keeps the card as it
 * was, its session and its failed tries too, and writes nothing. Length, counts
 * of steps, sum and handle are 0.
 *   number 26   interface is not 0 or 1
 *   number  8   fresh_len is not 253
 *   number  9   one of the last 203, 187 or 171 fresh bytes is 0
 *   number 10   out_len is below 256
 *     These four are faults of the platform. Their status is 0 and is not
 *     sent; put it right and call again.
 *   status 6700 under 4 bytes
 *   status 6E00 CLA is not 00
 *   status 6D00 INS is not 87 or 86
 *   status 6A86 P1 P2 is not 0000
 *   status 6700 any other fault: Lc is missing or 0, the length is not
 *               Lc + 6, or Le is not 00
 *     These have number 0. The status is sent, with no bytes before it.
 *
 * Written: the first `length` bytes of the output, and no others.
 */
plaid_outcome plaid_command(plaid_card card, size_t interface,
                            const uint8_t *command, size_t command_len,
                            const uint8_t *fresh, size_t fresh_len,
                            uint8_t *out, size_t out_len);

/*
 * Reads a card's counts of failed tries.
 *
 * In: the card, at any time, also in a session.
 *
 * Back: how many final commands it refused since plaid_load made it, by
 * interface, as `tries` of the card has them. 65535 is that many or more.
 * Reading changes nothing: the card goes on as it was. No call sets a count
 * back to 0, a load of key sets neither; plaid_load makes a new card.
 *
 * A count does not tell why. Strangers are in it, and so are our own readers
 * with a wrong FAKey, or an old one, or a mode that the card does not hold, and
 * two programs that take turns at one card. A stranger who sends initial
 * commands alone is not.
 *
 * Guard the counts. Who sees them before and after a command knows whether it
 * was refused, which the answer hides. No command of the library sends them; a
 * platform that does, sends them to the personaliser and to maintenance alone.
 *
 * Declines: none. Written: nothing.
 */
plaid_tries plaid_read_tries(plaid_card card);

/*
 * The reader
 */

/* The reader's KeySetIDs in order of preference: the first `count`. */
typedef struct plaid_ids {
    plaid_key_set_id ids[PLAID_LIST_IDS];
    size_t count;                       /* past it nothing is looked at */
} plaid_ids;

typedef struct plaid_written {
    uint8_t number;                     /* 0, or 11 to 13 */
    size_t length;                      /* of the command */
} plaid_written;

/*
 * List: makes the initial command for 1 to 16 KeySetIDs.
 *
 * Back: number 0 and the command's length, 4 count + 8: from 12 to 72. Each
 * length in the list is one byte. The other forms that plaid_command takes are
 * never written.
 *
 * Declines, in the order in which they are tested:
 *   11  count is 0, or over 16
 *   12  a KeySetID stands twice
 *   13  out_len is below 4 count + 8
 *
 * Written: the command, and no byte behind it. After a decline nothing.
 */
plaid_written plaid_list(plaid_ids of, uint8_t *out, size_t out_len);

typedef struct plaid_opened {
    uint8_t number;                     /* 0; 14, 15, 21 */
    size_t place;                       /* of the winner, counted from 0 */
    plaid_key_set_id id;                /* its KeySetID */
    uint8_t div_data[PLAID_DIV_DATA];   /* the card's DivData */
    plaid_value rnd1;                   /* the card's RND1, L bytes */
} plaid_opened;

/*
 * Open: finds the key set of a card's answer to the initial command.
 *
 * In: L, which is the card's too; the same KeySetIDs as List got; and one
 * decrypted block of 256 bytes for each of them, in their order, one behind the
 * other (see "What the platform lends").
 *
 * Back: number 0; the place, KeySetID, DivData and RND1 of the first block
 * that opens. A block opens if it is 00 02, 203, 187 or 171 bytes that are not
 * 0, 00, and 50, 66 or 82 bytes whose KeySetID is that entry's and whose two
 * RND1 are equal. Every block is examined.
 *
 * Declines, in the order in which they are tested:
 *   21  key_length is not 16, 24 or 32
 *   14  count is 0, or over 16; or blocks_len is not 256 count
 *   15  no block opens: the card holds no listed key set, has another L, or is
 *       none of ours. Which of these, the answer does not tell
 *
 * Written: nothing.
 */
plaid_opened plaid_open(size_t key_length, plaid_ids of,
                        const uint8_t *blocks, size_t blocks_len);

/* What Seal is given beside the payload. */
typedef struct plaid_sealing {
    size_t key_length;                  /* L, as Open got it */
    plaid_value fa_key;                 /* of the key set that Open found */
    uint8_t div_data[PLAID_DIV_DATA];   /* as Open gave it */
    plaid_value rnd1;                   /* as Open gave it */
    plaid_value rnd2;                   /* L fresh bytes, new each session */
    plaid_op_mode_id mode;              /* whose record is wanted */
} plaid_sealing;

typedef struct plaid_sealed {
    uint8_t number;                     /* 0; 16, 17, 21, 22 */
    size_t length;                      /* of the command */
    plaid_value keys_hash;              /* for this session's Accept */
} plaid_sealed;

/*
 * Seal: makes the final command for a mode, with a payload of 0 to 205, 189 or
 * 173 bytes.
 *
 * Back: number 0; the command's length, Lc + 6; and KeysHash, the first L bytes
 * of SHA-256 over RND1 and RND2. STR2 is OpModeID, RND2, payload, KeysHash and
 * padding, so Lc = 16 (floor((2 + 2 L + payload_len) / 16) + 1), from 48, 64 or
 * 80 to 240.
 *
 * KeysHash is the session's key. Give it to this session's Accept and to no
 * other; never seal twice with one RND2.
 *
 * Declines, in the order in which they are tested:
 *   21  key_length is not 16, 24 or 32
 *   22  FAKey, RND1 or RND2 is not of L bytes
 *   16  payload_len is over 205, 189 or 173
 *   17  out_len is below Lc + 6
 *
 * Written: the command, and no byte behind it. After a decline nothing.
 */
plaid_sealed plaid_seal(plaid_sealing of,
                        const uint8_t *payload, size_t payload_len,
                        uint8_t *out, size_t out_len);

/* What Accept is given beside the response. */
typedef struct plaid_accepting {
    size_t key_length;                  /* L, as Seal got it */
    plaid_value keys_hash;              /* as Seal gave it */
    uint8_t div_data[PLAID_DIV_DATA];   /* as Open gave it */
    size_t record_length;               /* of the mode's record; any number */
} plaid_accepting;

typedef struct plaid_accepted {
    uint8_t number;                     /* 0; 18 to 22 */
    size_t length;                      /* of the record; 0 after a decline */
} plaid_accepted;

/*
 * Accept: checks a card's answer to the final command, and gives the record.
 *
 * In: L and KeysHash; the answer without its status, 32, 48, 64, 80 or 96
 * bytes, whatever L is; a work buffer at least as long; and in record_length
 * how long the record is on the card, of the mode that Seal asked for. Any
 * record_length is taken, and one that no answer can have is declined.
 *
 * Back: number 0 and the record's length, 1 to 64, which is record_length. The
 * record is the first record_length bytes of the work buffer; plaid_record says
 * the same. Take it out only where number is 0.
 *
 * The record's length. Before DivData stand 1 to 64 bytes, the record and its
 * filler (see plaid_load), and nothing says where the one ends and the other
 * begins. So the reader has to know, for each mode that it asks for, how many
 * bytes the cards were loaded with. The filler is not looked at. A length that
 * is not the card's is found only where it is 0 or more than stands there,
 * which is 20. One that is too short cuts the record, and one that is too long
 * but within the filler hands back zeros behind it, both with number 0.
 *
 * Declines, in the order in which they are tested:
 *   21  key_length is not 16, 24 or 32
 *   22  KeysHash is not of L bytes: that of a Seal that was declined too
 *   18  response_len is not 32, 48, 64, 80 or 96. To the reader a failed
 *       authentication like 20: another maker's card may refuse with an
 *       answer of any length
 *   19  work_len is below response_len
 *   20  not authenticated: padding or DivData is wrong, not 1 to 64 bytes
 *       stand before DivData, record_length is 0, or fewer bytes than
 *       record_length stand there; one number for all. The card refused, or is
 *       another, or the answer was changed; or the reader has a wrong length
 *       for this mode
 *
 * Written: the first response_len bytes of the work buffer and no others. They
 * are the deciphered answer: record, filler, DivData and padding. After 20 they
 * are zeros. After 18, 19, 21 and 22 nothing is written.
 */
plaid_accepted plaid_accept(plaid_accepting of,
                            const uint8_t *response, size_t response_len,
                            uint8_t *work, size_t work_len);

/* A part of a buffer: `length` bytes from `start` on. */
typedef struct plaid_part {
    size_t start;                       /* counted from 0 */
    size_t length;
} plaid_part;

/*
 * The record that Accept gave, as a part of the work buffer.
 *
 * In: the work buffer as plaid_accept left it, and what plaid_accept handed
 * back.
 *
 * Back: where the record stands: the first of.length bytes, so start is 0.
 * After a decline the part is empty. Where of.length is more than work_len,
 * which plaid_accept never says of that buffer, the part is the whole buffer:
 * it is never outside.
 *
 * Declines: none. Written: nothing.
 */
plaid_part plaid_record(const uint8_t *work, size_t work_len,
                        plaid_accepted of);

/*
 * Door numbers
 *
 * Each of the four functions takes all bytes of a text or a record, and an
 * output of at least the other's size. See "Door numbers" above.
 */

typedef struct plaid_converted {
    uint8_t number;                     /* 0, or 23 to 25 */
    size_t length;                      /* of what was written */
} plaid_converted;

/*
 * A Wiegand number has 26 bits. In their order:
 *
 *   1 bit     even parity: with the first 12 of the 24 data bits behind it an
 *             even number of ones
 *   8 bits    data: facility, 0 to 255, high bit first
 *   16 bits   data: number, 0 to 65535, high bit first
 *   1 bit     odd parity: with the last 12 data bits, those before it, an odd
 *             number of ones
 *
 * As text they are 26 characters, 0 or 1. As a record they are the low 26 bits
 * of 4 bytes, high byte first, with zeros above: the first byte is 00 to 03,
 * and its bit of value 2 is the even parity. So in a record r of 32 bits the
 * facility is r >> 17 & 255 and the number r >> 1 & 65535.
 *
 *   facility 21, number 4711:   text     00001010100010010011001111
 *                               record   00 2A 24 CF
 */

/*
 * A Wiegand number from text to record.
 *
 * In: a text of 26 characters, and an output of at least 4 bytes.
 *
 * Back: number 0 and the record's length, 4.
 *
 * Declines, in the order in which they are tested:
 *   23  text_len is not 26, or out_len is below 4
 *   25  a character is neither 0 nor 1, the bytes 30 and 31
 *   24  the even or the odd parity is wrong
 *
 * Written: the record, and no byte behind it. After a decline nothing.
 */
plaid_converted plaid_wiegand_record(const uint8_t *text, size_t text_len,
                                     uint8_t *out, size_t out_len);

/*
 * A Wiegand number from record to text.
 *
 * In: a record of 4 bytes, and an output of at least 26.
 *
 * Back: number 0 and the text's length, 26.
 *
 * Declines, in the order in which they are tested:
 *   23  record_len is not 4, or out_len is below 26
 *   24  one of the six bits above the 26 is set, or the even or the odd parity
 *       is wrong; one number for all. The record is no Wiegand number
 *
 * Written: the text, and no byte behind it: no NUL. After a decline nothing.
 */
plaid_converted plaid_wiegand_text(const uint8_t *record, size_t record_len,
                                   uint8_t *out, size_t out_len);

/*
 * A UUID (RFC 4122) from text to record.
 *
 * In: a text of 36 characters, and an output of at least 16 bytes. The text is
 * the record's bytes in their order, two hexadecimal digits for each, with a
 * hyphen behind the 4th, 6th, 8th and 10th byte:
 *
 *   f81d4fae-7dec-11d0-a765-00a0c91e6bf6
 *
 * A digit is 0 to 9, a to f or A to F; capitals and small letters may stand in
 * one text. Neither urn:uuid: before it nor braces around it are taken.
 *
 * Back: number 0 and the record's length, 16. Any version and variant is taken,
 * the nil UUID too.
 *
 * Declines, in the order in which they are tested:
 *   23  text_len is not 36, or out_len is below 16
 *   25  at the places 8, 13, 18 and 23, counted from 0, is no hyphen, or at any
 *       other no hexadecimal digit
 *
 * Written: the record, and no byte behind it. After a decline nothing.
 */
plaid_converted plaid_uuid_record(const uint8_t *text, size_t text_len,
                                  uint8_t *out, size_t out_len);

/*
 * A UUID from record to text, with small letters.
 *
 * In: a record of 16 bytes, whatever they are, and an output of at least 36.
 *
 * Back: number 0 and the text's length, 36.
 *
 * Declines:
 *   23  record_len is not 16, or out_len is below 36
 *
 * Written: the text, and no byte behind it: no NUL. After a decline nothing.
 */
plaid_converted plaid_uuid_text(const uint8_t *record, size_t record_len,
                                uint8_t *out, size_t out_len);

#ifdef __cplusplus
}
#endif

#endif
