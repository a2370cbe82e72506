/* The keys, identifiers and records of the examples. */
#ifndef EXAMPLE_H
#define EXAMPLE_H

#include "plaid.h"

/* L where no other is asked for. Both ends need the same. */
#define EXAMPLE_KEY_LENGTH 16

/* Takes -L16, -L24 or -L32 off the front of a program's arguments. False where another flag stands there. */
bool example_key_length(int *argc, char ***argv, size_t *key_length);

/* The card: key sets 0102 and 0203; mode 0007 with a Wiegand number of 4 bytes, mode 0008 with a UUID of 16. */
plaid_loaded example_card(size_t key_length);

/* Another card with the same shill keys, L and reply size: other key set, other mode, other record of another length. */
plaid_loaded example_other_card(size_t key_length);

/* The key sets that a key change brings: 0204, and 0102 with another FAKey. 0203 goes. The other card gets another set of its own. */
#define EXAMPLE_NEW_SETS 2
void example_new_sets(size_t key_length, plaid_key_set to[EXAMPLE_NEW_SETS]);
void example_new_other_set(size_t key_length, plaid_key_set *to);

/* The reader's key sets in order of preference, 0301 and 0102; the handle names its private RSA key. */
#define EXAMPLE_READER_SETS 2
void example_reader(size_t key_length, plaid_key_set to[EXAMPLE_READER_SETS]);

/* The same behind the key change. */
void example_new_reader(size_t key_length, plaid_key_set to[EXAMPLE_READER_SETS]);

/* A reader that has no set in common with the card: 0301 and 0302. */
void example_strange_reader(size_t key_length, plaid_key_set to[EXAMPLE_READER_SETS]);

/* A mode as the reader knows it. No answer says how long its record is. */
typedef struct {
    plaid_op_mode_id id;
    size_t record_length;
    const char *name;
} example_mode;

/* The card's two modes, and one that it does not hold. */
extern const example_mode example_wiegand, example_uuid, example_unknown;

/* The mode of this number; NULL where the reader does not know it. */
const example_mode *example_mode_of(plaid_op_mode_id id);

#endif
