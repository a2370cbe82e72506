/* Key sets that the personaliser leaves in a file: a line of hexadecimal bytes for each, its KeySetID, RSA handle and FAKey. */
#ifndef KEY_FILE_H
#define KEY_FILE_H

#include "plaid.h"

/* One more than a card takes, so that the library sees that there are too many. */
#define KEY_FILE_SETS (PLAID_CARD_KEY_SETS + 1)

/* Why there are none. */
#define KEY_FILE_MISSING (-1) /* there is no file */
#define KEY_FILE_LINE (-2)    /* a line is no key set */

/* Reads the file and removes it, so that it is taken once. Returns how many key sets it has, at most KEY_FILE_SETS; or KEY_FILE_.. */
long key_file_take(const char *path, plaid_key_set to[KEY_FILE_SETS]);

#endif
