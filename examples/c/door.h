/* Door numbers: what a record says to the door system. A record of 4 bytes is taken for a Wiegand number, one of 16 for a UUID. */
#ifndef DOOR_H
#define DOOR_H

#include "plaid.h"

#include <stdio.h>

/* A text with a NUL behind it. */
#define DOOR_TEXT (PLAID_UUID_TEXT + 1)

/* Whether a record of this length is taken for a door number. */
bool door_has(size_t record_length);

/* From record to text. Returns the library's number; where that is not 0 the text is empty. The text is as secret as the record. */
uint8_t door_text(const uint8_t *record, size_t record_length, char text[DOOR_TEXT]);

/* And back, to a record of that length. Where the library's number is not 0 nothing is written. */
uint8_t door_record(const char *text, uint8_t *record, size_t record_length);

/* Writes the text of a record, a Wiegand number's with facility and number behind it; or the library's number. No line end. */
void door_write(FILE *to, const uint8_t *record, size_t record_length);

#endif
