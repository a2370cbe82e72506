/* Lines of hexadecimal bytes. */
#ifndef HEX_H
#define HEX_H

#include <stdbool.h>
#include <stddef.h>
#include <stdint.h>
#include <stdio.h>

/* Why there are no bytes. */
#define HEX_END (-1)   /* the file has ended, or cannot be read */
#define HEX_DIGIT (-2) /* a character that is no hexadecimal digit */
#define HEX_HALF (-3)  /* an odd number of digits */

/* Reads hexadecimal digits, two for a byte. Returns how many bytes they are, of which the first `room` are written; or HEX_.. */
long hex_bytes(const char *text, uint8_t *to, size_t room);

/* The same of the next line of a file, however long. A line that is no hexadecimal is read to its end. */
long hex_line(FILE *from, uint8_t *to, size_t room);

/* HEX_.. in words. */
const char *hex_words(long why);

/* Writes bytes as a line, and sends it off. False where it did not go. */
bool hex_write(FILE *to, const uint8_t *bytes, size_t count);

#endif
