#include "key_file.h"
#include "hex.h"
#include "platform.h"

#include <string.h>

#define HEAD 3 /* KeySetID and handle */

/* The FAKey has the bytes that are left, whatever L is: the library sees whether it is of L bytes. */
static void take_set(const uint8_t *line, size_t length, plaid_key_set *to)
{
    size_t key = length - HEAD;
    memset(to, 0, sizeof *to);
    to->id.value = (uint16_t)(line[0] * 256 + line[1]);
    to->handle = line[2];
    to->fa_key.length = (uint8_t)(key < UINT8_MAX ? key : UINT8_MAX);
    memcpy(to->fa_key.bytes, line + HEAD, key < PLAID_VALUE_MOST ? key : PLAID_VALUE_MOST);
}

static long read_sets(FILE *from, plaid_key_set to[KEY_FILE_SETS])
{
    uint8_t line[HEAD + PLAID_VALUE_MOST];
    long length, count = 0;
    while (count >= 0 && count < KEY_FILE_SETS && (length = hex_line(from, line, sizeof line)) != HEX_END) {
        if (length >= HEAD)
            take_set(line, (size_t)length, &to[count++]);
        else
            count = KEY_FILE_LINE;
    }
    platform_erase(line, sizeof line);
    return count;
}

/* Reads through a buffer that is erased behind it. */
long key_file_take(const char *path, plaid_key_set to[KEY_FILE_SETS])
{
    static char text[BUFSIZ];
    FILE *f = fopen(path, "r");
    if (!f)
        return KEY_FILE_MISSING;
    setvbuf(f, text, _IOFBF, sizeof text);
    long count = read_sets(f, to);
    fclose(f);
    remove(path);
    platform_erase(text, sizeof text);
    return count;
}
