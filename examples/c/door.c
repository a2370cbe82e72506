#include "door.h"
#include "platform.h"

#include <string.h>

bool door_has(size_t record_length)
{
    return record_length == PLAID_WIEGAND_RECORD || record_length == PLAID_UUID_RECORD;
}

uint8_t door_text(const uint8_t *record, size_t record_length, char text[DOOR_TEXT])
{
    uint8_t *out = (uint8_t *)text;
    plaid_converted c = record_length == PLAID_WIEGAND_RECORD ? plaid_wiegand_text(record, record_length, out, DOOR_TEXT - 1)
                                                              : plaid_uuid_text(record, record_length, out, DOOR_TEXT - 1);
    text[c.length] = '\0'; /* the library writes none */
    return c.number;
}

uint8_t door_record(const char *text, uint8_t *record, size_t record_length)
{
    const uint8_t *in = (const uint8_t *)text;
    size_t length = strlen(text);
    if (record_length == PLAID_WIEGAND_RECORD)
        return plaid_wiegand_record(in, length, record, record_length).number;
    return plaid_uuid_record(in, length, record, record_length).number;
}

/* Even parity, facility, number, odd parity: from bit 25 on. */
static void write_wiegand(FILE *to, const uint8_t record[PLAID_WIEGAND_RECORD], const char *text)
{
    uint32_t bits = (uint32_t)record[0] << 24 | (uint32_t)record[1] << 16 | (uint32_t)record[2] << 8 | record[3];
    fprintf(to, "%s  facility %u, number %u", text, (unsigned)(bits >> 17 & 0xFF), (unsigned)(bits >> 1 & 0xFFFF));
}

void door_write(FILE *to, const uint8_t *record, size_t record_length)
{
    char text[DOOR_TEXT];
    uint8_t number = door_text(record, record_length, text);
    if (number != PLAID_DONE)
        fprintf(to, "refused, number %d", number);
    else if (record_length == PLAID_WIEGAND_RECORD)
        write_wiegand(to, record, text);
    else
        fprintf(to, "%s", text);
    platform_erase(text, sizeof text);
}
