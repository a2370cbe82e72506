#include "hex.h"

#include <string.h>

/* What was read of a text so far. */
typedef struct {
    uint8_t *to;
    size_t room, digits;
    bool wrong; /* a character that is no digit */
} hex_text;

static void take(hex_text *t, int c)
{
    static const char figures[] = "0123456789abcdef0123456789ABCDEF";
    const char *at = c ? strchr(figures, c) : NULL;
    if (!at) {
        t->wrong = true;
        return;
    }
    size_t byte = t->digits / 2;
    if (byte < t->room)
        t->to[byte] = (uint8_t)((t->digits % 2 ? t->to[byte] << 4 : 0) | ((at - figures) & 15));
    t->digits++;
}

static long taken(const hex_text *t)
{
    if (t->wrong)
        return HEX_DIGIT;
    return t->digits % 2 ? HEX_HALF : (long)(t->digits / 2);
}

long hex_bytes(const char *text, uint8_t *to, size_t room)
{
    hex_text t = {to, room, 0, false};
    for (; *text; text++)
        take(&t, *text);
    return taken(&t);
}

long hex_line(FILE *from, uint8_t *to, size_t room)
{
    hex_text t = {to, room, 0, false};
    int c = getc(from);
    if (c == EOF)
        return HEX_END;
    for (; c != EOF && c != '\n'; c = getc(from)) {
        int next = c == '\r' ? getc(from) : 0;
        if (c == '\r' && (next == '\n' || next == EOF))
            break;
        if (c == '\r')
            ungetc(next, from);
        take(&t, c);
    }
    return taken(&t);
}

const char *hex_words(long why)
{
    if (why == HEX_END)
        return "nothing more can be read";
    return why == HEX_DIGIT ? "not hexadecimal" : "half a byte, an odd number of digits";
}

bool hex_write(FILE *to, const uint8_t *bytes, size_t count)
{
    for (size_t i = 0; i < count; i++)
        fprintf(to, "%02X", bytes[i]);
    fputc('\n', to);
    return fflush(to) == 0 && !ferror(to);
}
