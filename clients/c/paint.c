/* A script in colours, token by token.
 *
 * A colour ends before each newline and begins anew behind it, so that every line can be looked at by itself. Control characters but newline and tab are
 * shown as ^ and a letter, so that a script cannot move the cursor.
 */
#include <stdio.h>

#include "forms.h"

/* What a terminal is told (ECMA-48, SGR) before a token of a kind; nothing where it stays as it is. */
static const char *colour_of(uint32_t kind) {
    switch (kind) {
    case KOTO_KIND_ERROR:
        return "\033[7m"; /* reverse */
    case KOTO_KIND_COMMENT_SINGLE:
    case KOTO_KIND_COMMENT_MULTI:
        return "\033[2m"; /* dim */
    case KOTO_KIND_STRING_START:
    case KOTO_KIND_STRING_END:
    case KOTO_KIND_STRING_LITERAL:
        return "\033[32m"; /* green */
    case KOTO_KIND_NUMBER:
        return "\033[36m"; /* cyan */
    default:
        return KOTO_KIND_AS <= kind && kind <= KOTO_KIND_LET ? "\033[1m" : ""; /* keywords bold */
    }
}

static const char PLAIN[] = "\033[0m";

/* Prints the character at the start of some bytes, and answers how many it has. */
static size_t print_shown(const uint8_t *at, size_t len) {
    uint32_t code;
    size_t bytes;
    if (koto_read_char(at, len, 0, &code, &bytes) != 0) {
        /* An Error may be the first byte of a character. */
        fputs("\xef\xbf\xbd", stdout);
        return 1;
    }
    if (code < 0x20 && code != '\t') {
        printf("^%c", (int)code + '@');
    } else if (0x7f <= code && code < 0xa0) {
        printf("^%c", code == 0x7f ? '?' : (int)code - '@');
    } else {
        fwrite(at, 1, bytes, stdout);
    }
    return bytes;
}

/* How many bytes of a newline stand at the start of some bytes: 0, 1, or 2 for CR LF. */
static size_t newline_at(const uint8_t *at, size_t len) {
    if (len > 1 && at[0] == '\r' && at[1] == '\n') {
        return 2;
    }
    return len > 0 && at[0] == '\n' ? 1 : 0;
}

void paint_token(const uint8_t *at, size_t len, uint32_t kind, bool reverse) {
    const char *colour = colour_of(reverse ? KOTO_KIND_ERROR : kind);
    size_t i = 0;
    while (i < len) {
        size_t newline = newline_at(at + i, len - i);
        if (newline > 0) {
            fwrite(at + i, 1, newline, stdout);
            i += newline;
            continue;
        }
        fputs(colour, stdout);
        while (i < len && newline_at(at + i, len - i) == 0) {
            i += print_shown(at + i, len - i);
        }
        if (colour[0] != '\0') {
            fputs(PLAIN, stdout);
        }
    }
}
