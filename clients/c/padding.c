/* kotolex --pad: each line of a file, padded to a width. */
#include <stdlib.h>
#include <string.h>

#include "kotolex.h"

bool read_padding(const char *width, const char *align, const char *fill, padding *to) {
    static const char *const sides[] = {"default", "left", "center", "right"};
    for (to->alignment = 0; align != NULL && strcmp(align, sides[to->alignment]) != 0;) {
        to->alignment++;
        if (to->alignment == sizeof sides / sizeof sides[0]) {
            return false;
        }
    }
    if (!read_number(width, &to->width)) {
        return false;
    }
    to->filled = fill != NULL;
    to->fill = (const uint8_t *)(to->filled ? fill : " ");
    to->fill_len = strlen((const char *)to->fill);
    return true;
}

/* Pads one line and prints it. */
static int pad_line(const uint8_t *line, size_t len, const padding *by, words table, uint32_t edition) {
    /* Room for the line and as many fills as the width asks for; what is refused needs none. */
    size_t room = len + (by->width <= UINT32_MAX && by->fill_len <= KOTO_TEXT_MOST ? (size_t)by->width * by->fill_len : 0);
    uint8_t *buffer = malloc(room + 1);
    if (buffer == NULL) {
        return fail(NO_MEMORY, "no memory for a padded line", "");
    }
    size_t padded, place;
    uint32_t refused = koto_pad(line, len, by->alignment, by->width, by->filled, by->fill, by->fill_len, table.at, table.len,
                                edition, buffer, room, &padded, &place);
    if (refused == 0) {
        fwrite(buffer, 1, padded, stdout);
        putchar('\n');
    }
    free(buffer);
    return refused == 0 ? FINE : print_refused(refused, place, PAD_REFUSED);
}

int pad_lines(bytes text, words table, uint32_t edition, const padding *by) {
    if (text.len > KOTO_SOURCE_MOST) {
        return print_refused(KOTO_TOO_LONG, 0, PAD_REFUSED);
    }
    int status = FINE;
    for (size_t start = 0; status == FINE && start < text.len;) {
        const uint8_t *newline = memchr(text.at + start, '\n', text.len - start);
        size_t end = newline == NULL ? text.len : (size_t)(newline - text.at);
        status = pad_line(text.at + start, end - start, by, table, edition);
        start = end + 1;
    }
    return status;
}
