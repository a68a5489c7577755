/* kotolex.h: what the parts of kotolex share. */
#ifndef KOTOLEX_H
#define KOTOLEX_H

#include <stdbool.h>
#include <stddef.h>
#include <stdint.h>
#include <stdio.h>

#include "koto_lexer.h"

/* Exit statuses. */
enum {
    FINE = 0,
    SCAN_REFUSED = 1,
    PAD_REFUSED = 1,
    BAD_USAGE = 2,
    NO_SCRIPT = 3,
    NO_TABLE = 4,
    TABLE_REFUSED = 5,
    NO_MEMORY = 6,
    NO_OUTPUT = 7,
    STILL_ARRIVING = 8,
    LIST_DIFFERS = 9,
    NO_LIST = 10
};

typedef struct {
    uint8_t *at;
    size_t len;
} bytes;

typedef struct {
    uint32_t *at;
    size_t len;
} words;

/* ---- kotolex.c ---- */

/* Says on standard error what failed, and answers the status. */
int fail(int status, const char *what, const char *name);

/* Prints a refusal, and answers the status. */
int print_refused(uint32_t number, size_t place, int status);

/* Reads a number of at most 19 digits. False for another word. */
bool read_number(const char *word, uint64_t *to);

/* Reads a number of 32 bits. False for another word. */
bool read_number_32(const char *word, uint32_t *to);

/* Opens a file, or standard input. NULL if it can't be opened. */
FILE *open_file(const char *path);

/* ---- checking.c ---- */

/* Checks the list of a file against the script. */
int check_list(bytes script, words table, uint32_t edition, const char *path);

/* ---- padding.c ---- */

typedef struct {
    uint64_t alignment;
    uint64_t width;
    bool filled;
    const uint8_t *fill;
    size_t fill_len;
} padding;

/* Reads the words of --pad, of which the last two may be NULL. False where one is not as the help says; whether a number is a width the library says. */
bool read_padding(const char *width, const char *align, const char *fill, padding *to);

/* Pads each line of a file. What stands behind the last newline is a line, if it is something. */
int pad_lines(bytes text, words table, uint32_t edition, const padding *by);

#endif
