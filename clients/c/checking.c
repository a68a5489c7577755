/* kotolex --check: whether a list that another lexer made, in the lines that kotolex prints, is the script's. */
#include <stdlib.h>
#include <string.h>

#include "kotolex.h"

/* A line has ten numbers of at most ten digits. */
#define LINE_ROOM 256
#define LINE_NUMBERS 10
/* The first word of no record that a scan writes. */
#define NO_RECORD UINT32_MAX

/* Another lexer's list, with its count and its status. */
typedef struct {
    words records;
    size_t count;
    uint32_t status;
} foreign;

/* Splits a line into numbers of 32 bits. How many they are; 0 where a word is another or they are too many. */
static size_t read_numbers(char *line, uint32_t *to) {
    size_t n = 0;
    for (char *word = strtok(line, " \n"); word != NULL; word = strtok(NULL, " \n")) {
        if (n == LINE_NUMBERS || !read_number_32(word, &to[n])) {
            return 0;
        }
        n++;
    }
    return n;
}

/* Puts a record behind those that were read: kind, detail, the seven numbers that stand in a list as they are, depth. */
static bool put_record(const uint32_t *numbers, foreign *to, size_t *room) {
    if (to->records.len == *room) {
        size_t more = *room == 0 ? KOTO_RECORD_WORDS * 1024 : 2 * *room;
        uint32_t *at = realloc(to->records.at, more * sizeof *at);
        if (at == NULL) {
            return false;
        }
        to->records.at = at;
        *room = more;
    }
    /* Numbers that have no room beside each other would be read as others. */
    bool fits = numbers[0] < 128 && numbers[1] < 8192 && numbers[9] < 256;
    uint32_t *record = to->records.at + to->records.len;
    record[0] = fits ? numbers[0] + 128 * numbers[1] + 1048576 * numbers[9] : NO_RECORD;
    memcpy(record + 1, numbers + 2, (KOTO_RECORD_WORDS - 1) * sizeof *record);
    to->records.len += KOTO_RECORD_WORDS;
    return true;
}

/* Reads the last line: how the list ended. False for another line. */
static bool read_end(char *line, foreign *to) {
    static const char *const ends[] = {"end ", "stuck ", "refused "};
    uint32_t numbers[LINE_NUMBERS];
    for (uint32_t status = KOTO_END; status <= KOTO_REFUSED; status++) {
        size_t len = strlen(ends[status]);
        if (strncmp(line, ends[status], len) == 0) {
            bool whole = read_numbers(line + len, numbers) == 2;
            to->status = status;
            to->count = status == KOTO_REFUSED ? to->records.len / KOTO_RECORD_WORDS : numbers[0];
            return whole;
        }
    }
    return false;
}

/* Reads the lines of a list. */
static int read_lines(FILE *file, const char *path, foreign *to) {
    char line[LINE_ROOM];
    uint32_t numbers[LINE_NUMBERS];
    size_t room = 0;
    while (fgets(line, sizeof line, file) != NULL) {
        if (strchr("0123456789", line[0]) == NULL) {
            bool whole = read_end(line, to) && fgetc(file) == EOF;
            return whole ? FINE : fail(NO_LIST, "no list as kotolex prints it", path);
        }
        /* A line that is longer than the room would be taken for two. */
        if (strchr(line, '\n') == NULL || read_numbers(line, numbers) != LINE_NUMBERS) {
            break;
        }
        if (!put_record(numbers, to, &room)) {
            return fail(NO_MEMORY, "no memory for the list", path);
        }
    }
    return fail(NO_LIST, "no list as kotolex prints it", path);
}

int check_list(bytes script, words table, uint32_t edition, const char *path) {
    FILE *file = open_file(path);
    if (file == NULL) {
        return fail(NO_LIST, "can't open", path);
    }
    foreign list = {{NULL, 0}, 0, KOTO_REFUSED};
    int status = read_lines(file, path, &list);
    fclose(file);
    if (status == FINE) {
        uint32_t none = 0, same;
        size_t differs, place;
        const uint32_t *records = list.records.at == NULL ? &none : list.records.at;
        uint32_t refused = koto_check_list(script.at, script.len, table.at, table.len, edition, records, list.records.len, list.count,
                                           list.status, &same, &differs, &place);
        if (refused != 0) {
            status = print_refused(refused, place, refused == KOTO_CUT_UTF8 ? STILL_ARRIVING : SCAN_REFUSED);
        } else if (same == 1) {
            puts("same");
        } else {
            printf("differs %zu\n", differs);
            status = LIST_DIFFERS;
        }
    }
    free(list.records.at);
    return status;
}
