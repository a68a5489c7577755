/* kotodesks: a pool that two desks share, a line of standard input a call (include/koto_lexer.h, koto_desk_add_string).
 *
 *    kotodesks ENTRIES BYTES  E1 B1  E2 B2      the pool's room, and what the first and the second desk are guaranteed
 *
 * A line is a desk, 1 or 2, a letter and a string: `1 a x` adds "x" for the first desk, `2 p x<5` parses "x<5" for the second. Each prints the
 * refusal's number and place, or the index (of a parse the fill's, or - where there is none), and then both desks' charges. `c 0 2 / 1` compacts, with
 * the marks of the first desk and of the second, and prints each old index with its new one, or - where it is gone. */
#include "koto_lexer.h"
#include <inttypes.h>
#include <stdio.h>
#include <stdlib.h>
#include <string.h>

#define ROOM_MOST 4096u

/* The properties of document 01's small table, which is enough for the fills that one types: first code point, properties */
static const uint32_t RUNS[][2] = {
    {0x0, 48},   {0xA, 32},  {0xB, 48},  {0xD, 16},  {0xE, 48}, {0x20, 4}, {0x30, 6},     {0x3A, 4},  {0x41, 7},    {0x5B, 4}, {0x5F, 6},
    {0x60, 4},   {0x61, 7},  {0x7B, 4},  {0x7F, 48}, {0xA0, 4}, {0xE9, 7}, {0xEA, 4},     {0x300, 1090}, {0x370, 4}, {0x4E00, 11}, {0xA000, 4},
};
#define RUN_COUNT (sizeof RUNS / sizeof RUNS[0])

static uint8_t bytes[ROOM_MOST], owners[ROOM_MOST];
static koto_entry entries[ROOM_MOST];

static int is_number(const char *word, uint32_t *number) {
    char *end;
    unsigned long value = strtoul(word, &end, 10);
    *number = (uint32_t)value;
    return *word != 0 && *end == 0 && value <= ROOM_MOST;
}

static void print_desks(const koto_desks *desks) {
    printf(", charged %" PRIu32 " %" PRIu32 " and %" PRIu32 " %" PRIu32 "\n", desks->first.charged.entries, desks->first.charged.bytes,
           desks->second.charged.entries, desks->second.charged.bytes);
}

/* Compacts by a line of marks: those of the first desk, a slash, and those of the second. */
static void compact(const char *line, const uint32_t *given, koto_counts *counts, koto_desks *desks) {
    static uint32_t marks[2][ROOM_MOST], moved[ROOM_MOST];
    size_t len[2] = {0, 0};
    int desk = 0;
    for (char *end; *line != 0 && *line != '\n'; line = end) {
        end = (char *)line + 1;
        if (*line == '/') {
            desk = 1;
        } else if (*line >= '0' && *line <= '9') {
            unsigned long mark = strtoul(line, &end, 10);
            if (len[desk] < ROOM_MOST)
                marks[desk][len[desk]++] = mark > UINT32_MAX ? UINT32_MAX : (uint32_t)mark;
        }
    }
    uint32_t before = counts->entries;
    uint32_t refused = koto_compact(marks[0], len[0], marks[1], len[1], bytes, given[1], entries, given[0], owners, given[0], counts, desks,
                                    moved, ROOM_MOST);
    if (refused != 0)
        printf("refused %" PRIu32 " 0", refused);
    for (uint32_t i = 0; refused == 0 && i < before; i++) {
        printf("%s%" PRIu32, i == 0 ? "" : " ", i);
        if (moved[i] == KOTO_GONE)
            printf(":-");
        else
            printf(":%" PRIu32, moved[i]);
    }
    print_desks(desks);
}

int main(int argc, char **argv) {
    uint32_t given[6], table[RUN_COUNT];
    for (int i = 0; i < 6; i++) {
        if (argc != 7 || !is_number(argv[i + 1], &given[i])) {
            fputs("kotodesks: ENTRIES BYTES E1 B1 E2 B2, each at most 4096; a line a call: 1 a STRING, 2 p FORMAT, c MARKS / MARKS\n", stderr);
            return 2;
        }
    }
    for (size_t i = 0; i < RUN_COUNT; i++)
        table[i] = RUNS[i][0] * 2048u + RUNS[i][1];
    koto_counts counts = {0, 0};
    koto_desks desks = {{{given[2], given[3]}, {0, 0}}, {{given[4], given[5]}, {0, 0}}};
    char line[65536];
    while (fgets(line, sizeof line, stdin)) {
        size_t len = strcspn(line, "\n");
        if (line[0] == 'c' && line[1] == ' ') {
            compact(line + 2, given, &counts, &desks);
            continue;
        }
        if (len < 4 || (line[0] != '1' && line[0] != '2') || line[1] != ' ' || line[3] != ' ' || (line[2] != 'a' && line[2] != 'p')) {
            puts("a line is: 1 a STRING, 2 p FORMAT, or c MARKS / MARKS");
            continue;
        }
        uint32_t desk = line[0] == '1' ? KOTO_DESK_FIRST : KOTO_DESK_SECOND;
        const uint8_t *text = (const uint8_t *)line + 4;
        uint32_t refused, index = 0;
        size_t place = 0;
        uint64_t value = 0, fill = KOTO_NONE;
        if (line[2] == 'a') {
            refused = koto_desk_add_string(desk, text, len - 4, bytes, given[1], entries, given[0], owners, given[0], &counts, &desks, &index,
                                           &place);
            value = place;
            fill = index;
        } else {
            koto_options options;
            refused = koto_desk_parse(desk, text, len - 4, table, RUN_COUNT, KOTO_WITH_GB9C, bytes, given[1], entries, given[0], owners,
                                      given[0], &counts, &desks, &options, &value);
            fill = options.fill_index;
        }
        if (refused != 0)
            printf("refused %" PRIu32 " %" PRIu64, refused, value);
        else if (fill == KOTO_NONE)
            printf("-");
        else
            printf("%" PRIu64, fill);
        print_desks(&desks);
    }
    return 0;
}
