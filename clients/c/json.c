/* A list as JSON: an object a line. */
#include <stdio.h>
#include <string.h>

#include "forms.h"

/* A file's name as a JSON string. A byte that is no UTF-8 is written as the replacement character. */
static void print_string(const char *text) {
    const uint8_t *at = (const uint8_t *)text;
    size_t left = strlen(text), len;
    uint32_t code;
    putchar('"');
    while (left > 0) {
        if (koto_read_char(at, left, 0, &code, &len) != 0) {
            fputs("\\ufffd", stdout);
            len = 1;
        } else if (code < 0x20 || code == '"' || code == '\\') {
            printf("\\u%04x", (unsigned)code);
        } else {
            fwrite(at, 1, len, stdout);
        }
        at += len;
        left -= len;
    }
    putchar('"');
}

/* The beginning of each object. */
static void print_file(const char *file) {
    fputs("{\"file\":", stdout);
    print_string(file);
}

void json_record(const char *file, const koto_record *r) {
    print_file(file);
    printf(",\"kind\":%u,\"name\":\"%s\",\"detail\":%u,\"start\":%u,\"end\":%u,\"start_line\":%u,\"start_column\":%u,\"end_line\":%u,"
           "\"end_column\":%u,\"indent\":%u,\"depth\":%u}\n",
           (unsigned)r->kind, kind_name(r->kind), (unsigned)r->detail, (unsigned)r->start, (unsigned)r->end, (unsigned)r->start_line,
           (unsigned)r->start_column, (unsigned)r->end_line, (unsigned)r->end_column, (unsigned)r->indent, (unsigned)r->depth);
}

void json_end(const char *file, const char *status, size_t count, size_t byte) {
    print_file(file);
    printf(",\"status\":\"%s\",\"count\":%zu,\"byte\":%zu}\n", status, count, byte);
}

void json_refused(const char *file, uint32_t number, size_t place) {
    print_file(file);
    printf(",\"status\":\"refused\",\"number\":%u,\"place\":%zu}\n", (unsigned)number, place);
}
