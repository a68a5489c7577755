/* forms.h: what kotolex prints of a list beside numbers: names of kinds, JSON, and the script itself, painted. */
#ifndef FORMS_H
#define FORMS_H

#include <stdbool.h>
#include <stddef.h>
#include <stdint.h>

#include "koto_lexer.h"

/* ---- names.c ---- */

/* The name that lexer.rs's `Token` has for a kind; of Self_ without its underscore. NULL for a number that is no kind. */
const char *kind_name(uint32_t kind);

/* ---- json.c: an object a line, each with the file's name ---- */

void json_record(const char *file, const koto_record *r);

/* How a scan ended: end or stuck. */
void json_end(const char *file, const char *status, size_t count, size_t byte);

void json_refused(const char *file, uint32_t number, size_t place);

/* ---- paint.c ---- */

/* Prints the bytes of a token, in the colour of its kind; with reverse, as an Error. */
void paint_token(const uint8_t *at, size_t len, uint32_t kind, bool reverse);

#endif
