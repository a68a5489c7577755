/* kotolex: lists the tokens of Koto scripts, afresh or after an edit, checks a list of them, or pads a script's lines, by libkoto_lexer.a.
 *
 * It prints what the list program koto_list prints, for scripts of up to 1 MiB and with the full property table, and has an exit status of
 * its own for each kind of failure; or the same with names of kinds, as JSON, or as the script itself, painted (names.c, json.c, paint.c). With --check
 * it says whether a list that another lexer printed so is the script's (checking.c). With --pad it prints the lines of a file, each padded to a width
 * (padding.c).
 */
#include <stdlib.h>
#include <string.h>
#include <unistd.h>

#include "forms.h"
#include "kotolex.h"

/* The table's file, from the folder of the program. */
#define TABLE_FILE "data/full.kpt"

/* One byte more than the longest file that is read: a longer one is cut here, and then it is refused. */
#define SCRIPT_ROOM ((size_t)KOTO_SOURCE_MOST + 1)
/* A table file has 8 bytes and a count of 16 bits of numbers. */
#define TABLE_FILE_ROOM ((size_t)8 + 4 * 65535 + 1)

#define PATH_ROOM 4096

/* Fits a screen of 80 times 24 (clients/README.md says more). */
static const char HELP[] =
    "usage: kotolex FILE.. [--profile | --half | --engine E] [--names | --json | ..]\n"
    "       kotolex FILE --old FILE [--edit PLACE,REMOVED] [--names | ..]\n"
    "       kotolex FILE --check LIST\n"
    "       kotolex FILE --pad WIDTH [--align SIDE] [--fill CLUSTER]\n"
    "Lists the tokens of Koto scripts of at most 1 MiB. FILE - is standard input.\n"
    "  --names        with names of kinds in place of their numbers\n"
    "  --json         as JSON, an object a line\n"
    "  --paint        as the script, coloured on a terminal; --paint=always, anywhere\n"
    "  --profile      refuse raw strings and templates inside templates too\n"
    "  --half         scan into records at half the size; the output is the same\n"
    "  --engine E     by the fast engine, or by the first, which is smaller: the same\n"
    "  --old FILE     as after an edit of this file: the one found, or --edit P,R\n"
    "  --check LIST   say whether another lexer's list is FILE's: same, differs INDEX\n"
    "  --pad WIDTH    print FILE's lines padded: --align left, center or right\n"
    "  --table FILE   the property table; without it, " TABLE_FILE " beside kotolex\n"
    "  --edition N    Unicode's cluster rules: 1 without GB9c, 2 with it, the default\n"
    "A token is kind, detail, first byte, byte behind it, line and column where it\n"
    "starts, line and column where it ends, indent, depth. Last comes end or stuck\n"
    "with COUNT BYTE, or refused with NUMBER PLACE.\n"
    "Exit status: 0 fine, 1 refused, 2 usage, 3 no file, 4 no table, 5 table refused,\n"
    "6 no memory, 7 no output, 8 cut character, 9 list differs, 10 no list.\n";

/* How a list is printed. */
typedef enum { NUMBERS, NAMES, JSON, PAINT } form;

typedef struct {
    /* The files, in order. */
    char **scripts;
    size_t count;
    const char *table;
    const char *list;
    /* Of --old; NULL for none. */
    const char *old;
    const char *edit;
    /* Of --pad, each a word of the command line; NULL for none. */
    const char *width;
    const char *align;
    const char *fill;
    const char *edition;
    form as;
    /* Of PAINT: colours also where the output is no terminal. */
    bool always;
    /* Of --engine; NULL for none. */
    const char *engine;
    bool profile;
    bool half;
    bool help;
} options;

int fail(int status, const char *what, const char *name) {
    fprintf(stderr, "kotolex: %s%s%s\n", what, name[0] == '\0' ? "" : ": ", name);
    return status;
}

/* Where the word behind an option goes. NULL for a word that is no such option. */
static const char **option_of(const char *word, options *to) {
    static const char *const names[] = {"--table", "--check", "--old", "--edit", "--pad", "--align", "--fill", "--edition", "--engine"};
    const char **const places[] = {&to->table, &to->list, &to->old, &to->edit, &to->width, &to->align, &to->fill, &to->edition, &to->engine};
    for (size_t i = 0; i < sizeof names / sizeof names[0]; i++) {
        if (strcmp(word, names[i]) == 0) {
            return places[i];
        }
    }
    return NULL;
}

bool read_number(const char *word, uint64_t *to) {
    size_t len = strlen(word);
    if (len == 0 || 19 < len || strspn(word, "0123456789") != len) {
        return false;
    }
    *to = strtoull(word, NULL, 10);
    return true;
}

bool read_number_32(const char *word, uint32_t *to) {
    uint64_t number;
    if (!read_number(word, &number) || UINT32_MAX < number) {
        return false;
    }
    *to = (uint32_t)number;
    return true;
}

/* Whether the first engine is asked for. */
static bool is_first(const options *asked) {
    return asked->engine != NULL && strcmp(asked->engine, "first") == 0;
}

/* The form that a word asks for: NUMBERS for a word that is none. */
static form form_of(const char *word) {
    if (strcmp(word, "--names") == 0) {
        return NAMES;
    }
    if (strcmp(word, "--json") == 0) {
        return JSON;
    }
    return strcmp(word, "--paint") == 0 || strcmp(word, "--paint=always") == 0 ? PAINT : NUMBERS;
}

static bool is_standard_input(const char *path) {
    return path != NULL && strcmp(path, "-") == 0;
}

/* How many files are to be read from standard input, which can be read once. */
static int standard_inputs(const options *asked) {
    int n = is_standard_input(asked->table) + is_standard_input(asked->list) + is_standard_input(asked->old);
    for (size_t i = 0; i < asked->count; i++) {
        n += is_standard_input(asked->scripts[i]);
    }
    return n;
}

/* Whether what is asked for goes together: one thing at a time; one file where another belongs to it; a form only for lists; and what belongs to a
 * width or to an old script only with it. */
static bool fits_together(const options *asked) {
    int asked_for = asked->profile + asked->half + (asked->engine != NULL) + (asked->list != NULL) + (asked->old != NULL) + (asked->width != NULL);
    bool lists = asked->list == NULL && asked->width == NULL;
    bool files = asked->count == 1 || (asked->count > 1 && lists && asked->old == NULL);
    bool pads = asked->width != NULL || (asked->align == NULL && asked->fill == NULL);
    bool edits = asked->old != NULL || asked->edit == NULL;
    bool engine = asked->engine == NULL || strcmp(asked->engine, "fast") == 0 || is_first(asked);
    return asked_for <= 1 && engine && files && (lists || asked->as == NUMBERS) && pads && edits && standard_inputs(asked) <= 1;
}

/* Reads the words of the command line. False for a line that is not as the help says. The files are put together behind the
 * program's name. */
static bool read_options(int argc, char **argv, options *to) {
    to->scripts = argv + 1;
    for (int i = 1; i < argc; i++) {
        const char **place = option_of(argv[i], to);
        if (strcmp(argv[i], "--help") == 0) {
            to->help = true;
        } else if (form_of(argv[i]) != NUMBERS) {
            if (to->as != NUMBERS) {
                return false;
            }
            to->as = form_of(argv[i]);
            to->always = strchr(argv[i], '=') != NULL;
        } else if (strcmp(argv[i], "--profile") == 0) {
            to->profile = true;
        } else if (strcmp(argv[i], "--half") == 0) {
            to->half = true;
        } else if (place != NULL) {
            i++;
            if (i == argc || *place != NULL) {
                return false;
            }
            *place = argv[i];
        } else if (argv[i][0] == '-' && !is_standard_input(argv[i])) {
            return false;
        } else {
            to->scripts[to->count++] = argv[i];
        }
    }
    return to->help || fits_together(to);
}

/* The path of the table's file beside the program. False if it can't be told. */
static bool path_beside(const char *program, char *path, size_t room) {
    char self[PATH_ROOM];
    /* A program found by the shell's search is called by its name alone. */
    if (strchr(program, '/') == NULL) {
        ssize_t len = readlink("/proc/self/exe", self, sizeof self - 1);
        if (len < 0) {
            return false;
        }
        self[len] = '\0';
        program = self;
    }
    const char *last = strrchr(program, '/');
    if (last == NULL) {
        return false;
    }
    int folder = (int)(last - program);
    int len = snprintf(path, room, "%.*s/%s", folder, program, TABLE_FILE);
    return 0 < len && (size_t)len < room;
}

FILE *open_file(const char *path) {
    return is_standard_input(path) ? stdin : fopen(path, "rb");
}

/* Reads a file, at most `room` bytes of it. `failed` is the status for a file that can't be read. */
static int read_file(const char *path, size_t room, int failed, bytes *to) {
    to->at = malloc(room);
    if (to->at == NULL) {
        return fail(NO_MEMORY, "no memory for the file", path);
    }
    FILE *file = open_file(path);
    if (file == NULL) {
        return fail(failed, "can't open", path);
    }
    to->len = fread(to->at, 1, room, file);
    bool whole = ferror(file) == 0;
    fclose(file);
    return whole ? FINE : fail(failed, "can't read", path);
}

int print_refused(uint32_t number, size_t place, int status) {
    printf("refused %u %zu\n", (unsigned)number, place);
    return status;
}

/* Says the refusal of a file in the form that is asked for. What is painted is the script alone, so there it goes to standard error. */
static int say_refused(form as, const char *file, uint32_t number, size_t place, int status) {
    if (as == JSON) {
        json_refused(file, number, place);
    } else if (as == PAINT) {
        fflush(stdout);
        fprintf(stderr, "kotolex: %s: refused %u %zu\n", file, (unsigned)number, place);
    } else {
        print_refused(number, place, status);
    }
    return status;
}

/* Reads the property table. */
static int read_table(const char *path, form as, words *to) {
    bytes file = {NULL, 0};
    int status = read_file(path, TABLE_FILE_ROOM, NO_TABLE, &file);
    to->at = status == FINE ? calloc(KOTO_TABLE_MOST, sizeof *to->at) : NULL;
    if (status == FINE && to->at == NULL) {
        status = fail(NO_MEMORY, "no memory for the table", "");
    }
    if (status == FINE) {
        size_t place;
        uint32_t refused = koto_read_table(file.at, file.len, to->at, KOTO_TABLE_MOST, &to->len, &place);
        status = refused == 0 ? FINE : say_refused(as, path, refused, place, TABLE_REFUSED);
    }
    free(file.at);
    return status;
}

/* Where and how the list of a script is printed. */
typedef struct {
    form as;
    const char *file;
    bytes script;
    /* Of PAINT: whether in colours, up to where it is done, and the index of a record that the profile forbids. */
    bool coloured;
    size_t painted;
    size_t forbidden;
} printer;

static void print_record(const koto_record *r, form as) {
    if (as == NAMES) {
        printf("%s", kind_name(r->kind));
    } else {
        printf("%u", (unsigned)r->kind);
    }
    printf(" %u %u %u %u %u %u %u %u %u\n", (unsigned)r->detail, (unsigned)r->start, (unsigned)r->end, (unsigned)r->start_line,
           (unsigned)r->start_column, (unsigned)r->end_line, (unsigned)r->end_column, (unsigned)r->indent, (unsigned)r->depth);
}

/* Paints a token. An Error at the list's end is left for the rest of the script, which nobody reads and which may begin inside a character. */
static void paint_record(printer *to, const koto_record *r, size_t index, size_t count) {
    if (to->coloured && !(r->kind == KOTO_KIND_ERROR && index == count - 1)) {
        paint_token(to->script.at + r->start, r->end - r->start, r->kind, index == to->forbidden);
        to->painted = r->end;
    }
}

/* Paints what is left of the script, as an Error; without colours, the whole script. */
static void paint_rest(printer *to) {
    const uint8_t *at = to->script.at + to->painted;
    size_t len = to->script.len - to->painted;
    if (to->coloured) {
        paint_token(at, len, KOTO_KIND_ERROR, true);
    } else {
        fwrite(at, 1, len, stdout);
    }
}

/* Prints the records of a list. It is walked as one that ends, whatever the scan's status is, so that each record comes once; `end` is KOTO_END or,
 * for a list with records at half the size, KOTO_END_HALF. */
static void print_records(printer *to, words list, size_t count, uint32_t end) {
    size_t taken = 0, queued = 0, place;
    uint32_t shown;
    koto_record record;
    while (koto_next(list.at, list.len, &taken, &queued, count, end, &shown, &record, &place) == 0 && shown == 1) {
        if (to->as == JSON) {
            json_record(to->file, &record);
        } else if (to->as == PAINT) {
            paint_record(to, &record, taken - 1, count);
        } else {
            print_record(&record, to->as);
        }
    }
}

/* What a scan answers. */
typedef struct {
    uint32_t refused;
    uint32_t end;
    size_t count;
    size_t byte;
} answer;

/* A list for a script, with records of so many words. NULL if there is no memory. A script of n bytes has at most n + n/3 records
 * (docs/PROMISES.md, `never-full`). */
static words list_for(bytes script, size_t record_words) {
    words list = {NULL, record_words * (script.len + script.len / 3)};
    /* malloc may answer a request for nothing by nothing. */
    list.at = malloc((list.len + 1) * sizeof *list.at);
    return list;
}

/* koto_scan, koto_scan_fast, koto_scan_half or koto_scan_profile. */
typedef uint32_t (*scanner)(const uint8_t *, size_t, const uint32_t *, size_t, uint32_t, uint32_t *, size_t, uint32_t *, size_t *, size_t *);

static answer scan(scanner by, bytes script, words table, uint32_t edition, words list) {
    answer to;
    to.refused = by(script.at, script.len, table.at, table.len, edition, list.at, list.len, &to.end, &to.count, &to.byte);
    return to;
}

/* ---- an edit ---- */

typedef struct {
    size_t place;
    size_t removed;
    size_t put_in;
} edit;

/* Reads PLACE,REMOVED. False for another word. */
static bool read_edit(const char *word, edit *to) {
    const char *comma = strchr(word, ',');
    char place[20];
    uint64_t numbers[2];
    if (comma == NULL || sizeof place <= (size_t)(comma - word)) {
        return false;
    }
    memcpy(place, word, (size_t)(comma - word));
    place[comma - word] = '\0';
    if (!read_number(place, &numbers[0]) || !read_number(comma + 1, &numbers[1])) {
        return false;
    }
    to->place = numbers[0];
    to->removed = numbers[1];
    return true;
}

/* The shortest edit that leads from one script to another. */
static edit find_edit(bytes old, bytes script) {
    size_t least = old.len < script.len ? old.len : script.len;
    size_t start = 0, end = 0;
    while (start < least && old.at[start] == script.at[start]) {
        start++;
    }
    while (end < least - start && old.at[old.len - 1 - end] == script.at[script.len - 1 - end]) {
        end++;
    }
    return (edit){start, old.len - start - end, script.len - start - end};
}

/* Scans the old script, and then the new one after the edit. */
static int scan_edited(const options *asked, bytes script, words table, uint32_t edition, words list, answer *to) {
    bytes old = {NULL, 0};
    words old_list = {NULL, 0};
    int status = read_file(asked->old, SCRIPT_ROOM, NO_SCRIPT, &old);
    if (status == FINE) {
        old_list = list_for(old, KOTO_RECORD_WORDS);
        status = old_list.at != NULL ? FINE : fail(NO_MEMORY, "no memory for the list", "");
    }
    if (status == FINE) {
        edit by = find_edit(old, script);
        if (asked->edit != NULL && read_edit(asked->edit, &by)) {
            /* What the length says, or a number that fits nothing. */
            by.put_in = script.len + by.removed - old.len;
        }
        answer before = scan(koto_scan_fast, old, table, edition, old_list);
        to->refused = koto_rescan(old.at, old.len, old_list.at, old_list.len, before.count, by.place, by.removed, by.put_in, script.at,
                                  script.len, table.at, table.len, edition, list.at, list.len, &to->end, &to->count, &to->byte);
    }
    free(old.at);
    free(old_list.at);
    return status;
}

/* Says how a scan ended. */
static int print_end(printer *to, const answer *said) {
    /* Of a script that was refused before it was read nothing is painted. */
    if (to->as == PAINT && (said->refused == 0 || said->count > 0)) {
        paint_rest(to);
    }
    if (said->refused != 0) {
        return say_refused(to->as, to->file, said->refused, said->byte, said->refused == KOTO_CUT_UTF8 ? STILL_ARRIVING : SCAN_REFUSED);
    }
    bool stuck = said->end == KOTO_STUCK || said->end == KOTO_STUCK_HALF;
    const char *end = stuck ? "stuck" : "end";
    if (to->as == JSON) {
        json_end(to->file, end, said->count, said->byte);
    } else if (to->as != PAINT) {
        printf("%s %zu %zu\n", end, said->count, said->byte);
    } else if (stuck) {
        fflush(stdout);
        fprintf(stderr, "kotolex: %s: stuck %zu %zu\n", to->file, said->count, said->byte);
    }
    return FINE;
}

/* The call that scans as asked. */
static scanner scanner_of(const options *asked) {
    if (asked->profile) {
        return koto_scan_profile;
    }
    if (asked->half) {
        return koto_scan_half;
    }
    return is_first(asked) ? koto_scan : koto_scan_fast;
}

/* Scans the script and prints what was written and how it ended. */
static int list_tokens(const options *asked, const char *file, bytes script, words table, uint32_t edition) {
    words list = list_for(script, asked->half ? KOTO_HALF_RECORD_WORDS : KOTO_RECORD_WORDS);
    if (list.at == NULL) {
        return fail(NO_MEMORY, "no memory for the list", "");
    }
    answer said = {0, 0, 0, 0};
    int status = FINE;
    if (asked->old == NULL) {
        scanner by = scanner_of(asked);
        said = scan(by, script, table, edition, list);
    } else {
        status = scan_edited(asked, script, table, edition, list, &said);
    }
    if (status == FINE) {
        size_t forbidden = said.refused == KOTO_NOT_IN_PROFILE ? said.byte : SIZE_MAX;
        printer to = {asked->as, file, script, asked->always || isatty(STDOUT_FILENO), 0, forbidden};
        if (asked->count > 1 && asked->as != JSON) {
            printf("file %s\n", file);
        }
        print_records(&to, list, said.count, asked->half ? KOTO_END_HALF : KOTO_END);
        status = print_end(&to, &said);
    }
    free(list.at);
    return status;
}

/* Does what is asked for with one script. */
static int run_one(const options *asked, const char *file, bytes script, words table, uint32_t edition, const padding *by) {
    if (asked->width != NULL) {
        return pad_lines(script, table, edition, by);
    }
    if (asked->list != NULL) {
        return check_list(script, table, edition, asked->list);
    }
    return list_tokens(asked, file, script, table, edition);
}

/* Goes through the files. The status is that of the first file that has another than 0; without a table no other is tried. */
static int run(const options *asked, uint32_t edition, const char *program) {
    char beside[PATH_ROOM];
    padding by;
    edit given;
    if ((asked->width != NULL && !read_padding(asked->width, asked->align, asked->fill, &by)) || (asked->edit != NULL && !read_edit(asked->edit, &given))) {
        fputs(HELP, stderr);
        return BAD_USAGE;
    }
    if (asked->table == NULL && !path_beside(program, beside, sizeof beside)) {
        return fail(NO_TABLE, "where is the table? --table FILE says it", "");
    }
    words table = {NULL, 0};
    int first = FINE;
    for (size_t i = 0; i < asked->count; i++) {
        bytes script = {NULL, 0};
        int status = read_file(asked->scripts[i], SCRIPT_ROOM, NO_SCRIPT, &script);
        bool no_table = false;
        if (status == FINE && table.at == NULL) {
            status = read_table(asked->table != NULL ? asked->table : beside, asked->as, &table);
            no_table = status != FINE;
        }
        if (status == FINE) {
            status = run_one(asked, asked->scripts[i], script, table, edition, &by);
        }
        free(script.at);
        first = first != FINE ? first : status;
        if (no_table) {
            break;
        }
    }
    free(table.at);
    return first;
}

int main(int argc, char **argv) {
    options asked = {0};
    uint32_t edition = KOTO_WITH_GB9C;
    int status = FINE;
    if (!read_options(argc, argv, &asked) || (asked.edition != NULL && !read_number_32(asked.edition, &edition))) {
        fputs(HELP, stderr);
        return BAD_USAGE;
    }
    if (asked.help) {
        fputs(HELP, stdout);
    } else {
        status = run(&asked, edition, argv[0]);
    }
    if (fflush(stdout) != 0 || ferror(stdout) != 0) {
        return fail(NO_OUTPUT, "the output can't be written", "");
    }
    return status;
}
