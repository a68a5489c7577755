/* smallest: the smallest useful program, without a C library: by its exit status it says whether a script of at most 1,024 bytes, on standard input, is read
 * without an Error.
 *
 * 0 without; 1 with one, as at a string or a comment that nobody closes; 2 where the script is refused. For scripts in ASCII: small.h has the runs of the property
 * table that these need, cut from the full one by tools/cut_table. tools/code_size --calls builds it, tries it, and tells its bytes.
 */
#include "koto_lexer.h"
#include "small.h" /* SMALL, an array of runs */

#define SOURCE_ROOM 1024
#define LIST_ROOM (KOTO_RECORD_WORDS * (SOURCE_ROOM + SOURCE_ROOM / 3))

static uint8_t source[SOURCE_ROOM];
static uint32_t list[LIST_ROOM];

/* What the library needs of a C library */
void *memcpy(void *restrict to, const void *restrict from, size_t n) {
    for (size_t i = 0; i < n; i++) {
        ((uint8_t *)to)[i] = ((const uint8_t *)from)[i];
    }
    return to;
}

void *memset(void *to, int byte, size_t n) {
    for (size_t i = 0; i < n; i++) {
        ((uint8_t *)to)[i] = (uint8_t)byte;
    }
    return to;
}

/* Linux's read (0 on x86-64, 63 on Arm) and exit (60, 93) */
static long ask_system(long call, long first, long second, long third) {
#ifdef __x86_64__
    long answer;
    __asm__ volatile("syscall" : "=a"(answer) : "a"(call == 63 ? 0 : 60), "D"(first), "S"(second), "d"(third) : "rcx", "r11", "memory");
    return answer;
#else
    register long x8 __asm__("x8") = call;
    register long x0 __asm__("x0") = first;
    register long x1 __asm__("x1") = second;
    register long x2 __asm__("x2") = third;
    __asm__ volatile("svc 0" : "+r"(x0) : "r"(x8), "r"(x1), "r"(x2) : "memory");
    return x0;
#endif
}

static int how_it_is_read(void) {
    size_t n = 0, count, byte;
    uint32_t status;
    long more;
    while (n < SOURCE_ROOM && (more = ask_system(63, 0, (long)(source + n), (long)(SOURCE_ROOM - n))) > 0) {
        n += (size_t)more;
    }
    if (koto_scan(source, n, SMALL, sizeof SMALL / sizeof SMALL[0], KOTO_WITH_GB9C, list, LIST_ROOM, &status, &count, &byte) != 0) {
        return 2;
    }
    for (size_t i = 0; i < count; i++) {
        if (list[i * KOTO_RECORD_WORDS] % 128 == KOTO_KIND_ERROR) {
            return 1;
        }
    }
    return 0;
}

/* Where the program starts. On x86-64 the stack is then aligned otherwise than a function expects. */
#ifdef __x86_64__
__attribute__((force_align_arg_pointer))
#endif
void start(void);

void start(void) {
    ask_system(93, how_it_is_read(), 0, 0);
    for (;;) {
    }
}
