/* What bindings/c/tests needs of the library of C, for its run in a module. What is printed stays in memory, where run_c_test.js reads it.
 * The formats of printf are %d, %ld, %lu, %s and %.*s; another one ends the run. */
#include "stdio.h"

#include <stdint.h>
#include <string.h>

static char said[65536];
static size_t said_len;

char *said_at(void);
char *said_at(void) { return said; }
size_t said_length(void);
size_t said_length(void) { return said_len; }

static char *put_bytes(char *to, const char *from, size_t len) {
    memcpy(to, from, len);
    return to + len;
}

static char *put_number(char *to, long number) {
    char digits[20];
    size_t len = 0;
    uint64_t rest = number < 0 ? -(uint64_t)number : (uint64_t)number;
    if (number < 0) *to++ = '-';
    do digits[len++] = (char)('0' + rest % 10);
    while (rest /= 10);
    while (len) *to++ = digits[--len];
    return to;
}

static int begins(const char *text, const char *with) { return memcmp(text, with, strlen(with)) == 0; }

/* Writes to `to`, and returns where it ends. */
static char *formatted(char *to, const char *format, __builtin_va_list words) {
    while (*format) {
        if (*format != '%') *to++ = *format++;
        else if (begins(format, "%.*s")) {
            int len = __builtin_va_arg(words, int);
            to = put_bytes(to, __builtin_va_arg(words, const char *), (size_t)len);
            format += 4;
        } else if (begins(format, "%ld") || begins(format, "%lu")) {
            to = put_number(to, __builtin_va_arg(words, long));
            format += 3;
        } else if (begins(format, "%d")) {
            to = put_number(to, __builtin_va_arg(words, int));
            format += 2;
        } else if (begins(format, "%s")) {
            const char *text = __builtin_va_arg(words, const char *);
            to = put_bytes(to, text, strlen(text));
            format += 2;
        } else __builtin_trap();
    }
    return to;
}

int printf(const char *format, ...) {
    __builtin_va_list words;
    if (said_len > sizeof said / 2) return 0;
    __builtin_va_start(words, format);
    said_len = (size_t)(formatted(said + said_len, format, words) - said);
    __builtin_va_end(words);
    return 0;
}

int sprintf(char *to, const char *format, ...) {
    __builtin_va_list words;
    __builtin_va_start(words, format);
    char *end = formatted(to, format, words);
    __builtin_va_end(words);
    *end = 0;
    return (int)(end - to);
}

int strcmp(const char *one, const char *other) {
    while (*one && *one == *other) one++, other++;
    return (unsigned char)*one - (unsigned char)*other;
}

char *strcpy(char *to, const char *from) {
    memcpy(to, from, strlen(from) + 1);
    return to;
}

char *strcat(char *to, const char *from) {
    strcpy(to + strlen(to), from);
    return to;
}

/* Words between which there is one letter. */
char *strtok(char *text, const char *between) {
    static char *rest;
    char *begin = text ? text : rest;
    while (*begin == *between) begin++;
    if (!*begin) return NULL;
    rest = begin;
    while (*rest && *rest != *between) rest++;
    if (*rest) *rest++ = 0;
    return begin;
}
