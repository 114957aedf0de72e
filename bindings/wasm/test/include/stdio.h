/* As much of it as bindings/c/tests needs. */
#ifndef STDIO_H
#define STDIO_H
#include <stddef.h>
int printf(const char *format, ...);
int sprintf(char *to, const char *format, ...);
#endif
