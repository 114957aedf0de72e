#ifndef STRING_H
#define STRING_H
#include <stddef.h>
/* These three are instructions of WebAssembly. */
#define memcpy(to, from, len) __builtin_memcpy(to, from, len)
#define memmove(to, from, len) __builtin_memmove(to, from, len)
#define memset(to, byte, len) __builtin_memset(to, byte, len)
int memcmp(const void *one, const void *other, size_t len);
size_t strlen(const char *text);
#endif
