#ifndef TEST_STRING_H
#define TEST_STRING_H
#include "../../include/string.h"
int strcmp(const char *one, const char *other);
char *strcpy(char *to, const char *from);
char *strcat(char *to, const char *from);
char *strtok(char *text, const char *between);
#endif
