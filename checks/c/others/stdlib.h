/* Storage that a program takes of an array of a segment, for C of others. */
#ifndef OTHERS_STDLIB_H
#define OTHERS_STDLIB_H
#include <stddef.h>
void *malloc(size_t size);
void *calloc(size_t count, size_t size);
void free(void *at);
#endif
