/* The functions of string.h, for programs that have none of their own. */
#include <string.h>

void *memcpy(void *to, const void *from, size_t size)
{
    unsigned char *a = to;
    const unsigned char *b = from;
    while (size--)
        *a++ = *b++;
    return to;
}

void *memmove(void *to, const void *from, size_t size)
{
    unsigned char *a = to;
    const unsigned char *b = from;
    if (a <= b)
        while (size--)
            *a++ = *b++;
    else
        while (size--)
            a[size] = b[size];
    return to;
}

void *memset(void *to, int value, size_t size)
{
    unsigned char *a = to;
    while (size--)
        *a++ = (unsigned char)value;
    return to;
}

int memcmp(const void *one, const void *other, size_t size)
{
    const unsigned char *a = one, *b = other;
    for (; size--; a++, b++)
        if (*a != *b)
            return *a - *b;
    return 0;
}

void *memchr(const void *in, int value, size_t size)
{
    const unsigned char *a = in;
    for (; size--; a++)
        if (*a == (unsigned char)value)
            return (void *)a;
    return NULL;
}

size_t strlen(const char *text)
{
    const char *at = text;
    while (*at)
        at++;
    return (size_t)(at - text);
}

int strcmp(const char *one, const char *other)
{
    while (*one && *one == *other)
        one++, other++;
    return (unsigned char)*one - (unsigned char)*other;
}

int strncmp(const char *one, const char *other, size_t size)
{
    for (; size; size--, one++, other++)
        if (!*one || *one != *other)
            return (unsigned char)*one - (unsigned char)*other;
    return 0;
}

char *strcpy(char *to, const char *from)
{
    char *at = to;
    while ((*at++ = *from++))
        ;
    return to;
}

char *strncpy(char *to, const char *from, size_t size)
{
    char *at = to;
    while (size && (*at++ = *from++))
        size--;
    for (; size > 1; size--)
        *at++ = 0;
    return to;
}

char *strcat(char *to, const char *from)
{
    strcpy(to + strlen(to), from);
    return to;
}

char *strchr(const char *text, int value)
{
    for (;; text++) {
        if (*text == (char)value)
            return (char *)text;
        if (!*text)
            return NULL;
    }
}

char *strrchr(const char *text, int value)
{
    const char *found = NULL;
    for (;; text++) {
        if (*text == (char)value)
            found = text;
        if (!*text)
            return (char *)found;
    }
}

char *strstr(const char *text, const char *part)
{
    size_t size = strlen(part);
    for (; *text; text++)
        if (!strncmp(text, part, size))
            return (char *)text;
    return size ? NULL : (char *)text;
}
