/* A stand-in for C's header. The first of the functions are those that clang itself calls, which become loops. */
#ifndef STAND_IN_STRING_H
#define STAND_IN_STRING_H
#include <stddef.h>

void *memcpy(void *to, const void *from, size_t count);
void *memmove(void *to, const void *from, size_t count);
void *memset(void *to, int byte, size_t count);
int memcmp(const void *left, const void *right, size_t count);
size_t strlen(const char *text);

static __inline__ void *memchr(const void *from, int byte, size_t count) {
    const unsigned char *bytes = from;
    for (size_t at = 0; at < count; at++)
        if (bytes[at] == (unsigned char)byte)
            return (void *)(bytes + at);
    return NULL;
}

static __inline__ size_t strnlen(const char *text, size_t most) {
    size_t at = 0;
    while (at < most && text[at])
        at++;
    return at;
}

static __inline__ int strncmp(const char *left, const char *right, size_t most) {
    for (size_t at = 0; at < most; at++) {
        int difference = (unsigned char)left[at] - (unsigned char)right[at];
        if (difference || !left[at])
            return difference;
    }
    return 0;
}

static __inline__ int strcmp(const char *left, const char *right) {
    size_t at = 0;
    while (left[at] && left[at] == right[at])
        at++;
    return (unsigned char)left[at] - (unsigned char)right[at];
}

static __inline__ char *strcpy(char *to, const char *from) {
    size_t at = 0;
    do
        to[at] = from[at];
    while (from[at++]);
    return to;
}

static __inline__ char *strncpy(char *to, const char *from, size_t count) {
    size_t at = 0;
    for (; at < count && from[at]; at++)
        to[at] = from[at];
    for (; at < count; at++)
        to[at] = 0;
    return to;
}

static __inline__ char *strcat(char *to, const char *from) {
    strcpy(to + strlen(to), from);
    return to;
}

static __inline__ char *strchr(const char *text, int byte) {
    for (;; text++) {
        if (*text == (char)byte)
            return (char *)text;
        if (!*text)
            return NULL;
    }
}

static __inline__ char *strrchr(const char *text, int byte) {
    const char *last = NULL;
    for (;; text++) {
        if (*text == (char)byte)
            last = text;
        if (!*text)
            return (char *)last;
    }
}

static __inline__ char *strstr(const char *text, const char *part) {
    size_t length = strlen(part);
    for (;; text++) {
        if (strncmp(text, part, length) == 0)
            return (char *)text;
        if (!*text)
            return NULL;
    }
}
#endif
