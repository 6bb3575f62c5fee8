/* Holds what a call answers to what it should. */
#ifndef WANT_H
#define WANT_H
#include <stdio.h>
#include <stdlib.h>

static unsigned wanted;

/* In any thread. */
#define MUST(call, want) do { \
    long long got_ = (long long)(call), want_ = (long long)(want); \
    if (got_ != want_) { \
        fprintf(stderr, "%s:%d: %s is %lld, and should be %lld\n", __FILE__, __LINE__, #call, got_, want_); \
        exit(1); \
    } \
} while (0)

/* In one thread, counted. */
#define WANT(call, want) do { MUST(call, want); wanted++; } while (0)
#endif
