/* Calls one function of the library many times, for `bindings/time`, and prints how many nanoseconds a call takes.
 *
 * Usage: times CALL COUNT PATTERN URL, where CALL is `test`, `captures` or `exec`, or `shared`, which is `test` over the second handle of two
 * that share the pattern. The least of twelve rounds counts, each of COUNT calls.
 */
#define _POSIX_C_SOURCE 199309L
#include "urlpattern.h"

#include <stdio.h>
#include <stdlib.h>
#include <string.h>
#include <time.h>

enum { BYTES = 4096, SPANS = 32, ROUNDS = 12 };

static urlpattern_list patterns = URLPATTERN_EMPTY, shared = URLPATTERN_EMPTY;

static uint32_t call(char kind, const char *url, size_t length) {
    static char buffer[BYTES];
    static urlpattern_span spans[SPANS];
    urlpattern_sizes sizes;
    size_t needed;
    switch (kind) {
    case 's':
        return urlpattern_test(&shared, 0, url, length, "", 0);
    case 't':
        return urlpattern_test(&patterns, 0, url, length, "", 0);
    case 'c':
        return urlpattern_captures(&patterns, 0, url, length, "", 0, buffer, BYTES, spans, SPANS, &sizes);
    default:
        return urlpattern_exec(&patterns, 0, url, length, "", 0, buffer, BYTES, &needed);
    }
}

static double now(void) {
    struct timespec at;
    clock_gettime(CLOCK_MONOTONIC, &at);
    return (double)at.tv_sec * 1e9 + (double)at.tv_nsec;
}

int main(int words, char **word) {
    if (words != 5) {
        fprintf(stderr, "usage: times CALL COUNT PATTERN URL\n");
        return 2;
    }
    long count = atol(word[2]);
    size_t length = strlen(word[4]);
    double least = 1e30;
    uint32_t status = urlpattern_add(&patterns, word[3], strlen(word[3]), "", 0, false);
    if (word[1][0] == 's') {
        status |= urlpattern_share(&patterns, &shared);
    }
    for (int round = 0; status == URLPATTERN_DONE && round < ROUNDS; round++) {
        double start = now();
        for (long at = 0; at < count; at++) {
            status |= call(word[1][0], word[4], length);
        }
        double taken = (now() - start) / (double)count;
        least = taken < least ? taken : least;
    }
    urlpattern_free(&patterns);
    urlpattern_free(&shared);
    printf("%.1f\n", least);
    return status == URLPATTERN_DONE ? 0 : status == URLPATTERN_NO_MATCH ? 1 : (int)status;
}
