/* The loops that the operators are measured against: plain C over 1,000,000 words, with the same NA.
   Build and run: cc -O2 bench/operations.c -o operations && ./operations
   It prints the least of nine runs of each, in microseconds. */
#include <stdint.h>
#include <stdio.h>
#include <stdlib.h>
#include <string.h>
#include <time.h>

enum { N = 1000000, RUNS = 9 };
#define NA INT64_MIN

static double now(void) {
    struct timespec t;
    clock_gettime(CLOCK_MONOTONIC, &t);
    return t.tv_sec * 1e6 + t.tv_nsec / 1e3;
}

static int64_t *ints(uint64_t x) {
    int64_t *v = malloc(N * sizeof *v);
    for (size_t i = 0; i < N; i++) {
        x = x * 1103515245u + 12345u;
        v[i] = (int64_t)x / 1000000000;
    }
    return v;
}

static uint8_t *lgls(uint64_t x) {
    uint8_t *v = malloc(N);
    for (size_t i = 0; i < N; i++) {
        x = x * 1103515245u + 12345u;
        v[i] = (int64_t)x < 0 ? 2 : (int64_t)x % 2 == 0;
    }
    return v;
}

__attribute__((noinline)) static void *add(int64_t *a, int64_t *b) {
    int64_t *o = malloc(N * sizeof *o);
    for (size_t i = 0; i < N; i++) {
        if (a[i] == NA || b[i] == NA)
            o[i] = NA;
        else if (__builtin_add_overflow(a[i], b[i], &o[i]) || o[i] == NA)
            return o;
    }
    return o;
}

__attribute__((noinline)) static void *equal(int64_t *a, int64_t *b) {
    uint8_t *o = malloc(N);
    for (size_t i = 0; i < N; i++)
        o[i] = a[i] == NA || b[i] == NA ? 2 : a[i] == b[i];
    return o;
}

__attribute__((noinline)) static void *quotient(int64_t *a, int64_t *b) {
    int64_t *o = malloc(N * sizeof *o);
    for (size_t i = 0; i < N; i++) {
        int64_t x = a[i], y = b[i];
        if (x == NA || y == NA || y == 0)
            o[i] = NA;
        else
            o[i] = x / y - (x % y != 0 && (x < 0) != (y < 0));
    }
    return o;
}

__attribute__((noinline)) static void *both(uint8_t *a, uint8_t *b) {
    uint8_t *o = malloc(N);
    for (size_t i = 0; i < N; i++) {
        uint8_t x = a[i], y = b[i];
        o[i] = x == 0 || y == 0 ? 0 : x == 2 || y == 2 ? 2 : 1;
    }
    return o;
}

__attribute__((noinline)) static void *texts(int64_t *a) {
    char **o = malloc(N * sizeof *o), buffer[32];
    for (size_t i = 0; i < N; i++) {
        if (a[i] == NA) {
            o[i] = NULL;
            continue;
        }
        int n = snprintf(buffer, sizeof buffer, "%lld", (long long)a[i]);
        o[i] = malloc(n + 1);
        memcpy(o[i], buffer, n + 1);
    }
    return o;
}

__attribute__((noinline)) static void *integers(char **t) {
    int64_t *o = malloc(N * sizeof *o);
    for (size_t i = 0; i < N; i++)
        o[i] = t[i] ? strtoll(t[i], NULL, 10) : NA;
    return o;
}

static void freed(char **t) {
    for (size_t i = 0; i < N; i++)
        free(t[i]);
    free(t);
}

#define LEAST(name, call, release)                                                                 \
    do {                                                                                           \
        double least = 1e18;                                                                       \
        for (int k = 0; k < RUNS; k++) {                                                           \
            double began = now();                                                                  \
            void *made = call;                                                                     \
            double took = now() - began;                                                           \
            if (took < least)                                                                      \
                least = took;                                                                      \
            release(made);                                                                         \
        }                                                                                          \
        printf("%-12s %8.0f\n", name, least);                                                      \
    } while (0)

int main(void) {
    int64_t *a = ints(1), *b = ints(2);
    uint8_t *p = lgls(1), *q = lgls(2);
    LEAST("+", add(a, b), free);
    LEAST("==", equal(a, b), free);
    LEAST("%/%", quotient(a, b), free);
    LEAST("&", both(p, q), free);
    char **t = texts(a);
    LEAST("to text", texts(a), freed);
    LEAST("to integer", integers(t), free);
    return 0;
}
