/* What the peers share: the transactions, their times, and a look at what they left.
   Each peer has a pool or a file of its own in /dev/shm, which it removes at the end. */
#include <stdint.h>
#include <stdio.h>
#include <stdlib.h>
#include <time.h>

enum { WORDS = 512, TRANSACTIONS = 1023, ROUNDS = 30 };

/* Stores the pair of words `word` and `word` + 1, and commits. */
static void transaction(uint64_t word, uint64_t first, uint64_t second);

/* What a word holds. */
static uint64_t value_of(uint64_t word);

static void must(int holds, const char *what)
{
    if (!holds) {
        fprintf(stderr, "%s failed\n", what);
        exit(1);
    }
}

static double nanoseconds(void)
{
    struct timespec t;
    clock_gettime(CLOCK_MONOTONIC, &t);
    return t.tv_sec * 1e9 + t.tv_nsec;
}

/* The last transaction on a word decides what it holds. */
static void check(void)
{
    for (uint64_t word = 0; word < WORDS; word++) {
        uint64_t last = word / 2;
        while (last + WORDS / 2 < TRANSACTIONS)
            last += WORDS / 2;
        must(value_of(word) == last + 1 + word % 2, "reading the words back");
    }
}

/* Prints the nanoseconds of a transaction: the best of the rounds. */
static void measure(void)
{
    double best = 1e300;
    for (int round = 0; round < ROUNDS; round++) {
        double start = nanoseconds();
        for (uint64_t i = 0; i < TRANSACTIONS; i++)
            transaction(2 * i % WORDS, i + 1, i + 2);
        double time = (nanoseconds() - start) / TRANSACTIONS;
        if (time < best)
            best = time;
    }
    check();
    printf("%.1f\n", best);
}
