/*
 * Readings from C: shows a few, then compares a million with what C's own arithmetic prints.
 * `make example` builds and runs it:
 *
 *   (cd crates/exports && rt lib)
 *   cc -std=c99 -Wall -Wextra -Werror -Iinclude examples/reading.c crates/exports/out/libexports.a
 *   ./a.out
 */
#include <inttypes.h>
#include <stdbool.h>
#include <stdio.h>
#include <string.h>

#include "rukwetid.h"

/* A few more bytes than the longest reading has, so that one stored too far is seen. */
enum { ROOM = RUKWETID_READING_SIZE + 3 };

static const int64_t LARGEST_POWER = INT64_C(1000000000000000000);

/* What rukwetid_reading gives: the answer, the length, and the buffer, '#' where untouched. */
struct given {
    uint64_t answer;
    size_t length;
    uint8_t text[ROOM];
};

struct known {
    int64_t count;
    const char *reading;
};

static const struct known KNOWN[] = {
    { -4, "-0.4" },
    { 4, "0.4" },
    { 0, "0.0" },
    { -10, "-1.0" },
    { INT64_MIN, "-922337203685477580.8" },
    { INT64_MAX, "922337203685477580.7" },
};

struct bytes {
    const char *start;
    size_t size;
};

#define BYTES(literal) { literal, sizeof literal - 1 }

/* No word has one of these as its reading. */
static const struct bytes NO_READINGS[] = {
    BYTES(""),
    BYTES("-"),
    BYTES("."),
    BYTES("0"),
    BYTES("0."),
    BYTES(".0"),
    BYTES("-0.0"),
    BYTES("00.0"),
    BYTES("01.0"),
    BYTES("+1.0"),
    BYTES("1.00"),
    BYTES("1.0 "),
    BYTES(" 1.0"),
    BYTES("1,0"),
    BYTES("1.0\n"),
    BYTES("1.0\0"),
    BYTES("922337203685477580.8"),
    BYTES("-922337203685477580.9"),
    BYTES("1844674407370955161.6"),
    BYTES("18446744073709551615.0"),
    BYTES("99999999999999999999.9"),
    BYTES("0000000000000000000000000001.0"),
};

enum {
    KNOWN_COUNT = sizeof KNOWN / sizeof KNOWN[0],
    NO_READINGS_COUNT = sizeof NO_READINGS / sizeof NO_READINGS[0]
};

/* Shows a reading as a line of the table, and says whether it is the one that is known. */
static bool show(const struct known *known)
{
    uint8_t text[RUKWETID_READING_SIZE];
    size_t length = 0;
    uint64_t answer = rukwetid_reading((uint64_t)known->count, text, sizeof text, &length);
    if (answer != RUKWETID_DONE || length != strlen(known->reading)
        || memcmp(text, known->reading, length) != 0) {
        fprintf(stderr, "%" PRId64 " tenths: the reading isn't %s\n", known->count, known->reading);
        return false;
    }
    /* The text ends without a NUL: its length is printf's precision. */
    printf("%20" PRId64 " tenths %24.*s\n", known->count, (int)length, (const char *)text);
    return true;
}

static bool show_all(void)
{
    for (size_t i = 0; i < KNOWN_COUNT; i++)
        if (!show(&KNOWN[i]))
            return false;
    return true;
}

/* An answer and no text. */
static struct given untouched(uint64_t answer, size_t length)
{
    struct given given = { answer, length, { 0 } };
    memset(given.text, '#', ROOM);
    return given;
}

/* What is given for a buffer of size bytes, which is the start of a longer one. */
static struct given actual(int64_t count, size_t size)
{
    struct given given = untouched(UINT64_MAX, SIZE_MAX);
    given.answer = rukwetid_reading((uint64_t)count, given.text, size, &given.length);
    return given;
}

/*
 * What has to be given, by C's arithmetic. Division goes toward zero, so the whole amps bring the
 * minus along, unless they are 0. Only the last digit is negated: INT64_MIN can't be.
 */
static struct given expected(int64_t count)
{
    char text[ROOM];
    int64_t whole = count / 10;
    int tenth = (int)(count % 10);
    const char *minus = count < 0 && whole == 0 ? "-" : "";
    int length = snprintf(text, sizeof text, "%s%" PRId64 ".%d", minus, whole,
                          tenth < 0 ? -tenth : tenth);
    struct given given = untouched(RUKWETID_DONE, (size_t)length);
    memcpy(given.text, text, given.length);
    return given;
}

/* Bytes that aren't printable are named by their numbers. */
static void print_bytes(const uint8_t *bytes, size_t size)
{
    for (size_t i = 0; i < size; i++)
        if (bytes[i] >= ' ' && bytes[i] <= '~')
            fputc(bytes[i], stderr);
        else
            fprintf(stderr, "\\x%02x", bytes[i]);
}

static void print_given(const struct given *given)
{
    fprintf(stderr, "%" PRIu64 " %zu ", given->answer, given->length);
    print_bytes(given->text, ROOM);
}

/* A buffer of size bytes gives what it has to; if not, both are printed. */
static bool same(int64_t count, size_t size, const struct given *wanted)
{
    struct given given = actual(count, size);
    if (given.answer == wanted->answer && given.length == wanted->length
        && memcmp(given.text, wanted->text, ROOM) == 0)
        return true;
    fprintf(stderr, "%" PRId64 " tenths in %zu bytes: ", count, size);
    print_given(&given);
    fputs(" instead of ", stderr);
    print_given(wanted);
    fputc('\n', stderr);
    return false;
}

/* A text has this answer and this word; if not, what it has is printed. */
static bool means(const uint8_t *text, size_t size, uint64_t answer, uint64_t word)
{
    uint64_t given_word = ~word;
    uint64_t given_answer = rukwetid_reading_word(text, size, &given_word);
    if (given_answer == answer && given_word == word)
        return true;
    fputs("the text \"", stderr);
    print_bytes(text, size);
    fprintf(stderr, "\": %" PRIu64 " %" PRIu64, given_answer, given_word);
    fprintf(stderr, " instead of %" PRIu64 " %" PRIu64 "\n", answer, word);
    return false;
}

/* A word's reading: in more room than needed, in just enough, in too little, and the way back. */
static bool compare(int64_t count, uint64_t *compared)
{
    struct given reading = expected(count);
    struct given none = untouched(RUKWETID_WRONG_SIZE, 0);
    *compared += 1;
    return same(count, ROOM, &reading)
        && same(count, reading.length, &reading)
        && same(count, reading.length - 1, &none)
        && same(count, 0, &none)
        && means(reading.text, reading.length, RUKWETID_DONE, (uint64_t)count);
}

/* The last count may be the largest there is: it isn't stepped over. */
static bool compare_range(int64_t first, int64_t last, uint64_t *compared)
{
    for (int64_t count = first; compare(count, compared); count++)
        if (count == last)
            return true;
    return false;
}

/* Around the powers of ten, where the length changes. */
static bool compare_powers(uint64_t *compared)
{
    for (int64_t power = LARGEST_POWER; power > 0; power /= 10)
        if (!compare_range(power - 11, power + 11, compared)
            || !compare_range(-power - 11, -power + 11, compared))
            return false;
    return true;
}

/* The next pseudo-random number. */
static uint64_t next(uint64_t *seed)
{
    *seed ^= *seed << 13;
    *seed ^= *seed >> 7;
    *seed ^= *seed << 17;
    return *seed;
}

/* A count of 0 to 63 binary digits, or its complement, which is below 0. */
static int64_t random_count(uint64_t *seed)
{
    uint64_t form = next(seed) >> 32;
    int64_t count = (int64_t)(next(seed) >> (1 + form / 2 % 63));
    return form % 2 == 0 ? count : -1 - count;
}

static bool compare_random(uint64_t *compared)
{
    uint64_t seed = 1;
    for (int i = 0; i < 1000000; i++)
        if (!compare(random_count(&seed), compared))
            return false;
    return true;
}

static bool compare_all(uint64_t *compared)
{
    return compare_range(-20000, 20000, compared)
        && compare_powers(compared)
        && compare_range(INT64_MIN, INT64_MIN + 1000, compared)
        && compare_range(INT64_MAX - 1000, INT64_MAX, compared)
        && compare_random(compared);
}

static bool refuse_all(void)
{
    for (size_t i = 0; i < NO_READINGS_COUNT; i++) {
        const uint8_t *text = (const uint8_t *)NO_READINGS[i].start;
        if (!means(text, NO_READINGS[i].size, RUKWETID_MALFORMED, 0))
            return false;
    }
    return true;
}

int main(void)
{
    uint64_t compared = 0;
    if (!show_all() || !compare_all(&compared) || !refuse_all())
        return 1;
    printf("%" PRIu64 " readings compared, %d other texts refused, no difference\n", compared,
           NO_READINGS_COUNT);
    return 0;
}
