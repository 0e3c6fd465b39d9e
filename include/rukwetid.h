/*
 * Rukwetid for programs in C: a crash-safe word store, and readings as text.
 *
 * The functions work on what the caller lends them and keep nothing of it. Every input is taken.
 * It is only asked that each pointer is valid for its length, which counts elements, and isn't
 * NULL, also where the length is 0; and that no two of the things pointed to overlap. What isn't
 * said to change is left as it was.
 */
#ifndef RUKWETID_H
#define RUKWETID_H

#include <stddef.h>
#include <stdint.h>

#ifdef __cplusplus
extern "C" {
#endif

/* The answers that these functions give; README.md lists those of the steps. */
#define RUKWETID_DONE 0
#define RUKWETID_WRONG_SIZE 1
#define RUKWETID_MALFORMED 18

/* A buffer of so many bytes is enough for every reading. */
#define RUKWETID_READING_SIZE 21

/*
 * Runs a list of steps, in order. Step i is of the kind kinds[i]:
 *
 *   0 begin        threads[i]
 *   1 store        threads[i], the word number places[i], values[i]
 *   2 log undo
 *   3 log redo
 *   4 set down     the line number places[i]
 *   5 write home   the line number places[i]
 *   6 commit       threads[i]
 *   7 delete
 *   8 recover
 *
 * What a kind doesn't name isn't looked at, but for supplies[i]: how many stores to home and log
 * can happen in the step before the supply ends.
 *
 * Gives RUKWETID_DONE when the list was run, whatever its steps were answered: answers[i] becomes
 * the answer of step i, and stores[i] the number of stores to home and log that it made. Gives
 * RUKWETID_WRONG_SIZE when the seven lengths from kinds_length on aren't all equal or a kind is
 * above 8; then nothing is run, and nothing changes.
 *
 * home has 8 to 512 words, a multiple of 8; working has as many; log has 1 + 3 * L words with L
 * from 8 to 1024, all of them 0 when it is new. With other lengths each step is refused: begin is
 * answered 2, all others 1. A step that is refused changes none of the three. One that is cut
 * (255) has made its first supplies[i] stores, and all working words are 0.
 *
 * No state is kept between calls. At first, after a cut and after a refused recover, no step but
 * recover can be done. So a list begins with a recover, which fills working from home and takes
 * back what an earlier call left without a commit.
 */
uint64_t rukwetid_run(
    uint64_t *home, size_t home_length,
    uint64_t *working, size_t working_length,
    uint64_t *log, size_t log_length,
    const uint64_t *kinds, size_t kinds_length,
    const uint64_t *threads, size_t threads_length,
    const uint64_t *places, size_t places_length,
    const uint64_t *values, size_t values_length,
    const uint64_t *supplies, size_t supplies_length,
    uint64_t *answers, size_t answers_length,
    uint64_t *stores, size_t stores_length);

/*
 * Prints the reading of a word, which is a count of tenths of an amp in two's complement, at the
 * start of text: a minus if the count is below 0, the whole amps, a point and one digit, and no
 * NUL behind them. For a count of -4 that is -0.4.
 *
 * Gives RUKWETID_DONE, and in *length the reading's length, 3 to 21; the bytes behind it don't
 * change. Gives RUKWETID_WRONG_SIZE when size is less than the length of this word's reading; then
 * *length is 0, and text doesn't change.
 */
uint64_t rukwetid_reading(uint64_t word, uint8_t *text, size_t size, size_t *length);

/*
 * The way back: finds the word whose reading is exactly the size bytes of text. No two words have
 * the same one.
 *
 * Gives RUKWETID_DONE, and the word in *word. Gives RUKWETID_MALFORMED when the text is no word's
 * reading; then *word is 0.
 */
uint64_t rukwetid_reading_word(const uint8_t *text, size_t size, uint64_t *word);

#ifdef __cplusplus
}
#endif

#endif
