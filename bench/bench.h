// What the measuring program calls: the proved calls, RE2, and its own parts.
#ifndef BENCH_H
#define BENCH_H

#include <stdbool.h>
#include <stddef.h>
#include <stdint.h>

#ifdef __cplusplus
extern "C" {
#endif

// crates/bench_calls: 1 yes, 0 no, and for a refusal its number and 1, so 2 or more. The text counts so many times over.
uint32_t bench_place(const uint8_t *pattern, size_t pattern_size, const uint8_t *text, size_t text_size, uint32_t times);
uint32_t bench_set(const uint8_t *pattern, size_t pattern_size, const uint8_t *text, size_t text_size, uint32_t times);
uint32_t bench_start(const uint8_t *pattern, size_t pattern_size, const uint8_t *text, size_t text_size, uint32_t times);
uint32_t bench_small_start(const uint8_t *pattern, size_t pattern_size, const uint8_t *text, size_t text_size, uint32_t times);

// The text is filed into a roll of 128 slots, in strips of 8,000 bytes. Then the strip is fed anew, filed into the slot,
// and the verdict asked: once, and `more` times more. Answers the last verdict, as the calls above do.
uint32_t bench_correct(const uint8_t *pattern, size_t pattern_size, const uint8_t *text, size_t text_size, size_t slot,
                       const uint8_t *strip, size_t strip_size, uint32_t more);

bool re2_here(void);
void *re2_made(const char *pattern);
bool re2_full_match(void *re2, const uint8_t *text, size_t bytes);

// Ends the program with the complaint where it does not hold.
void must(bool holds, const char *complaint);

// The fastest turn so far; it begins as INFINITY.
void best(double *fastest, double took);

// Prints how long `rollcheck`, the program, takes, also under a pattern whose machines take long to build.
void time_program(const char *program, const uint8_t *slow, size_t length, int rounds);

#ifdef __cplusplus
}
#endif

#endif
