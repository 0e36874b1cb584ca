/* Yorvuste from C: whether a text follows a pattern, and how long it is. docs/calls.md says more.
 *
 * Link with libyorvuste.a, which `rt lib` in crates/yorvuste makes. No call allocates, keeps anything, or
 * prints; calls may overlap, in different threads.
 *
 * Bytes are passed as a pointer and a size. The pointer must not be NULL, not even where the size is 0,
 * and `into` must not overlap `input`. Nothing else is asked: a call answers whatever the bytes are.
 *
 * yorvuste_check and yorvuste_judge want up to 1 MB of stack, the more the deeper a pattern's parentheses
 * nest (bench/README.md has what was measured), so give a thread that calls them 2 MB. yorvuste_read wants
 * less than 6 KB. */
#ifndef YORVUSTE_H
#define YORVUSTE_H

#include <stdbool.h>
#include <stddef.h>
#include <stdint.h>

#ifdef __cplusplus
extern "C" {
#endif

/* No answer of yorvuste_check is longer, in bytes. */
#define YORVUSTE_ROOM 256

/* No pattern of more starts is judged, and no text of more bytes. */
#define YORVUSTE_MOST_STARTS 96
#define YORVUSTE_LONGEST_TEXT 128000000

/* The refusals that the structs below can have, by their numbers (docs/refusals.md has all eleven). */
enum yorvuste_refusal {
  YORVUSTE_PATTERN_TOO_LONG = 1,
  YORVUSTE_BADLY_WRITTEN = 2,
  YORVUSTE_TOO_MANY_PLACES = 3,
  YORVUSTE_TOO_MANY_SETS = 5,
  YORVUSTE_TOO_MANY_STARTS = 6,
  YORVUSTE_NO_SUCH_SLOT = 9
};

/* Checks a whole bundle (docs/bundles.md has its layout), and answers how many bytes the text of the
 * answer has. The text is what the program rollcheck prints: four lines, or the line of a fault, with no
 * line end and no zero byte after it.
 *
 * The text goes to the head of `into`, and the rest of it stays as it was. Where it is too small for the
 * text, all of it stays as it was: the answer then is more than into_size, and says how many bytes are
 * wanted. */
size_t yorvuste_check(const uint8_t *input, size_t input_size, uint8_t *into, size_t into_size);

/* What reading a pattern comes to. */
struct yorvuste_reading {
  /* 0: it was read. Else YORVUSTE_PATTERN_TOO_LONG, YORVUSTE_BADLY_WRITTEN or YORVUSTE_TOO_MANY_PLACES. */
  uint8_t refusal;
  /* How many places the pattern has; 0 where it is refused. */
  uint8_t places;
  /* The place of the refusal; 0 where the pattern was read. */
  size_t place;
};

/* Reads a pattern (docs/patterns.md has the notation). */
struct yorvuste_reading yorvuste_read(const uint8_t *pattern, size_t pattern_size);

/* What a text comes to under a pattern. */
struct yorvuste_judgement {
  /* 0: it was judged. Else one of the refusals of reading its pattern, or YORVUSTE_TOO_MANY_SETS, the
   * pattern has more than 64; YORVUSTE_TOO_MANY_STARTS, it has more than YORVUSTE_MOST_STARTS; or
   * YORVUSTE_NO_SUCH_SLOT, which means here that the text has more than YORVUSTE_LONGEST_TEXT bytes. */
  uint8_t refusal;
  /* Whether the text follows the pattern; false where it is refused. */
  bool verdict;
  /* How many bytes the text has, and how many of them are line ends (byte 10); 0 where it is refused. */
  uint32_t bytes;
  uint32_t lines;
  /* The place of the refusal; 0 where the text was judged. */
  size_t place;
};

/* Judges a text that may be too long for a bundle. */
struct yorvuste_judgement yorvuste_judge(const uint8_t *pattern, size_t pattern_size, const uint8_t *text, size_t text_size);

#ifdef __cplusplus
}
#endif

#endif
