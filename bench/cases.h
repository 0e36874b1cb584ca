// The patterns that are measured, with texts that follow them, and the yardstick: a table of moves that was written by
// hand, and a loop that looks up a move for each byte.
#ifndef BENCH_CASES_H
#define BENCH_CASES_H

#include <stdbool.h>
#include <stddef.h>
#include <stdint.h>

enum { STATES = 64, CASES = 5 };

typedef struct {
  uint16_t moves[STATES * 256];
  uint32_t rows[STATES * 256]; // the same moves, a state being the offset of its row
  bool accepts[STATES];
} Table;

typedef struct {
  const char *name, *pattern, *alphabet;
  void (*table)(Table *);
  size_t (*piece)(uint8_t *); // writes a piece and answers its length; pieces in a row follow the pattern
  size_t slot;                // in a roll of 128 strips of 8,000 bytes, one whose strip decides the verdict
  bool few;                   // at most 96 starts
} Case;

extern const Case cases[CASES];

void fill_table(const Case *c, Table *table);

bool plain(const Table *table, const uint8_t *text, size_t length);

// The same where a move is to the offset of the state's row, which saves a multiplication.
bool ahead(const Table *table, const uint8_t *text, size_t length);

// Writes at most `most` bytes of whole pieces, and answers how many.
size_t fill(const Case *c, uint8_t *text, size_t most);

// A number below that, the same ones in each run.
uint32_t chance(uint32_t below);

#endif
