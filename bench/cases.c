#include "cases.h"
#include <inttypes.h>
#include <stdio.h>
#include <string.h>

uint32_t chance(uint32_t below) {
  static uint32_t seed = 7;
  seed = seed * 1664525u + 1013904223u;
  return (seed >> 8) % below;
}

// ---- the yardstick

bool plain(const Table *table, const uint8_t *text, size_t length) {
  uint32_t at = 0;
  for (size_t i = 0; i < length; i++) at = table->moves[at << 8 | text[i]];
  return table->accepts[at];
}

bool ahead(const Table *table, const uint8_t *text, size_t length) {
  const uint32_t *rows = table->rows;
  size_t at = 0;
  for (size_t i = 0; i < length; i++) at = (rows + text[i])[at];
  return table->accepts[at >> 8];
}

// Moves from `from` on the bytes `low` to `high`.
typedef struct {
  uint8_t from, low, high, to;
} Arc;

// All else leads to the last state, and nothing out of it. State 0, where texts begin, accepts.
static void lay(Table *table, int states, const Arc *arcs, size_t count) {
  for (int at = 0; at < states * 256; at++) table->moves[at] = (uint16_t)(states - 1);
  for (size_t i = 0; i < count; i++)
    for (int c = arcs[i].low; c <= arcs[i].high; c++) table->moves[arcs[i].from * 256 + c] = arcs[i].to;
  table->accepts[0] = true;
}

#define LAY(table, states, arcs) lay(table, states, arcs, sizeof(arcs) / sizeof *(arcs))

static void words(Table *t) {
  static const Arc arcs[] = {{0, 'a', 'a', 1}, {1, 'b', 'b', 2}, {2, 'c', 'c', 0}};
  LAY(t, 4, arcs);
}

static void runs(Table *t) {
  static const Arc arcs[] = {{0, 'A', 'B', 1}, {1, 'A', 'B', 1}, {1, 'C', 'C', 0}};
  LAY(t, 3, arcs);
}

// A state is which of the last five bytes were an a.
static void fifth(Table *t) {
  for (int s = 0; s < 32; s++) {
    for (int c = 0; c < 256; c++) t->moves[s * 256 + c] = (uint16_t)((s << 1 | (c == 'a')) & 31);
    t->accepts[s] = s >> 4 & 1;
  }
}

static void records(Table *t) {
  static const Arc arcs[] = {{0, 'A', 'Z', 1}, {1, 'a', 'z', 1}, {1, ',', ',', 2}, {2, '0', '9', 3}, {3, '0', '9', 3},
                             {3, ',', ',', 4}, {4, '0', '9', 5}, {5, '0', '9', 5}, {5, '\n', '\n', 0}};
  LAY(t, 7, arcs);
}

static void dated(Table *t) {
  static const Arc arcs[] = {{0, '0', '9', 1},   {1, '0', '9', 2},   {2, '0', '9', 3},    {3, '0', '9', 4},  {4, '-', '-', 5},
                             {5, '0', '9', 6},   {6, '0', '9', 7},   {7, '-', '-', 8},    {8, '0', '9', 9},  {9, '0', '9', 10},
                             {10, ' ', ' ', 11}, {11, 'A', 'Z', 12}, {12, 'A', 'Z', 12},  {12, ':', ':', 13}, {13, ' ', ' ', 14},
                             {14, ' ', '~', 14}, {14, '\n', '\n', 0}};
  LAY(t, 16, arcs);
}

// ---- pieces of text

static size_t word(uint8_t *to) {
  memcpy(to, "abc", 3);
  return 3;
}

static size_t run(uint8_t *to) {
  size_t n = 1 + chance(6);
  for (size_t i = 0; i < n; i++) to[i] = (uint8_t)('A' + chance(2));
  to[n] = 'C';
  return n + 1;
}

static size_t letters(uint8_t *to) {
  for (size_t i = 0; i < 10; i++) to[i] = (uint8_t)('a' + chance(4));
  to[5] = 'a';
  return 10;
}

static size_t record(uint8_t *to) {
  size_t n = (size_t)sprintf((char *)to, "%c", (char)('A' + chance(26)));
  for (uint32_t i = chance(9); i > 0; i--) to[n++] = (uint8_t)('a' + chance(26));
  uint32_t first = chance(100000), second = chance(100);
  return n + (size_t)sprintf((char *)to + n, ",%" PRIu32 ",%" PRIu32 "\n", first, second);
}

static size_t dated_record(uint8_t *to) {
  static const char *const kinds[] = {"INFO", "WARN", "ERROR"};
  uint32_t year = chance(100), month = 1 + chance(12), day = 1 + chance(28), kind = chance(3), pieces = chance(1000), shelf = chance(50);
  return (size_t)sprintf((char *)to, "20%02" PRIu32 "-%02" PRIu32 "-%02" PRIu32 " %s: %" PRIu32 " pieces left on shelf %" PRIu32 "\n",
                         year, month, day, kinds[kind], pieces, shelf);
}

size_t fill(const Case *c, uint8_t *text, size_t most) {
  uint8_t piece[256];
  size_t length = 0;
  for (;;) {
    size_t n = c->piece(piece);
    if (length + n > most) return length;
    memcpy(text + length, piece, n);
    length += n;
  }
}

// ---- the cases

const Case cases[CASES] = {
    {"(abc)*", "(abc)*", "abcd", words, word, 77, true},
    {"([A-B]+C)*", "([A-B]+C)*", "ABCD", runs, run, 77, true},
    // Only the fifth byte from the end decides, which lies in the last slot.
    {".*a.{4}", ".*a.{4}", "ab\n\xff", fifth, letters, 127, true},
    {"line records", "([A-Z][a-z]*,[0-9]+,[0-9]+\n)*", "Zz,0\n", records, record, 77, true},
    {"dated line records", "([0-9]{4}-[0-9]{2}-[0-9]{2} [A-Z]+: [ -~]*\n)*", "0- Z:\n", dated, dated_record, 77, false},
};

void fill_table(const Case *c, Table *table) {
  c->table(table);
  for (int k = 0; k < STATES * 256; k++) table->rows[k] = table->moves[k] * 256u;
}
