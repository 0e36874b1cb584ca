// Measures the library's calls beside a plain loop over a table of moves, and beside RE2. Prints ratios.
#include "bench.h"
#include "cases.h"
#include "yorvuste.h"
#include <math.h>
#include <stdio.h>
#include <stdlib.h>
#include <string.h>
#include <time.h>

enum { MOST = 32000000, SOME = 1000000, STRIP = 8000, SLOTS = 128, CORRECTIONS = 2000, TEXTS = 1200 };

// Of this thread alone, so that what else runs on the machine disturbs less.
static double now(void) {
  struct timespec t;
  clock_gettime(CLOCK_THREAD_CPUTIME_ID, &t);
  return (double)t.tv_sec * 1e9 + (double)t.tv_nsec;
}

void must(bool holds, const char *complaint) {
  if (holds) return;
  fprintf(stderr, "bench: %s\n", complaint);
  exit(1);
}

void best(double *fastest, double took) {
  if (took < *fastest) *fastest = took;
}

static const uint8_t no_text[1];

// ---- the engines

typedef struct {
  const Case *of;
  const uint8_t *pattern;
  size_t length;
  Table table;
  void *re2;
} Made;

// Judges the text, so many times over in a row, and answers 1 for yes and 0 for no.
typedef uint32_t Engine(const Made *, const uint8_t *, size_t, uint32_t times);

static uint32_t by_plain(const Made *m, const uint8_t *text, size_t n, uint32_t times) {
  (void)times;
  return plain(&m->table, text, n);
}

static uint32_t by_rows(const Made *m, const uint8_t *text, size_t n, uint32_t times) {
  (void)times;
  return ahead(&m->table, text, n);
}

static uint32_t by_re2(const Made *m, const uint8_t *text, size_t n, uint32_t times) {
  (void)times;
  return re2_full_match(m->re2, text, n);
}

static uint32_t by_place(const Made *m, const uint8_t *text, size_t n, uint32_t times) {
  return bench_place(m->pattern, m->length, text, n, times);
}

static uint32_t by_set(const Made *m, const uint8_t *text, size_t n, uint32_t times) {
  return bench_set(m->pattern, m->length, text, n, times);
}

static uint32_t by_start(const Made *m, const uint8_t *text, size_t n, uint32_t times) {
  return bench_start(m->pattern, m->length, text, n, times);
}

static uint32_t by_roll(const Made *m, const uint8_t *text, size_t n, uint32_t times) {
  (void)times;
  struct yorvuste_judgement j = yorvuste_judge(m->pattern, m->length, text, n);
  return j.refusal ? 2 : j.verdict;
}

enum { PLAIN, AHEAD, RE2, PLACE, SET, START, ROLL, ENGINES };

static const struct {
  const char *name;
  Engine *judge;
  bool repeats; // it is timed on the text over and over too, so that the time of its building is told apart
  bool slow;    // it takes two seconds for the longest text, so it has two turns
} engines[ENGINES] = {
    {"plain loop", by_plain, false, false},
    {"plain loop over rows", by_rows, false, false},
    {"RE2", by_re2, false, false},
    {"place machine", by_place, false, true},
    {"set machine", by_set, true, false},
    {"start machine", by_start, true, false},
    {"whole way, in a roll", by_roll, false, false},
};

static bool has(int e, const Case *c) {
  return (e != RE2 || re2_here()) && (e != ROLL || c->few);
}

// ---- all engines answer alike

enum { LONGEST = 2000, TIMES = 3, TOO_MANY_STARTS = 7, NO_SUCH_SLOT = 10 };

static uint8_t letter(const Case *c) {
  return (uint8_t)c->alphabet[chance((uint32_t)strlen(c->alphabet))];
}

// One in three is letters at random, one in three follows the pattern, and one in three did so but for a byte, which is
// as often one of the last eight as any. One in fifteen is long enough for the eight parts of the start machine.
static size_t short_text(const Case *c, int i, uint8_t *text) {
  size_t n;
  if (i % 3 == 0) {
    n = chance(24);
    for (size_t k = 0; k < n; k++) text[k] = letter(c);
    return n;
  }
  n = fill(c, text, i % 10 ? 120 : 600 + chance(LONGEST - 600));
  if (i % 3 == 2 && n) {
    size_t at = chance(2) ? chance((uint32_t)n) : n - 1 - chance(n < 8 ? (uint32_t)n : 8);
    text[at] = letter(c);
  }
  return n;
}

static void alike(bool same, const Made *m, const char *engine, int i) {
  if (same) return;
  fprintf(stderr, "bench: %s answers otherwise than the plain loop at text %d of %s\n", engine, i, m->of->name);
  exit(1);
}

// Each engine on the text so many times over. Answers whether it follows the pattern.
static uint32_t agree_on(const Made *m, int i, const uint8_t *text, size_t n, uint32_t times) {
  static uint8_t whole[TIMES * LONGEST];
  for (uint32_t k = 0; k < times; k++) memcpy(whole + k * n, text, n);
  uint32_t right = by_plain(m, whole, times * n, 1);
  for (int e = 0; e < ENGINES; e++) {
    if (!has(e, m->of)) continue;
    bool counts = engines[e].repeats || engines[e].slow;
    uint32_t answer = counts ? engines[e].judge(m, text, n, times) : engines[e].judge(m, whole, times * n, 1);
    alike(answer == right, m, engines[e].name, i);
  }
  alike(bench_small_start(m->pattern, m->length, text, n, times) == (m->of->few ? right : TOO_MANY_STARTS), m, "96 rows", i);
  return right;
}

static void agree_on_tally(const Made *m, int i, const uint8_t *text, size_t n) {
  if (!has(ROLL, m->of)) return;
  uint32_t lines = 0;
  for (size_t k = 0; k < n; k++) lines += text[k] == '\n';
  struct yorvuste_judgement j = yorvuste_judge(m->pattern, m->length, text, n);
  alike(j.bytes == n && j.lines == lines, m, "the tally", i);
}

// A roll of a short text: it lies in slot 0 alone. Another text is put in its place or after it.
static void agree_on_correction(const Made *m, int i, const uint8_t *text, size_t n) {
  static uint8_t whole[2 * LONGEST];
  size_t slot = chance(2) ? 0 : chance(SLOTS + 8), kept = slot ? n : 0;
  memcpy(whole, text, kept);
  size_t size = short_text(m->of, i + (int)chance(3), whole + kept);
  uint32_t right = slot < SLOTS ? by_plain(m, whole, kept + size, 1) : NO_SUCH_SLOT;
  alike(bench_correct(m->pattern, m->length, text, n, slot, whole + kept, size, chance(3)) == right, m, "a corrected roll", i);
}

// Answers how many texts follow the pattern.
static int agree(const Made *m) {
  static uint8_t text[LONGEST];
  int yes = 0;
  for (int i = 0; i < TEXTS; i++) {
    size_t n = short_text(m->of, i, text);
    yes += (int)agree_on(m, i, text, n, 1 + chance(TIMES));
    agree_on_tally(m, i, text, n);
    agree_on_correction(m, i, text, n);
  }
  return yes;
}

// ---- full match

// The fastest turns of an engine: on the text, and on the text over and over.
typedef struct {
  double once, again;
} Turns;

static double turn(const Made *m, int e, const uint8_t *text, size_t n, uint32_t times) {
  double from = now();
  must(engines[e].judge(m, text, n, times) == 1, "a text that follows its pattern is answered no");
  return now() - from;
}

static void speeds(const Case *c, const Turns *fastest, uint32_t more) {
  double yardstick = fastest[PLAIN].once;
  for (int e = 0; e < ENGINES; e++) {
    printf("  %-24s ", engines[e].name);
    if (!has(e, c)) {
      printf("%s\n", e == RE2 ? "not installed" : "refused: more than 96 starts");
    } else if (engines[e].repeats) {
      must(fastest[e].again > fastest[e].once, "a text over and over is read as fast as once");
      double alone = (fastest[e].again - fastest[e].once) / more;
      printf("%7.2f   with its building %.2f\n", yardstick / alone, yardstick / fastest[e].once);
    } else {
      printf("%7.2f\n", yardstick / fastest[e].once);
    }
  }
  fflush(stdout);
}

static void match(const Made *m, const uint8_t *text, size_t n, int rounds, uint32_t more) {
  Turns fastest[ENGINES];
  for (int e = 0; e < ENGINES; e++) fastest[e] = (Turns){INFINITY, INFINITY};
  for (int r = 0; r < rounds; r++)
    for (int e = 0; e < ENGINES; e++) {
      if (!has(e, m->of) || (engines[e].slow && r >= 2)) continue;
      best(&fastest[e].once, turn(m, e, text, n, 1));
      if (engines[e].repeats) best(&fastest[e].again, turn(m, e, text, n, 1 + more));
    }
  printf("%s, %zu bytes (plain loop: %.2f GB/s)\n", m->of->name, n, (double)n / fastest[PLAIN].once);
  speeds(m->of, fastest, more);
}

// ---- a correction

static uint32_t corrected(const Made *m, const uint8_t *text, size_t n, const uint8_t *strip, size_t size, uint32_t more) {
  return bench_correct(m->pattern, m->length, text, n, m->of->slot, strip, size, more);
}

static double correcting(const Made *m, const uint8_t *text, size_t n, const uint8_t *strip, size_t size, uint32_t more) {
  double from = now();
  must(corrected(m, text, n, strip, size, more) == 1, "a roll that was corrected to a yes is answered otherwise");
  return now() - from;
}

// The strip of one slot is damaged, so that the verdict is no, and then corrected to a yes.
static void correction(const Made *m, int rounds) {
  static uint8_t text[SLOTS * STRIP], damaged[SLOTS * STRIP];
  size_t n = fill(m->of, text, sizeof text), at = m->of->slot * STRIP;
  size_t size = n - at < STRIP ? n - at : STRIP;
  memcpy(damaged, text, n);
  memset(damaged + at, 0xff, size);
  must(!plain(&m->table, damaged, n), "a damaged text is answered yes");
  must(corrected(m, text, n, damaged + at, size, 0) == 0, "a roll with a damaged strip is not answered no");
  double scan = INFINITY, once = INFINITY, again = INFINITY;
  for (int r = 0; r < rounds; r++) {
    best(&scan, turn(m, PLAIN, text, n, 1));
    best(&once, correcting(m, damaged, n, text + at, size, 0));
    best(&again, correcting(m, damaged, n, text + at, size, CORRECTIONS));
  }
  double each = (again - once) / CORRECTIONS;
  printf("%-20s a correction 1/%.0f of the rescan (%.1f us of %.0f us)\n", m->of->name, scan / each, each / 1e3, scan / 1e3);
  fflush(stdout);
}

// ---- building

enum { STAGES = 4 };

static const struct {
  const char *name;
  uint32_t (*judge)(const uint8_t *, size_t, const uint8_t *, size_t, uint32_t);
} stages[STAGES] = {
    {"place", bench_place},
    {"with sets", bench_set},
    {"and starts, 96 rows", bench_small_start},
    {"512 rows", bench_start},
};

static void build(const char *name, const uint8_t *pattern, size_t length, int rounds) {
  double fastest[STAGES] = {INFINITY, INFINITY, INFINITY, INFINITY};
  uint32_t answer[STAGES];
  for (int r = 0; r < rounds; r++)
    for (int s = 0; s < STAGES; s++) {
      double from = now();
      answer[s] = stages[s].judge(pattern, length, no_text, 0, 1);
      best(&fastest[s], now() - from);
    }
  printf("%-20s", name);
  for (int s = 0; s < STAGES; s++) {
    printf(" %s %.2f ms", stages[s].name, fastest[s] / 1e6);
    if (answer[s] > 1) printf(" (refused %u)", answer[s] - 1);
    printf(s + 1 < STAGES ? "," : "\n");
  }
  fflush(stdout);
}

static size_t from_hex(const char *hex, uint8_t *bytes, size_t room) {
  size_t n = 0;
  for (; hex[0] && hex[1]; hex += 2) {
    unsigned byte;
    must(sscanf(hex, "%2x", &byte) == 1, "a pattern is not in hexadecimal");
    must(n < room, "a pattern is too long");
    bytes[n++] = (uint8_t)byte;
  }
  return n;
}

// A file of lines, each a name, a blank, and a pattern in hexadecimal.
static void builds(const char *path, const char *program, int rounds) {
  FILE *file = fopen(path, "r");
  must(file, "no file of patterns");
  char name[64], hex[1024];
  uint8_t pattern[512], slow[512];
  size_t slow_length = 0;
  while (fscanf(file, "%63s %1023s", name, hex) == 2) {
    size_t length = from_hex(hex, pattern, sizeof pattern);
    build(name, pattern, length, rounds);
    if (strcmp(name, "late-at-96") != 0) continue;
    memcpy(slow, pattern, length);
    slow_length = length;
  }
  fclose(file);
  must(slow_length, "the file of patterns has no late-at-96");
  printf("\n`rollcheck` on bundles of 32,768 bytes, from its start to its end:\n");
  time_program(program, slow, slow_length, rounds);
}

static int rounds_of(const char *word) {
  char *end;
  long rounds = strtol(word, &end, 10);
  must(end != word && !*end && rounds >= 1 && rounds <= 1000, "wanted: 1 to 1000 rounds");
  return (int)rounds;
}

static void make(Made *m, const Case *c) {
  m->of = c;
  m->pattern = (const uint8_t *)c->pattern;
  m->length = strlen(c->pattern);
  fill_table(c, &m->table);
  m->re2 = re2_here() ? re2_made(c->pattern) : NULL;
}

int main(int argc, char **argv) {
  must(argc == 4, "wanted: the file of patterns, how many rounds, and the program");
  int rounds = rounds_of(argv[2]);
  static Made made[CASES];
  int yes = 0;
  for (int i = 0; i < CASES; i++) {
    make(&made[i], &cases[i]);
    yes += agree(&made[i]);
  }
  printf("all engines agree on %d short texts, %d of which follow their patterns\n\n", TEXTS * CASES, yes);
  printf("Full match, speeds beside the plain loop:\n");
  uint8_t *text = malloc(MOST);
  must(text, "no memory");
  for (int i = 0; i < CASES; i++) {
    match(&made[i], text, fill(&cases[i], text, SOME), rounds, 16);
    match(&made[i], text, fill(&cases[i], text, MOST), rounds, 1);
  }
  free(text);
  printf("\nA roll of %d strips of %d bytes, one fed anew, filed, and the verdict asked:\n", SLOTS, STRIP);
  for (int i = 0; i < CASES; i++) correction(&made[i], rounds);
  printf("\nReading the pattern and building its machines:\n");
  builds(argv[1], argv[3], rounds);
  return 0;
}
