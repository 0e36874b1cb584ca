// The time that `rollcheck` takes from its start to its end, on bundles of the greatest size.
#include "bench.h"
#include <math.h>
#include <spawn.h>
#include <stdio.h>
#include <stdlib.h>
#include <string.h>
#include <sys/wait.h>
#include <time.h>
#include <unistd.h>

enum { LARGEST = 32768, HEAD = 4, SLOTS = 128, LINE = 64 };

extern char **environ;

static double clock_now(void) {
  struct timespec t;
  clock_gettime(CLOCK_MONOTONIC, &t);
  return (double)t.tv_sec * 1e9 + (double)t.tv_nsec;
}

static uint8_t *size16(uint8_t *at, size_t n) {
  at[0] = (uint8_t)(n >> 8);
  at[1] = (uint8_t)n;
  return at + 2;
}

// A bundle of `strips` strips, filled up with `unit` over and over. The last strip has what is left over.
static void written(uint8_t *bundle, const char *pattern, size_t length, size_t strips, const char *unit) {
  size_t room = LARGEST - HEAD - 3 * strips - length, each = room / strips;
  uint8_t *at = size16(size16(bundle, strips), length);
  for (size_t i = 0; i < strips; i++) *at++ = (uint8_t)(i % SLOTS);
  for (size_t i = 0; i < strips; i++) at = size16(at, i + 1 < strips ? each : room - (strips - 1) * each);
  memcpy(at, pattern, length);
  at += length;
  for (size_t i = 0; i < room; i++) at[i] = (uint8_t)unit[i % strlen(unit)];
}

// Runs the program with these files as its input and its output, and answers its status, or a negative number where it
// did not end by itself.
static int status_of(const char *program, int in, int out) {
  posix_spawn_file_actions_t files;
  must(posix_spawn_file_actions_init(&files) == 0, "no memory");
  must(posix_spawn_file_actions_adddup2(&files, in, STDIN_FILENO) == 0, "no memory");
  must(posix_spawn_file_actions_adddup2(&files, out, STDOUT_FILENO) == 0, "no memory");
  char *words[] = {(char *)program, NULL};
  pid_t child;
  int status;
  must(posix_spawn(&child, program, &files, NULL, words, environ) == 0, "rollcheck cannot be started");
  must(waitpid(child, &status, 0) == child, "rollcheck cannot be waited for");
  posix_spawn_file_actions_destroy(&files);
  return WIFEXITED(status) ? WEXITSTATUS(status) : -1;
}

// Runs the program on the file, answers how long that took, and reads the first line that it printed.
static double run(const char *program, FILE *in, char line[LINE]) {
  FILE *out = tmpfile();
  must(out, "no file for what rollcheck prints");
  rewind(in);
  double from = clock_now();
  int status = status_of(program, fileno(in), fileno(out));
  double took = clock_now() - from;
  must(status == 0, "rollcheck failed");
  rewind(out);
  must(fgets(line, LINE, out), "rollcheck printed nothing");
  line[strcspn(line, "\n")] = 0;
  fclose(out);
  return took;
}

static void row(const char *program, const char *name, const uint8_t *bundle, int rounds, const char *wanted) {
  FILE *in = tmpfile();
  must(in && fwrite(bundle, 1, LARGEST, in) == LARGEST && fflush(in) == 0, "no file for a bundle");
  double fastest = INFINITY;
  char line[LINE];
  for (int r = 0; r < 3 * rounds; r++) {
    best(&fastest, run(program, in, line));
    if (strcmp(line, wanted) != 0) {
      fprintf(stderr, "bench: rollcheck printed '%s' and not '%s' on %s\n", line, wanted, name);
      exit(1);
    }
  }
  fclose(in);
  printf("%-34s %.2f ms   %s\n", name, fastest / 1e6, line);
}

void time_program(const char *program, const uint8_t *slow, size_t length, int rounds) {
  static uint8_t bundle[LARGEST];
  static const char words[] = "(abc)*", fifth[] = ".*a.{4}";
  char name[LINE];
  written(bundle, words, strlen(words), 1, "abc");
  row(program, "(abc)*, one strip", bundle, rounds, "verdict no"); // ends within a word
  written(bundle, fifth, strlen(fifth), SLOTS, "cd\nab");
  row(program, ".*a.{4}, 128 strips", bundle, rounds, "verdict yes");
  // An empty strip is filed all the same, so this is the most that can be filed.
  size_t most = (LARGEST - HEAD - strlen(fifth)) / 3;
  written(bundle, fifth, strlen(fifth), most, "a");
  snprintf(name, sizeof name, ".*a.{4}, %zu strips, all empty", most);
  row(program, name, bundle, rounds, "verdict no");
  written(bundle, (const char *)slow, length, SLOTS, "a");
  row(program, "late-at-96, 128 strips", bundle, rounds, "refused 6 layer build place 96");
}
