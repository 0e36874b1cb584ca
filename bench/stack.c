// How much stack the library's calls take: each runs on a thread whose stack was painted, and what is painted no more
// was touched.
#include "yorvuste.h"
#include <pthread.h>
#include <stdio.h>
#include <stdlib.h>
#include <string.h>

enum { STACK = 8 << 20, PAINT = 0xa5, CASES = 3, BUNDLE = 4096 };

typedef struct {
  const char *name, *pattern, *text;
} Case;

static const Case cases[CASES] = {
    {"(abc)*", "(abc)*", "abcabcabc"},
    {"parentheses 16 deep", "((((((((((((((((a))))))))))))))))", "a"},
    {"a class 16 deep", "(((((((((((((((([^a-z[:digit:]]))))))))))))))))", "A"},
};

static const uint8_t *bytes_of(const char *text) { return (const uint8_t *)text; }

// Each answers whether the call went all the way.

static bool reads(const Case *c) { return yorvuste_read(bytes_of(c->pattern), strlen(c->pattern)).refusal == 0; }

// The text is the only strip.
static bool checks(const Case *c) {
  static uint8_t bundle[BUNDLE], answer[YORVUSTE_ROOM];
  size_t length = strlen(c->pattern), bytes = strlen(c->text);
  const uint8_t head[] = {0, 1, (uint8_t)(length >> 8), (uint8_t)length, 0, (uint8_t)(bytes >> 8), (uint8_t)bytes};
  memcpy(bundle, head, sizeof head);
  memcpy(bundle + sizeof head, c->pattern, length);
  memcpy(bundle + sizeof head + length, c->text, bytes);
  size_t size = yorvuste_check(bundle, sizeof head + length + bytes, answer, sizeof answer);
  return size <= sizeof answer && memcmp(answer, "verdict yes", 11) == 0;
}

static bool judges(const Case *c) {
  return yorvuste_judge(bytes_of(c->pattern), strlen(c->pattern), bytes_of(c->text), strlen(c->text)).verdict;
}

static const struct {
  const char *name;
  bool (*call)(const Case *);
} calls[] = {{"yorvuste_read", reads}, {"yorvuste_check", checks}, {"yorvuste_judge", judges}};

enum { CALLS = sizeof calls / sizeof *calls };

static _Alignas(4096) uint8_t stack[STACK];

typedef struct {
  bool (*call)(const Case *);
  const Case *with;
  size_t touched;
} Task;

static void *on_painted(void *given) {
  Task *task = given;
  const uint8_t *here = __builtin_frame_address(0), *lowest = stack;
  task->call(task->with);
  while (*lowest == PAINT) lowest++;
  task->touched = (size_t)(here - lowest);
  return NULL;
}

static void must(bool holds, const char *complaint) {
  if (holds) return;
  fprintf(stderr, "stack: %s\n", complaint);
  exit(1);
}

static size_t touched(bool (*call)(const Case *), const Case *with) {
  // Once before, so that what the loader takes to find the C library's functions is not counted.
  must(call(with), "a text that follows its pattern is answered otherwise");
  Task task = {call, with, 0};
  pthread_attr_t attributes;
  pthread_t thread;
  memset(stack, PAINT, sizeof stack);
  must(pthread_attr_init(&attributes) == 0, "no memory");
  must(pthread_attr_setstack(&attributes, stack, sizeof stack) == 0, "the painted stack is not taken");
  must(pthread_create(&thread, &attributes, on_painted, &task) == 0, "no thread");
  must(pthread_join(thread, NULL) == 0, "a thread is lost");
  pthread_attr_destroy(&attributes);
  must(stack[0] == PAINT, "the painted stack is too small");
  return task.touched;
}

static void row(const char *call, const char *pattern, size_t bytes) {
  char name[64];
  snprintf(name, sizeof name, "%s, %s", call, pattern);
  if (bytes < 1000000) printf("%-36s %.1f KB\n", name, (double)bytes / 1e3);
  else printf("%-36s %.2f MB\n", name, (double)bytes / 1e6);
}

int main(void) {
  printf("\nStack that a call takes:\n");
  for (int i = 0; i < CALLS; i++)
    for (int k = 0; k < CASES; k++) row(calls[i].name, cases[k].name, touched(calls[i].call, &cases[k]));
  return 0;
}
