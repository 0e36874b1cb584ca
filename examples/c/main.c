/* Yorvuste from C.
 *
 *     example < BUNDLE           prints what rollcheck prints of a bundle
 *     example PATTERN TEXT       of two files: prints the pattern's places, and what the text comes to under it */
#include <stdio.h>
#include <stdlib.h>

#include "yorvuste.h"

struct bytes {
  uint8_t *at;
  size_t size;
};

static void fail(const char *what) {
  perror(what);
  exit(1);
}

static struct bytes all_of(FILE *file, const char *name) {
  size_t room = 4096, got;
  struct bytes bytes = {malloc(room), 0};
  if (!bytes.at) fail(name);
  while ((got = fread(bytes.at + bytes.size, 1, room - bytes.size, file)) > 0) {
    bytes.size += got;
    if (bytes.size < room) continue;
    uint8_t *larger = realloc(bytes.at, room *= 2);
    if (!larger) fail(name);
    bytes.at = larger;
  }
  if (ferror(file)) fail(name);
  return bytes;
}

static struct bytes file_of(const char *name) {
  FILE *file = fopen(name, "rb");
  if (!file) fail(name);
  struct bytes bytes = all_of(file, name);
  fclose(file);
  return bytes;
}

/* Which layer a refusal of these calls comes from. */
static const char *layer(uint8_t refusal) {
  switch (refusal) {
  case YORVUSTE_PATTERN_TOO_LONG:
  case YORVUSTE_BADLY_WRITTEN:
  case YORVUSTE_TOO_MANY_PLACES:
    return "pattern";
  case YORVUSTE_TOO_MANY_SETS:
  case YORVUSTE_TOO_MANY_STARTS:
    return "build";
  default:
    return "roll";
  }
}

static void refused(uint8_t refusal, size_t place) {
  printf("refused %u layer %s place %zu\n", refusal, layer(refusal), place);
}

static void check(struct bytes bundle) {
  uint8_t text[YORVUSTE_ROOM];
  size_t size = yorvuste_check(bundle.at, bundle.size, text, sizeof text);
  if (size > sizeof text) {
    fputs("an answer is longer than YORVUSTE_ROOM\n", stderr);
    exit(1);
  }
  printf("%.*s\n", (int)size, (const char *)text);
}

static void judge(struct bytes pattern, struct bytes text) {
  struct yorvuste_reading reading = yorvuste_read(pattern.at, pattern.size);
  if (reading.refusal) {
    refused(reading.refusal, reading.place);
    return;
  }
  printf("places %u\n", reading.places);
  struct yorvuste_judgement judgement = yorvuste_judge(pattern.at, pattern.size, text.at, text.size);
  if (judgement.refusal) refused(judgement.refusal, judgement.place);
  else printf("verdict %s\nbytes %u\nlines %u\n", judgement.verdict ? "yes" : "no", judgement.bytes, judgement.lines);
}

int main(int count, char **words) {
  if (count == 1) {
    check(all_of(stdin, "standard input"));
  } else if (count == 3) {
    judge(file_of(words[1]), file_of(words[2]));
  } else {
    fprintf(stderr, "usage: %s [PATTERN TEXT]\n", words[0]);
    return 2;
  }
  return 0;
}
