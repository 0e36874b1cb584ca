// Where RE2 is not installed.
#include "bench.h"

bool re2_here(void) { return false; }

void *re2_made(const char *pattern) {
  (void)pattern;
  return NULL;
}

bool re2_full_match(void *re2, const uint8_t *text, size_t bytes) {
  (void)re2;
  (void)text;
  (void)bytes;
  return false;
}
