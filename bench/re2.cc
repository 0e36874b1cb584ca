// RE2, with its dot for every byte and its bytes for characters, as the library's patterns have them.
#include "bench.h"
#include <re2/re2.h>

bool re2_here(void) { return true; }

void *re2_made(const char *pattern) {
  re2::RE2::Options options;
  options.set_encoding(re2::RE2::Options::EncodingLatin1);
  options.set_dot_nl(true);
  return new re2::RE2(pattern, options);
}

bool re2_full_match(void *re2, const uint8_t *text, size_t bytes) {
  return re2::RE2::FullMatch(re2::StringPiece((const char *)text, bytes), *(re2::RE2 *)re2);
}
