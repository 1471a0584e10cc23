/* What is wrong with a text that isn't UTF-8 (pcre2unicode, "Errors in UTF-8 strings"). */
#include "library.h"

static bool follows(uint8_t c) { return (c & 0xc0) == 0x80; }

int character_fault(const uint8_t *s, size_t n, size_t *len) {
  static const int cut[] = {PCRE2_ERROR_UTF8_ERR1, PCRE2_ERROR_UTF8_ERR2, PCRE2_ERROR_UTF8_ERR3,
                            PCRE2_ERROR_UTF8_ERR4, PCRE2_ERROR_UTF8_ERR5};
  static const int stray[] = {PCRE2_ERROR_UTF8_ERR6, PCRE2_ERROR_UTF8_ERR7, PCRE2_ERROR_UTF8_ERR8,
                              PCRE2_ERROR_UTF8_ERR9, PCRE2_ERROR_UTF8_ERR10};
  static const struct {
    uint8_t first, second;
    int fault;
  } overlong[] = {{0xe0, 0xa0, PCRE2_ERROR_UTF8_ERR16},
                  {0xf0, 0x90, PCRE2_ERROR_UTF8_ERR17},
                  {0xf8, 0x88, PCRE2_ERROR_UTF8_ERR18},
                  {0xfc, 0x84, PCRE2_ERROR_UTF8_ERR19}};
  uint8_t c = s[0];
  *len = 1;
  if (c < 0x80) return 0;
  if (c < 0xc0) return PCRE2_ERROR_UTF8_ERR20;
  if (c >= 0xfe) return PCRE2_ERROR_UTF8_ERR21;
  size_t more = c < 0xe0 ? 1 : c < 0xf0 ? 2 : c < 0xf8 ? 3 : c < 0xfc ? 4 : 5;
  if (n <= more) return cut[more - n];
  if (!follows(s[1])) return stray[0];
  if (more == 1 && c < 0xc2) return PCRE2_ERROR_UTF8_ERR15;
  for (size_t i = 2; i <= more; i++) {
    if (!follows(s[i])) return stray[i - 1];
  }
  for (size_t i = 0; i < sizeof overlong / sizeof *overlong; i++) {
    if (c == overlong[i].first && s[1] < overlong[i].second) return overlong[i].fault;
  }
  if (c == 0xed && s[1] >= 0xa0) return PCRE2_ERROR_UTF8_ERR14;
  if (more == 3 && (c > 0xf4 || (c == 0xf4 && s[1] > 0x8f))) return PCRE2_ERROR_UTF8_ERR13;
  if (more == 4) return PCRE2_ERROR_UTF8_ERR11;
  if (more == 5) return PCRE2_ERROR_UTF8_ERR12;
  *len = more + 1;
  return 0;
}

size_t valid_to(const uint8_t *s, size_t from, size_t len) {
  size_t n;
  while (from < len) {
    if (s[from] < 0x80) {
      from++;
      continue;
    }
    if (character_fault(s + from, len - from, &n)) break;
    from += n;
  }
  return from;
}
