/* Writes the months that a text names: cc month.c $(pkg-config --cflags --libs libpcre2-8) */
#define PCRE2_CODE_UNIT_WIDTH 8
#include <pcre2.h>

#include <stdio.h>
#include <string.h>

int main(int argc, char **argv) {
  int fault;
  size_t at = 0;
  PCRE2_SPTR text = (PCRE2_SPTR)(argc > 1 ? argv[1] : "from 2023-11 to 2024-02");
  pcre2_code *code =
      pcre2_compile((PCRE2_SPTR) "(\\d{4})-(\\d\\d)", PCRE2_ZERO_TERMINATED, 0, &fault, &at, NULL);
  if (!code) {
    PCRE2_UCHAR why[120];
    pcre2_get_error_message(fault, why, sizeof why);
    printf("at %zu: %s\n", at, why);
    return 2;
  }
  pcre2_match_data *match = pcre2_match_data_create_from_pattern(code, NULL);
  size_t *place = pcre2_get_ovector_pointer(match), len = strlen((const char *)text);
  for (at = 0; pcre2_match(code, text, len, at, 0, match, NULL) > 0; at = place[1])
    printf("month %.2s of %.4s\n", text + place[4], text + place[2]);
  pcre2_match_data_free(match);
  pcre2_code_free(code);
}
