/* The times of compiling and of short matches, for one library: tests/run gives those of two side
   by side. With the word `fresh` each match has match data of its own. */
#define PCRE2_CODE_UNIT_WIDTH 8
#include "../c/pcre2.h"

#include <stdio.h>
#include <string.h>
#include <time.h>

static double now(void) {
  struct timespec t;
  clock_gettime(CLOCK_PROCESS_CPUTIME_ID, &t);
  return (double)t.tv_sec * 1e9 + (double)t.tv_nsec;
}

static pcre2_code *compile(const char *pattern) {
  int error;
  size_t at;
  return pcre2_compile((PCRE2_SPTR)pattern, PCRE2_ZERO_TERMINATED, 0, &error, &at, NULL);
}

int main(int argc, char **argv) {
  static const char *const rows[][2] = {
      {"^/api/v(\\d+)/(\\w+)$", "/api/v12/users"},
      {"(?i)error|fail", "all is well in this line of text"},
      {"^(?:\\d{1,3}\\.){3}\\d{1,3}$", "192.168.100.254"},
      {"foo.*bar", "xx foo yyy zzz bar"},
      {"(\\w+)@(\\w+)\\.com", "write to someone@example.com today"}};
  int fresh = argc > 1 && !strcmp(argv[1], "fresh"), turns = fresh ? 100000 : 400000;
  for (size_t i = 0; i < sizeof rows / sizeof *rows; i++) {
    double begin = now();
    for (int k = 0; k < 10000; k++)
      pcre2_code_free(compile(rows[i][0]));
    double compiling = (now() - begin) / 10000;
    pcre2_code *c = compile(rows[i][0]);
    pcre2_match_data *m = pcre2_match_data_create_from_pattern(c, NULL);
    size_t len = strlen(rows[i][1]);
    int rc = 0;
    begin = now();
    for (int k = 0; k < turns; k++) {
      if (fresh) {
        pcre2_match_data_free(m);
        m = pcre2_match_data_create_from_pattern(c, NULL);
      }
      rc = pcre2_match(c, (PCRE2_SPTR)rows[i][1], len, 0, 0, m, NULL);
    }
    printf("%s\t%.0f\t%.0f\t%d\n", rows[i][0], compiling, (now() - begin) / turns, rc);
    pcre2_match_data_free(m);
    pcre2_code_free(c);
  }
  return 0;
}
