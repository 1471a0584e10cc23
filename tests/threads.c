/* One code is matched from several threads, each with match data of its own: each answer is looked
   at, and the nanoseconds of a match are told for 1, 2 and 4 threads, and those of a processor,
   which other programs don't lengthen. */
#define PCRE2_CODE_UNIT_WIDTH 8
#include "../c/pcre2.h"

#include <pthread.h>
#include <stdio.h>
#include <stdlib.h>
#include <string.h>
#include <time.h>

#define TURNS 400000

static pcre2_code *code;

struct told {
  long id, bad;
  double busy;
};

static double now(clockid_t clock) {
  struct timespec t;
  clock_gettime(clock, &t);
  return (double)t.tv_sec * 1e9 + (double)t.tv_nsec;
}

static void *run(void *arg) {
  struct told *told = arg;
  long id = told->id, bad = 0;
  double begin = now(CLOCK_THREAD_CPUTIME_ID);
  pcre2_match_data *m = pcre2_match_data_create_from_pattern(code, NULL);
  size_t *v = pcre2_get_ovector_pointer(m);
  char s[64];
  for (int i = 0; i < TURNS; i++) {
    int n = snprintf(s, sizeof s, "xx key%d=%ld;", i % 1000, id);
    int rc = pcre2_match(code, (PCRE2_SPTR)s, (size_t)n, 0, 0, m, NULL);
    if (rc != 3 || atol(s + v[4]) != id || atoi(s + v[2]) != i % 1000) bad++;
  }
  pcre2_match_data_free(m);
  told->bad = bad;
  told->busy = now(CLOCK_THREAD_CPUTIME_ID) - begin;
  return NULL;
}

int main(void) {
  int error;
  size_t at;
  long all = 0;
  code =
      pcre2_compile((PCRE2_SPTR) "key(\\d+)=(\\d+)", PCRE2_ZERO_TERMINATED, 0, &error, &at, NULL);
  for (int n = 1; n <= 4; n *= 2) {
    pthread_t threads[4];
    struct told told[4];
    double begin = now(CLOCK_MONOTONIC), busy = 0;
    for (int i = 0; i < n; i++) {
      told[i].id = i + 1;
      pthread_create(&threads[i], NULL, run, &told[i]);
    }
    for (int i = 0; i < n; i++) {
      pthread_join(threads[i], NULL);
      all += told[i].bad;
      busy += told[i].busy / n;
    }
    printf("%d threads: %.0f ns a match, %.0f of a processor\n", n,
           (now(CLOCK_MONOTONIC) - begin) / TURNS, busy / TURNS);
  }
  printf("%ld bad answers\n", all);
  pcre2_code_free(code);
  return all != 0;
}
