/* Refuses each allocation of a program once. Every call must answer the error of its page, and
   nothing may be lost. And hands calls what they have to refuse. Also run whole under valgrind and
   sanitizers (tests/run). */
#define PCRE2_CODE_UNIT_WIDTH 8
#include "../c/pcre2.h"

#include <stdio.h>
#include <string.h>

static long left = -1, held;
static int refused;

void *__libc_malloc(size_t);
void *__libc_calloc(size_t, size_t);
void *__libc_realloc(void *, size_t);
void __libc_free(void *);

#ifdef COUNTING
static int refuse(void) {
  if (left < 0 || --left != 0) return 0;
  refused = 1;
  left = -1;
  return 1;
}
void *malloc(size_t n) {
  if (refuse()) return NULL;
  void *p = __libc_malloc(n);
  held += p != NULL;
  return p;
}
void *calloc(size_t n, size_t size) {
  if (refuse()) return NULL;
  void *p = __libc_calloc(n, size);
  held += p != NULL;
  return p;
}
void *realloc(void *p, size_t n) {
  if (refuse()) return NULL;
  void *q = __libc_realloc(p, n);
  held += !p && q;
  return q;
}
void free(void *p) {
  held -= p != NULL;
  __libc_free(p);
}
#endif

static int wrong;

static void want(const char *what, int rc, int error) {
  if (rc >= 0 || rc == error) return;
  printf("%s answers %d\n", what, rc);
  wrong = 1;
}

static const char subject[] = "from 2023-11 foo xy aabbc and 2024-02 é";

static void texts(pcre2_match_data *m) {
  PCRE2_UCHAR **list, *text;
  size_t *lens, len;
  int rc = pcre2_substring_list_get(m, &list, &lens);
  want("list_get", rc, PCRE2_ERROR_NOMEMORY);
  if (rc == 0) pcre2_substring_list_free((PCRE2_SPTR *)list);
  rc = pcre2_substring_get_bynumber(m, 0, &text, &len);
  want("get_bynumber", rc, PCRE2_ERROR_NOMEMORY);
  if (rc == 0) pcre2_substring_free(text);
}

static void searches(pcre2_code *c, pcre2_match_data *m, pcre2_match_context *with) {
  size_t n = sizeof subject - 1, *v = pcre2_get_ovector_pointer(m), room = 200;
  int work[100], rc;
  char out[200];
  for (size_t at = 0; at <= n; at = v[1] > v[0] ? v[1] : v[1] + 1) {
    rc = pcre2_match(c, (PCRE2_SPTR)subject, n, at, PCRE2_COPY_MATCHED_SUBJECT, m, with);
    want("match", rc, rc == PCRE2_ERROR_NOMATCH ? rc : PCRE2_ERROR_NOMEMORY);
    if (rc < 0) break;
    texts(m);
  }
  rc = pcre2_substitute(c, (PCRE2_SPTR)subject, n, 0,
                        PCRE2_SUBSTITUTE_GLOBAL | PCRE2_SUBSTITUTE_UNSET_EMPTY, NULL, with,
                        (PCRE2_SPTR) "<$0>", 4, (PCRE2_UCHAR *)out, &room);
  want("substitute", rc, PCRE2_ERROR_NOMEMORY);
  rc = pcre2_dfa_match(c, (PCRE2_SPTR)subject, n, 0, 0, m, with, work, 100);
  want("dfa_match", rc,
       rc == PCRE2_ERROR_NOMATCH || rc == PCRE2_ERROR_DFA_UITEM ? rc : PCRE2_ERROR_NOMEMORY);
}

static void copies(const pcre2_code *c) {
  uint8_t *block;
  size_t len;
  pcre2_code *copy = pcre2_code_copy(c), *back = NULL;
  int rc = pcre2_serialize_encode(&c, 1, &block, &len, NULL);
  want("encode", rc, PCRE2_ERROR_NOMEMORY);
  if (rc == 1) {
    want("decode", pcre2_serialize_decode(&back, 1, block, NULL), PCRE2_ERROR_NOMEMORY);
    pcre2_serialize_free(block);
  }
  pcre2_code_free(back);
  pcre2_code_free(copy);
}

static void all(void) {
  static const char *const patterns[] = {"(?<y>\\d{4})-(?<m>\\d\\d)",
                                         "(a|b)*c",
                                         "(",
                                         "(?<=x)y|\\bfoo\\b",
                                         "^(?:(\\w+)\\s)+$",
                                         "\\p{L}+(*MARK:z)",
                                         "[[:alpha:]]{2,5}?(.)\\1",
                                         "(?<n>a(?&n)?b)c|(?>x+)y",
                                         "(?i)fo{2,}|b(?=c)(?C1)",
                                         "é|[^\\x00-\\x7f]"};
  pcre2_general_context *g = pcre2_general_context_create(NULL, NULL, NULL);
  pcre2_compile_context *cc = pcre2_compile_context_create(g);
  pcre2_match_context *mc = pcre2_match_context_create(g);
  for (size_t i = 0; i < 2 * sizeof patterns / sizeof *patterns; i++) {
    int error;
    size_t at;
    if (cc) pcre2_set_compile_extra_options(cc, i % 5 == 4 ? PCRE2_EXTRA_MATCH_WORD : 0);
    pcre2_code *c = pcre2_compile((PCRE2_SPTR)patterns[i / 2], PCRE2_ZERO_TERMINATED,
                                  i % 2 ? PCRE2_UTF | PCRE2_UCP : 0, &error, &at, cc);
    if (!c) {
      want("compile", -error,
           error == PCRE2_ERROR_MISSING_CLOSING_PARENTHESIS ? -error : -PCRE2_ERROR_HEAP_FAILED);
      continue;
    }
    pcre2_match_data *m = pcre2_match_data_create_from_pattern(c, g);
    if (m) searches(c, m, mc);
    copies(c);
    pcre2_match_data_free(m);
    pcre2_code_free(c);
  }
  pcre2_match_context_free(mc);
  pcre2_compile_context_free(cc);
  pcre2_general_context_free(g);
}

/* ---- what is refused ---- */

static void is(const char *what, long rc, long error) {
  if (rc == error) return;
  printf("%s answers %ld in place of %ld\n", what, rc, error);
  wrong = 1;
}

static int match(const pcre2_code *c, const char *s, size_t len, size_t start, uint32_t options,
                 pcre2_match_data *m) {
  return pcre2_match(c, (PCRE2_SPTR)s, len, start, options, m, NULL);
}

static int fault(const char *pattern, size_t len, uint32_t options, pcre2_compile_context *cc) {
  int error = 0;
  size_t at = 0;
  pcre2_code *c = pcre2_compile((PCRE2_SPTR)pattern, len, options, &error, &at, cc);
  if (c) error = 0;
  pcre2_code_free(c);
  return error;
}

static void bad_patterns(void) {
  pcre2_compile_context *cc = pcre2_compile_context_create(NULL);
  is("NULL pattern", fault(NULL, 1, 0, NULL), PCRE2_ERROR_NULL_PATTERN);
  is("option", fault("a", 1, 0x10000000u, NULL), PCRE2_ERROR_BAD_OPTIONS);
  is("option for literals", fault("a", 1, PCRE2_LITERAL | PCRE2_DOTALL, NULL),
     PCRE2_ERROR_BAD_LITERAL_OPTIONS);
  is("UTF", fault("\xff", 1, PCRE2_UTF, NULL), PCRE2_ERROR_UTF8_ERR21);
  pcre2_set_max_pattern_length(cc, 2);
  is("length", fault("abc", 3, 0, cc), PCRE2_ERROR_PATTERN_STRING_TOO_LONG);
  pcre2_set_compile_extra_options(cc, 0x80000000u);
  is("extra option", fault("a", 1, 0, cc), PCRE2_ERROR_BAD_OPTIONS);
  is("newline", pcre2_set_newline(cc, 0), PCRE2_ERROR_BADDATA);
  is("bsr", pcre2_set_bsr(cc, 0), PCRE2_ERROR_BADDATA);
  pcre2_compile_context_free(cc);
}

static void bad_matches(const pcre2_code *c, pcre2_match_data *m) {
  int work[20];
  size_t room = 0;
  PCRE2_UCHAR out[1];
  is("NULL code", match(NULL, "a", 1, 0, 0, m), PCRE2_ERROR_NULL);
  is("NULL data", match(c, "a", 1, 0, 0, NULL), PCRE2_ERROR_NULL);
  is("NULL subject", match(c, NULL, 1, 0, 0, m), PCRE2_ERROR_NULL);
  is("NULL subject of no bytes", match(c, NULL, 0, 0, 0, m), PCRE2_ERROR_NOMATCH);
  is("start", match(c, "a", 1, 2, 0, m), PCRE2_ERROR_BADOFFSET);
  is("start in a character", match(c, "é", 2, 1, 0, m), PCRE2_ERROR_BADUTFOFFSET);
  is("UTF", match(c, "a\xc3", 2, 0, 0, m), PCRE2_ERROR_UTF8_ERR1);
  is("option", match(c, "a", 1, 0, 0x08000000u, m), PCRE2_ERROR_BADOPTION);
  is("partial at the end", match(c, "a", 1, 0, PCRE2_PARTIAL_HARD | PCRE2_ENDANCHORED, m),
     PCRE2_ERROR_BADOPTION);
  is("all ends: no workspace", pcre2_dfa_match(c, (PCRE2_SPTR) "a", 1, 0, 0, m, NULL, NULL, 20),
     PCRE2_ERROR_NULL);
  is("all ends: workspace", pcre2_dfa_match(c, (PCRE2_SPTR) "a", 1, 0, 0, m, NULL, work, 19),
     PCRE2_ERROR_DFA_WSSIZE);
  is("all ends: start", pcre2_dfa_match(c, (PCRE2_SPTR) "a", 1, 2, 0, m, NULL, work, 20),
     PCRE2_ERROR_BADOFFSET);
  is("all ends: go on",
     pcre2_dfa_match(c, (PCRE2_SPTR) "a", 1, 0, PCRE2_DFA_RESTART, m, NULL, work, 20),
     PCRE2_ERROR_DFA_BADRESTART);
  is("substitution: NULL text",
     pcre2_substitute(c, (PCRE2_SPTR) "a", 1, 0, 0, NULL, NULL, NULL, 1, out, &room),
     PCRE2_ERROR_NULL);
  is("substitution: partial",
     pcre2_substitute(c, (PCRE2_SPTR) "a", 1, 0, PCRE2_PARTIAL_SOFT, NULL, NULL, (PCRE2_SPTR) "", 0,
                      out, &room),
     PCRE2_ERROR_BADOPTION);
  room = 0;
  is("substitution: no room",
     pcre2_substitute(c, (PCRE2_SPTR) "a", 1, 0, 0, NULL, NULL, (PCRE2_SPTR) "", 0, out, &room),
     PCRE2_ERROR_NOMEMORY);
}

static void bad_questions(const pcre2_code *c, pcre2_match_data *m) {
  uint32_t n;
  PCRE2_UCHAR out[1], *text;
  PCRE2_UCHAR **list;
  size_t room = 1;
  is("question", pcre2_pattern_info(c, 99, &n), PCRE2_ERROR_BADOPTION);
  is("question of NULL", pcre2_pattern_info(NULL, PCRE2_INFO_BSR, &n), PCRE2_ERROR_NULL);
  is("pairs", pcre2_get_ovector_count(m), 1);
  is("match", match(c, "xéx", 4, 0, 0, m), 0);
  is("group past the vector", pcre2_substring_length_bynumber(m, 1, NULL), PCRE2_ERROR_UNAVAILABLE);
  is("group", pcre2_substring_length_bynumber(m, 9, NULL), PCRE2_ERROR_NOSUBSTRING);
  is("room", pcre2_substring_copy_bynumber(m, 0, out, &room), PCRE2_ERROR_NOMEMORY);
  is("name", pcre2_substring_get_byname(m, (PCRE2_SPTR) "z", &text, &room),
     PCRE2_ERROR_NOSUBSTRING);
  is("no match", match(c, "x", 1, 0, 0, m), PCRE2_ERROR_NOMATCH);
  is("list", pcre2_substring_list_get(m, &list, NULL), PCRE2_ERROR_NOMATCH);
  is("message", pcre2_get_error_message(1, out, 1), PCRE2_ERROR_BADDATA);
  is("message without room", pcre2_get_error_message(-1, out, 0), PCRE2_ERROR_NOMEMORY);
  is("configuration", pcre2_config(99, &n), PCRE2_ERROR_BADOPTION);
  is("serialized NULL", pcre2_serialize_get_number_of_codes(NULL), PCRE2_ERROR_NULL);
  is("code of NULL", pcre2_code_copy(NULL) != NULL, 0);
  is("callouts of NULL", pcre2_callout_enumerate(NULL, NULL, NULL), PCRE2_ERROR_NULL);
}

static void bad_input(void) {
  int error;
  size_t at;
  pcre2_code *c =
      pcre2_compile((PCRE2_SPTR) "(é)", PCRE2_ZERO_TERMINATED, PCRE2_UTF, &error, &at, NULL);
  pcre2_match_data *m = pcre2_match_data_create(0, NULL);
  bad_patterns();
  bad_matches(c, m);
  bad_questions(c, m);
  pcre2_match_data_free(m);
  pcre2_code_free(c);
}

int main(void) {
  long before, n = 0;
  printf("begins\n");
  fflush(stdout);
  left = -1;
  bad_input();
  all();
#ifdef COUNTING
  do {
    before = held;
    refused = 0;
    left = ++n;
    all();
    left = -1;
    if (held != before && !wrong) {
      printf("%ld blocks are lost where allocation %ld is refused\n", held - before, n);
      wrong = 1;
    }
  } while (refused);
  printf("%ld allocations were refused\n", n - 1);
#else
  (void)before, (void)n, (void)refused, (void)held, (void)left;
#endif
  puts(wrong ? "wrong" : "ok");
  return wrong;
}
