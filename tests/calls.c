/* Tries the calls of pcre2api(3) on good and bad input, and writes what each answers. Run over two
   libraries, what they write is compared (tests/run). */
#define PCRE2_CODE_UNIT_WIDTH 8
#include "../c/pcre2.h"

#include <stdio.h>
#include <string.h>

static pcre2_code *code(const char *pattern, uint32_t options, pcre2_compile_context *with) {
  int error = -999;
  size_t at = 777;
  pcre2_code *c = pcre2_compile((PCRE2_SPTR)pattern, strlen(pattern), options, &error, &at, with);
  printf("compile %s %x: %s", pattern, options, c ? "ok" : "");
  if (!c) printf("fault %d", error);
  /* the places of other faults are those of the proved library, which has rules of its own */
  if (!c && (error < 0 || error > 170)) printf(" at %zu", at);
  puts("");
  return c;
}

static void places(const char *what, int rc, pcre2_match_data *m) {
  size_t *v = pcre2_get_ovector_pointer(m);
  uint32_t n = rc == PCRE2_ERROR_PARTIAL ? 1 : rc > 0 ? (uint32_t)rc : pcre2_get_ovector_count(m);
  printf("%s: %d", what, rc);
  if (rc >= 0 || rc == PCRE2_ERROR_PARTIAL) {
    for (uint32_t i = 0; i < n; i++)
      printf(" %zd-%zd", v[2 * i], v[2 * i + 1]);
  }
  if (rc >= PCRE2_ERROR_PARTIAL && pcre2_get_mark(m))
    printf(" mark %s", (const char *)pcre2_get_mark(m));
  puts("");
}

static int find(pcre2_code *c, const char *s, size_t start, uint32_t options, pcre2_match_data *m) {
  int rc = pcre2_match(c, (PCRE2_SPTR)s, strlen(s), start, options, m, NULL);
  printf("in %s at %zu %x", s, start, options);
  places("", rc, m);
  return rc;
}

static void number(const pcre2_code *c, const char *what, uint32_t question) {
  uint32_t n = 4711;
  int size = pcre2_pattern_info(c, question, NULL), rc = pcre2_pattern_info(c, question, &n);
  printf("info %s: size %d, %d: %x\n", what, size, rc, n);
}

static void configuration(void) {
  static const uint32_t numbers[] = {PCRE2_CONFIG_BSR,          PCRE2_CONFIG_LINKSIZE,
                                     PCRE2_CONFIG_MATCHLIMIT,   PCRE2_CONFIG_NEWLINE,
                                     PCRE2_CONFIG_PARENSLIMIT,  PCRE2_CONFIG_DEPTHLIMIT,
                                     PCRE2_CONFIG_STACKRECURSE, PCRE2_CONFIG_UNICODE,
                                     PCRE2_CONFIG_HEAPLIMIT,    999};
  for (size_t i = 0; i < sizeof numbers / sizeof *numbers; i++) {
    uint32_t n = 0;
    int size = pcre2_config(numbers[i], NULL), rc = pcre2_config(numbers[i], &n);
    printf("config %u: size %d, %d: %u\n", numbers[i], size, rc, n);
  }
  char version[64];
  printf("version: %d %d %.5s\n", pcre2_config(PCRE2_CONFIG_VERSION, NULL),
         pcre2_config(PCRE2_CONFIG_VERSION, version), version);
}

static void compiling(void) {
  static const struct {
    const char *pattern;
    uint32_t options;
  } rows[] = {{"a", 0},
              {"(", 0},
              {")", 0},
              {"a)(b", 0},
              {"[", 0},
              {"a{2,1}", 0},
              {"*a", 0},
              {"\\", 0},
              {"(?<n>a)(?<n>b)", 0},
              {"(?<n>a)(?<n>b)", PCRE2_DUPNAMES},
              {"\\1", 0},
              {"(?<=a+)b", 0},
              {"\\p{Foo}", 0},
              {"[b-a]", 0},
              {"(?z)", 0},
              {"\\y", 0},
              {"(?#", 0},
              {"(*FOO)", 0},
              {"\xff", PCRE2_UTF},
              {"a\xc3", PCRE2_UTF},
              {"a\xe2\x82", PCRE2_UTF},
              {"\xed\xa0\x80", PCRE2_UTF},
              {"\xf5\x80\x80\x80", PCRE2_UTF},
              {"\xc0\x80", PCRE2_UTF},
              {"(a", PCRE2_LITERAL},
              {"a", PCRE2_LITERAL | PCRE2_MULTILINE},
              {"a", 0x08000000u},
              {"(*UTF)a", PCRE2_NEVER_UTF},
              {"(*UCP)a", PCRE2_NEVER_UCP},
              {"", 0}};
  for (size_t i = 0; i < sizeof rows / sizeof *rows; i++)
    pcre2_code_free(code(rows[i].pattern, rows[i].options, NULL));
  int error = 0;
  size_t at = 0;
  printf("NULL: %d", pcre2_compile(NULL, 3, 0, &error, &at, NULL) != NULL);
  printf(" %d\n", error);
  pcre2_code *c = pcre2_compile(NULL, 0, 0, &error, &at, NULL);
  printf("NULL of no length: %d\n", c != NULL);
  pcre2_code_free(c);
  printf("nowhere to tell a fault: %d\n",
         pcre2_compile((PCRE2_SPTR) "a", 1, 0, NULL, &at, NULL) != NULL);
  pcre2_code_free(NULL);
  pcre2_compile_context *with = pcre2_compile_context_create(NULL);
  printf("newline %d %d bsr %d %d\n", pcre2_set_newline(with, 7),
         pcre2_set_newline(with, PCRE2_NEWLINE_CRLF), pcre2_set_bsr(with, 3),
         pcre2_set_bsr(with, PCRE2_BSR_ANYCRLF));
  pcre2_set_max_pattern_length(with, 3);
  pcre2_code_free(code("abcd", 0, with));
  c = code("a.c", 0, with);
  number(c, "newline", PCRE2_INFO_NEWLINE);
  number(c, "bsr", PCRE2_INFO_BSR);
  pcre2_code_free(c);
  pcre2_compile_context *copy = pcre2_compile_context_copy(with);
  pcre2_code_free(code("abcd", 0, copy));
  pcre2_compile_context_free(copy);
  pcre2_compile_context_free(with);
  pcre2_compile_context_free(NULL);
}

static void wrapped(uint32_t extra) {
  static const char *const patterns[] = {"ab|c", "a)(b", "(?x)ab # c", "\\Qa.b", "(*UTF)é", "ab#"};
  pcre2_compile_context *with = pcre2_compile_context_create(NULL);
  printf("extra %x: %d\n", extra, pcre2_set_compile_extra_options(with, extra));
  for (size_t i = 0; i < sizeof patterns / sizeof *patterns; i++) {
    for (int literal = 0; literal < 2; literal++) {
      pcre2_code *c = code(patterns[i],
                           literal  ? PCRE2_LITERAL
                           : i == 5 ? PCRE2_EXTENDED
                                    : 0,
                           with);
      if (!c) continue;
      pcre2_match_data *m = pcre2_match_data_create_from_pattern(c, NULL);
      find(c, "ab", 0, 0, m);
      find(c, "xab c", 0, 0, m);
      find(c, "ab|c é a.b", 0, 0, m);
      pcre2_match_data_free(m);
      pcre2_code_free(c);
    }
  }
  pcre2_compile_context_free(with);
}

static void bad_escapes(void) {
  pcre2_compile_context *with = pcre2_compile_context_create(NULL);
  pcre2_set_compile_extra_options(with, PCRE2_EXTRA_BAD_ESCAPE_IS_LITERAL);
  pcre2_code *c = code("\\y[\\j]\\i+(", 0, with);
  pcre2_code_free(c);
  c = code("\\y[\\j]\\i+", 0, with);
  pcre2_match_data *m = pcre2_match_data_create(1, NULL);
  find(c, "xyjiix", 0, 0, m);
  pcre2_match_data_free(m);
  pcre2_code_free(c);
  pcre2_compile_context_free(with);
}

static void information(void) {
  pcre2_code *c = code("(?<year>\\d{4})-(?<m>\\d\\d)(x)?", 0, NULL);
  static const struct {
    const char *name;
    uint32_t question;
  } rows[] = {{"all options", PCRE2_INFO_ALLOPTIONS},
              {"options", PCRE2_INFO_ARGOPTIONS},
              {"extra", PCRE2_INFO_EXTRAOPTIONS},
              {"bsr", PCRE2_INFO_BSR},
              {"groups", PCRE2_INFO_CAPTURECOUNT},
              {"CR or LF", PCRE2_INFO_HASCRORLF},
              {"J", PCRE2_INFO_JCHANGED},
              {"empty", PCRE2_INFO_MATCHEMPTY},
              {"match limit", PCRE2_INFO_MATCHLIMIT},
              {"lookbehind", PCRE2_INFO_MAXLOOKBEHIND},
              {"names", PCRE2_INFO_NAMECOUNT},
              {"entry", PCRE2_INFO_NAMEENTRYSIZE},
              {"newline", PCRE2_INFO_NEWLINE},
              {"depth limit", PCRE2_INFO_DEPTHLIMIT},
              {"\\C", PCRE2_INFO_HASBACKSLASHC},
              {"heap limit", PCRE2_INFO_HEAPLIMIT},
              {"none", 999}};
  for (size_t i = 0; i < sizeof rows / sizeof *rows; i++)
    number(c, rows[i].name, rows[i].question);
  printf("NULL: %d\n", pcre2_pattern_info(NULL, PCRE2_INFO_BSR, NULL));
  static const char *const begins[] = {"abc", "(cat|cow|coyote)", "[ab]c", "a?b", "a|bc"};
  for (size_t i = 0; i < sizeof begins / sizeof *begins; i++) {
    pcre2_code *b = code(begins[i], 0, NULL);
    number(b, "first type", PCRE2_INFO_FIRSTCODETYPE);
    number(b, "first", PCRE2_INFO_FIRSTCODEUNIT);
    pcre2_code_free(b);
  }
  PCRE2_SPTR table, first, last;
  uint32_t size = 0;
  pcre2_pattern_info(c, PCRE2_INFO_NAMETABLE, &table);
  pcre2_pattern_info(c, PCRE2_INFO_NAMEENTRYSIZE, &size);
  for (uint32_t i = 0; i < 2; i++)
    printf("entry %d %s\n", table[i * size] << 8 | table[i * size + 1], table + i * size + 2);
  printf("numbers %d %d\n", pcre2_substring_number_from_name(c, (PCRE2_SPTR) "m"),
         pcre2_substring_number_from_name(c, (PCRE2_SPTR) "z"));
  printf("scan %d\n",
         pcre2_substring_nametable_scan(c, (PCRE2_SPTR) "year", &first, &last) == (int)size &&
             first == last);
  pcre2_code_free(c);
  c = code("(*LIMIT_MATCH=12)(*UTF)(*UCP)(?J)(?<n>a)|(?<n>b)\\n", 0, NULL);
  for (size_t i = 0; i < sizeof rows / sizeof *rows; i++)
    number(c, rows[i].name, rows[i].question);
  printf("number %d\n", pcre2_substring_number_from_name(c, (PCRE2_SPTR) "n"));
  pcre2_code_free(c);
}

static void matching(void) {
  pcre2_code *c = code("(a)|(b)(*MARK:m)(c)?", 0, NULL);
  pcre2_match_data *m = pcre2_match_data_create_from_pattern(c, NULL),
                   *none = pcre2_match_data_create(0, NULL);
  printf("pairs %u %u\n", pcre2_get_ovector_count(m), pcre2_get_ovector_count(none));
  find(c, "xb", 0, 0, m);
  find(c, "xbc", 0, 0, m);
  find(c, "xbc", 0, 0, none);
  find(c, "a", 0, 0, m);
  find(c, "x", 0, 0, m);
  find(c, "a", 1, 0, m);
  find(c, "a", 2, 0, m);
  find(c, "xa", 0, PCRE2_ANCHORED, m);
  find(c, "axb", 0, PCRE2_ENDANCHORED, m);
  find(c, "a", 0, 0x04000000u, m);
  find(c, "a", 0, PCRE2_PARTIAL_SOFT | PCRE2_ENDANCHORED, m);
  find(c, "a", 0, PCRE2_NO_JIT, m);
  printf("NULL code %d, data %d, subject %d, of no length %d\n",
         pcre2_match(NULL, (PCRE2_SPTR) "", 0, 0, 0, m, NULL),
         pcre2_match(c, (PCRE2_SPTR) "", 0, 0, 0, NULL, NULL),
         pcre2_match(c, NULL, 1, 0, 0, m, NULL), pcre2_match(c, NULL, 0, 0, 0, m, NULL));
  pcre2_match_data_free(none);
  pcre2_match_data_free(m);
  pcre2_match_data_free(NULL);
  pcre2_code_free(c);
  c = code("abc", 0, NULL);
  m = pcre2_match_data_create(3, NULL);
  find(c, "xab", 0, PCRE2_PARTIAL_SOFT, m);
  find(c, "xab", 0, PCRE2_PARTIAL_HARD, m);
  pcre2_match_context *with = pcre2_match_context_create(NULL);
  pcre2_set_offset_limit(with, 1);
  printf("offset limit %d\n", pcre2_match(c, (PCRE2_SPTR) "xxabc", 5, 0, 0, m, with));
  pcre2_code *d = code("abc", PCRE2_USE_OFFSET_LIMIT, NULL);
  printf("offset limit %d %d\n", pcre2_match(d, (PCRE2_SPTR) "xxabc", 5, 0, 0, m, with),
         pcre2_match(d, (PCRE2_SPTR) "xabc", 4, 0, 0, m, with));
  pcre2_match_context_free(with);
  pcre2_code_free(c);
  pcre2_code_free(d);
  c = code("(?:(?:a|b)*)*c", PCRE2_NO_START_OPTIMIZE, NULL);
  with = pcre2_match_context_create(NULL);
  pcre2_set_match_limit(with, 20);
  printf("match limit %d\n",
         pcre2_match(c, (PCRE2_SPTR) "ababababababababababab", 22, 0, 0, m, with));
  pcre2_match_context_free(with);
  pcre2_match_data_free(m);
  pcre2_code_free(c);
}

static void utf(void) {
  static const char *const texts[] = {"a\xff",
                                      "\xc3",
                                      "é\xe2\x82",
                                      "\xf0\x9f\x98",
                                      "\xed\xa0\x80",
                                      "\xf4\x90\x80\x80",
                                      "\xc1\xbf",
                                      "\xe0\x80\x80",
                                      "\xf0\x80\x80\x80",
                                      "\xf8\x80\x80\x80\x80",
                                      "\x80",
                                      "\xfe",
                                      "\xf8\x88\x80\x80\x80",
                                      "\xfc\x84\x80\x80\x80\x80",
                                      "\xc3\x28",
                                      "\xe2\x28\xa1",
                                      "\xe2\x82\x28",
                                      "\xf0\x90\x28\xbc",
                                      "\xf0\x90\x8c\x28",
                                      "\xf8"};
  pcre2_code *c = code("é", PCRE2_UTF, NULL),
             *d = code("(?<!x)\\w+$", PCRE2_MATCH_INVALID_UTF, NULL);
  pcre2_match_data *m = pcre2_match_data_create(1, NULL);
  for (size_t i = 0; i < sizeof texts / sizeof *texts; i++) {
    find(c, texts[i], 0, 0, m);
    printf("bad at %zu\n", pcre2_get_startchar(m));
    find(d, texts[i], 0, 0, m);
  }
  find(c, "éé", 1, 0, m);
  find(c, "éé", 2, 0, m);
  find(d,
       "ab\xff"
       "cd\xfe",
       0, 0, m);
  find(d,
       "ab\xff"
       "cd",
       0, 0, m);
  find(d,
       "xab\xff"
       "xcd\xff",
       1, 0, m);
  /* a start inside a character, at a bad byte, and in a later run; bad bytes before the start */
  find(d, "éab", 1, 0, m);
  find(d,
       "\xff\xff"
       "ab",
       0, 0, m);
  find(d,
       "ab\x80"
       "cd",
       2, 0, m);
  find(d,
       "ab\xff"
       "cd",
       3, PCRE2_ANCHORED, m);
  find(d,
       "ab\xff"
       "cd",
       0, PCRE2_ANCHORED, m);
  find(d, "ab\xff", 3, 0, m);
  find(c,
       "\xff"
       "aaaaé",
       5, 0, m);
  find(c,
       "\xff"
       "aé",
       2, 0, m);
  find(c, "aaaéé\xff", 5, 0, m);
  pcre2_code_free(c);
  c = code("(?m)^d|(?<=^)e|\\bf|\\Ag|(?<=\\A)h|\\Gi", PCRE2_UTF, NULL);
  find(c, "aaa\nd", 4, 0, m);
  find(c, "aaad", 3, 0, m);
  find(c, "aaae", 3, 0, m);
  find(c, "aaa f", 4, 0, m);
  find(c, "aaaf", 3, 0, m);
  find(c, "aaag", 3, 0, m);
  find(c, "aaah", 3, 0, m);
  find(c, "aaai", 3, 0, m);
  find(c, "g", 0, 0, m);
  find(c, "h", 0, 0, m);
  pcre2_match_data_free(m);
  pcre2_code_free(c);
  pcre2_code_free(d);
}

static void substrings(void) {
  pcre2_code *c = code("(?<n>a)(?<o>b)?(?<p>c)?", PCRE2_DUPNAMES, NULL);
  pcre2_match_data *m = pcre2_match_data_create_from_pattern(c, NULL),
                   *few = pcre2_match_data_create(2, NULL);
  int rc[2] = {find(c, "xac", 0, 0, m), find(c, "xab", 0, 0, few)};
  pcre2_match_data *data[] = {m, few};
  for (int k = 0; k < 2; k++) {
    printf("answer %d\n", rc[k]);
    for (uint32_t i = 0; i < 5; i++) {
      PCRE2_UCHAR room[2], *text;
      size_t len = 99, size = sizeof room, got = 99;
      int a = pcre2_substring_length_bynumber(data[k], i, &len),
          b = pcre2_substring_copy_bynumber(data[k], i, room, &size);
      int d = pcre2_substring_get_bynumber(data[k], i, &text, &got);
      printf("group %u: %d %zu, %d, %d %s\n", i, a, len, b, d, d ? "" : (char *)text);
      if (!d) pcre2_substring_free(text);
    }
    static const char *const names[] = {"n", "o", "p", "q"};
    for (int i = 0; i < 4; i++) {
      size_t len = 99;
      printf("name %s: %d", names[i],
             pcre2_substring_length_byname(data[k], (PCRE2_SPTR)names[i], &len));
      printf(" %zu\n", len);
    }
    PCRE2_UCHAR **list;
    size_t *lens;
    int a = pcre2_substring_list_get(data[k], &list, &lens);
    printf("list %d:", a);
    for (int i = 0; !a && list[i]; i++)
      printf(" %s/%zu", list[i], lens[i]);
    puts("");
    if (!a) pcre2_substring_list_free((PCRE2_SPTR *)list);
  }
  find(c, "x", 0, 0, m);
  printf("after no match %d\n", pcre2_substring_length_bynumber(m, 0, NULL));
  pcre2_substring_free(NULL);
  pcre2_substring_list_free(NULL);
  pcre2_match_data_free(few);
  pcre2_match_data_free(m);
  pcre2_code_free(c);
}

static void replace(pcre2_code *c, const char *s, const char *by, uint32_t options, size_t room) {
  char out[64] = "";
  size_t len = room;
  int rc = pcre2_substitute(c, (PCRE2_SPTR)s, strlen(s), 0, options, NULL, NULL, (PCRE2_SPTR)by,
                            strlen(by), (PCRE2_UCHAR *)(room ? out : NULL), &len);
  printf("%s by %s %x: %d %zd %s\n", s, by, options, rc,
         rc >= 0 || rc == PCRE2_ERROR_NOMEMORY ? len : 0, rc >= 0 ? out : "");
}

static void substituting(void) {
  pcre2_code *c = code("(?<n>b)(c)?", 0, NULL), *u = code("é", PCRE2_UTF, NULL);
  uint32_t g = PCRE2_SUBSTITUTE_GLOBAL, e = PCRE2_SUBSTITUTE_UNSET_EMPTY;
  replace(c, "abcb", "<$1>", 0, 64);
  replace(c, "abcb", "<${n}>", g, 64);
  replace(c, "abcb", "$2", g, 64);
  replace(c, "abcb", "[$2]", g | e, 64);
  replace(c, "abcb", "$9", 0, 64);
  replace(c, "abcb", "$9", PCRE2_SUBSTITUTE_UNKNOWN_UNSET | e, 64);
  replace(c, "abcb", "$", 0, 64);
  replace(c, "abcb", "${", 0, 64);
  replace(c, "abcb", "${n", 0, 64);
  replace(c, "abcb", "\\U$1\\E", PCRE2_SUBSTITUTE_EXTENDED, 64);
  replace(c, "abcb", "${2:-none}", PCRE2_SUBSTITUTE_EXTENDED | g, 64);
  replace(c, "abcb", "${2:*none}", PCRE2_SUBSTITUTE_EXTENDED, 64);
  replace(c, "abcb", "$1", PCRE2_SUBSTITUTE_LITERAL, 64);
  replace(c, "abcb", "$1", PCRE2_SUBSTITUTE_REPLACEMENT_ONLY | g, 64);
  replace(c, "xyz", "$1", 0, 64);
  replace(c, "abcb", "<$1>", 0, 6);
  replace(c, "abcb", "<$1>", 0, 7);
  replace(c, "abcb", "<$1>", PCRE2_SUBSTITUTE_OVERFLOW_LENGTH, 0);
  replace(c, "abcb", "<$1>", PCRE2_SUBSTITUTE_OVERFLOW_LENGTH, 3);
  replace(c, "abcb", "<$1>", PCRE2_PARTIAL_SOFT, 64);
  replace(u, "a\xff", "x", 0, 64);
  replace(u, "é", "\xe2\x82", 0, 64);
  pcre2_code_free(u);
  pcre2_code_free(c);
}

/* Searches in which no match may begin behind a place. */
static void limited(const char *pattern, uint32_t options, const char *s, uint32_t matching) {
  pcre2_code *c = code(pattern, options | PCRE2_USE_OFFSET_LIMIT, NULL);
  pcre2_match_data *m = pcre2_match_data_create(2, NULL);
  pcre2_match_context *with = pcre2_match_context_create(NULL);
  size_t len = strlen(s);
  int work[100];
  for (size_t limit = 0; limit <= len; limit++) {
    char out[64] = "";
    size_t room = sizeof out;
    pcre2_set_offset_limit(with, limit);
    printf("%s to %zu", s, limit);
    places("", pcre2_match(c, (PCRE2_SPTR)s, len, len / 3, matching, m, with), m);
    places("all ends",
           pcre2_dfa_match(c, (PCRE2_SPTR)s, len, len / 3, matching, m, with, work, 100), m);
    if (matching || options & PCRE2_MATCH_INVALID_UTF) continue;
    int rc = pcre2_substitute(c, (PCRE2_SPTR)s, len, len / 3, 0, NULL, with, (PCRE2_SPTR) "<$0>", 4,
                              (PCRE2_UCHAR *)out, &room);
    printf("replaced: %d %zd %s\n", rc, room, rc >= 0 ? out : "");
  }
  pcre2_match_context_free(with);
  pcre2_match_data_free(m);
  pcre2_code_free(c);
}

static void offset_limits(void) {
  limited("abc", 0, "xxxabcabc", 0);
  limited("(?<=x)b|c", 0, "aaaxbc", 0);
  limited("\\bé", PCRE2_UTF, "éé éé", 0);
  limited("abcd", 0, "xabab", PCRE2_PARTIAL_SOFT);
  limited("b+", PCRE2_MATCH_INVALID_UTF,
          "a\xff\xff"
          "a\xff"
          "bb",
          0);
}

static void all_ends(void) {
  pcre2_code *c = code("a+|ab", PCRE2_NO_AUTO_POSSESS, NULL), *d = code("(a)\\1", 0, NULL),
             *u = code("a", PCRE2_MATCH_INVALID_UTF, NULL);
  pcre2_match_data *m = pcre2_match_data_create(2, NULL), *many = pcre2_match_data_create(6, NULL);
  int work[100];
  places("all ends", pcre2_dfa_match(c, (PCRE2_SPTR) "xaaab", 5, 0, 0, many, NULL, work, 100),
         many);
  places("all ends", pcre2_dfa_match(c, (PCRE2_SPTR) "xaaab", 5, 0, 0, m, NULL, work, 100), m);
  places("shortest",
         pcre2_dfa_match(c, (PCRE2_SPTR) "xaaab", 5, 0, PCRE2_DFA_SHORTEST, many, NULL, work, 100),
         many);
  places("none", pcre2_dfa_match(c, (PCRE2_SPTR) "x", 1, 0, 0, many, NULL, work, 100), many);
  places("partial",
         pcre2_dfa_match(c, (PCRE2_SPTR) "xa", 2, 0, PCRE2_PARTIAL_HARD, many, NULL, work, 100),
         many);
  printf("reference %d, small %d, NULL %d, invalid UTF %d\n",
         pcre2_dfa_match(d, (PCRE2_SPTR) "aa", 2, 0, 0, m, NULL, work, 100),
         pcre2_dfa_match(c, (PCRE2_SPTR) "aa", 2, 0, 0, m, NULL, work, 19),
         pcre2_dfa_match(c, (PCRE2_SPTR) "aa", 2, 0, 0, m, NULL, NULL, 100),
         pcre2_dfa_match(u, (PCRE2_SPTR) "aa", 2, 0, 0, m, NULL, work, 100));
  size_t len;
  pcre2_dfa_match(c, (PCRE2_SPTR) "xaaab", 5, 0, 0, many, NULL, work, 100);
  printf("by name %d, by number %d %d\n",
         pcre2_substring_length_byname(many, (PCRE2_SPTR) "n", &len),
         pcre2_substring_length_bynumber(many, 2, &len),
         pcre2_substring_length_bynumber(many, 5, &len));
  pcre2_match_data_free(many);
  pcre2_match_data_free(m);
  pcre2_code_free(c);
  pcre2_code_free(d);
  pcre2_code_free(u);
}

static void copies(void) {
  pcre2_code *c = code("a(b)", 0, NULL), *d = pcre2_code_copy(c),
             *e = pcre2_code_copy_with_tables(c), *f[2] = {0};
  pcre2_match_data *m = pcre2_match_data_create_from_pattern(d, NULL);
  const pcre2_code *both[] = {c, d};
  uint8_t *block;
  size_t len;
  printf("encode %d\n", pcre2_serialize_encode(both, 2, &block, &len, NULL));
  pcre2_code_free(c);
  find(d, "xab", 0, PCRE2_COPY_MATCHED_SUBJECT, m);
  find(e, "ab", 0, 0, m);
  printf("count %d\n", pcre2_serialize_get_number_of_codes(block));
  printf("decode %d\n", pcre2_serialize_decode(f, 2, block, NULL));
  find(f[1], "ab", 0, 0, m);
  pcre2_code_free(f[0]);
  pcre2_code_free(f[1]);
  printf("bad %d %d %d\n", pcre2_serialize_decode(f, 0, block, NULL),
         pcre2_serialize_decode(NULL, 1, block, NULL), pcre2_serialize_get_number_of_codes(NULL));
  block[0] ^= 1;
  printf("magic %d\n", pcre2_serialize_decode(f, 1, block, NULL));
  pcre2_serialize_free(block);
  printf("bad %d %d\n", pcre2_serialize_encode(both, 0, &block, &len, NULL),
         pcre2_serialize_encode(NULL, 1, &block, &len, NULL));
  printf("copy of NULL %d\n", pcre2_code_copy(NULL) != NULL);
  pcre2_match_data_free(m);
  pcre2_code_free(d);
  pcre2_code_free(e);
}

static long blocks, took;

static void *get(size_t n, void *data) {
  ++*(long *)data;
  took++;
  return malloc(n);
}

static void give(void *block, void *data) {
  if (block) --*(long *)data;
  free(block);
}

/* Blocks of the caller's own functions, all of which are given back. */
static void memory(void) {
  pcre2_general_context *g = pcre2_general_context_create(get, give, &blocks),
                        *h = pcre2_general_context_copy(g);
  pcre2_compile_context *cc = pcre2_compile_context_create(h);
  pcre2_match_context *mc = pcre2_match_context_create(g), *copy = pcre2_match_context_copy(mc);
  pcre2_convert_context *cv = pcre2_convert_context_create(g);
  pcre2_code *c = code("(a)(?<n>b)", 0, cc);
  pcre2_match_data *m = pcre2_match_data_create_from_pattern(c, NULL),
                   *n = pcre2_match_data_create(2, g);
  const uint8_t *tables = pcre2_maketables(g);
  PCRE2_UCHAR *text;
  PCRE2_UCHAR **list;
  size_t len;
  find(c, "ab", 0, 0, m);
  find(c, "ab", 0, PCRE2_COPY_MATCHED_SUBJECT, n);
  printf("get %d\n", pcre2_substring_get_byname(m, (PCRE2_SPTR) "n", &text, &len));
  printf("list %d\n", pcre2_substring_list_get(n, &list, NULL));
  printf("glob %d %d %d %d\n", pcre2_set_glob_escape(cv, 'a'), pcre2_set_glob_escape(cv, 0),
         pcre2_set_glob_separator(cv, 'a'), pcre2_set_glob_separator(cv, '.'));
  pcre2_code_free(c); /* the match data stays */
  printf("%zu\n", pcre2_get_ovector_pointer(m)[1]);
  pcre2_substring_free(text);
  pcre2_substring_list_free((PCRE2_SPTR *)list);
  pcre2_maketables_free(g, tables);
  pcre2_match_data_free(m);
  pcre2_match_data_free(n);
  pcre2_convert_context_free(cv);
  pcre2_match_context_free(copy);
  pcre2_match_context_free(mc);
  pcre2_compile_context_free(cc);
  pcre2_general_context_free(g);
  pcre2_general_context_free(h);
  printf("some blocks %d, left %ld\n", took > 10, blocks);
}

/* Match data that goes from code to code, and codes that are freed before it. */
static void many_codes(void) {
  pcre2_match_data *m[3];
  pcre2_code *c[4];
  for (int i = 0; i < 3; i++)
    m[i] = pcre2_match_data_create(2, NULL);
  for (int i = 0; i < 4; i++) {
    char pattern[2] = {(char)('a' + i), 0};
    c[i] = code(pattern, 0, NULL);
  }
  for (int turn = 0; turn < 24; turn++) {
    int which = turn * 7 % 4;
    if (c[which]) find(c[which], "abcd", 0, 0, m[turn % 3]);
    if (turn > 12 && turn % 3 == 0) {
      pcre2_code_free(c[turn % 4]);
      c[turn % 4] = NULL;
    }
  }
  for (int i = 0; i < 4; i++)
    pcre2_code_free(c[i]);
  for (int i = 0; i < 3; i++)
    pcre2_match_data_free(m[i]);
}

/* A substitution of which the first match was found before. */
static void matched(void) {
  pcre2_code *c = code("b", 0, NULL);
  pcre2_match_data *m = pcre2_match_data_create(2, NULL);
  for (int i = 0; i < 2; i++) {
    char out[32] = "";
    size_t len = sizeof out;
    const char *s = i ? "xyz" : "abab";
    find(c, s, 0, 0, m);
    int rc = pcre2_substitute(c, (PCRE2_SPTR)s, strlen(s), 0,
                              PCRE2_SUBSTITUTE_MATCHED | PCRE2_SUBSTITUTE_GLOBAL, m, NULL,
                              (PCRE2_SPTR) "<>", 2, (PCRE2_UCHAR *)out, &len);
    printf("matched before: %d %s\n", rc, out);
  }
  size_t len = 0;
  printf("without match data: %d\n",
         pcre2_substitute(c, (PCRE2_SPTR) "b", 1, 0, PCRE2_SUBSTITUTE_MATCHED, NULL, NULL,
                          (PCRE2_SPTR) "", 0, NULL, &len));
  printf("no length: %d\n",
         pcre2_substitute(c, (PCRE2_SPTR) "b", 1, 0, 0, NULL, NULL, NULL, 3, NULL, &len));
  pcre2_match_data_free(m);
  pcre2_code_free(c);
}

static void messages(void) {
  PCRE2_UCHAR text[200];
  static const int bad[] = {0, 99, -67, 1000};
  for (int i = 0; i < 4; i++)
    printf("message %d: %d\n", bad[i], pcre2_get_error_message(bad[i], text, sizeof text));
  for (int i = -66; i < 0; i++)
    printf("message %d: %d\n", i, pcre2_get_error_message(i, text, sizeof text) > 0);
  for (int i = 100; i < 200; i++)
    printf("message %d: %d\n", i, pcre2_get_error_message(i, text, sizeof text) > 0);
  printf("short %d\n", pcre2_get_error_message(-1, text, 4));
  printf("no room %d\n", pcre2_get_error_message(-1, text, 0));
}

int main(void) {
  configuration();
  compiling();
  wrapped(PCRE2_EXTRA_MATCH_WORD);
  wrapped(PCRE2_EXTRA_MATCH_LINE);
  bad_escapes();
  information();
  matching();
  utf();
  substrings();
  substituting();
  offset_limits();
  all_ends();
  copies();
  memory();
  many_codes();
  matched();
  messages();
  return 0;
}
