/* Memory, contexts and what the library is built with (pcre2api, "PCRE2 contexts", "Checking
 * build-time options"). */
#include "library.h"

#include <ctype.h>
#include <string.h>

const uint8_t nothing[1];

static void *plain_get(size_t n, void *data) {
  (void)data;
  return malloc(n);
}

static void plain_give(void *block, void *data) {
  (void)data;
  free(block);
}

const struct memory plain_memory = {plain_get, plain_give, NULL};

void *get_block(const struct memory *m, size_t n) { return m->get(n, m->data); }

void give_block(const struct memory *m, void *block) {
  if (block) m->give(block, m->data);
}

union text_head {
  struct memory memory;
  max_align_t aligned;
};

void *get_text(const struct memory *m, size_t n) {
  union text_head *head = n > SIZE_MAX - sizeof *head ? NULL : get_block(m, sizeof *head + n);
  if (!head) return NULL;
  head->memory = *m;
  return head + 1;
}

void give_text(void *text) {
  if (!text) return;
  union text_head *head = (union text_head *)text - 1;
  struct memory m = head->memory;
  give_block(&m, head);
}

int pcre2_config(uint32_t what, void *where) {
  uint32_t n;
  const char *text = NULL;
  switch (what) {
  case PCRE2_CONFIG_BSR: n = PCRE2_BSR_UNICODE; break;
  case PCRE2_CONFIG_JIT: n = 0; break;
  case PCRE2_CONFIG_LINKSIZE: n = 2; break;
  case PCRE2_CONFIG_MATCHLIMIT: n = plain_match.match_limit; break;
  case PCRE2_CONFIG_DEPTHLIMIT: n = plain_match.depth_limit; break;
  case PCRE2_CONFIG_HEAPLIMIT: n = plain_match.heap_limit; break;
  case PCRE2_CONFIG_NEWLINE: n = PCRE2_NEWLINE_LF; break;
  case PCRE2_CONFIG_PARENSLIMIT: n = plain_compile.parens_limit; break;
  case PCRE2_CONFIG_STACKRECURSE: n = 0; break;
  case PCRE2_CONFIG_UNICODE: n = 1; break;
  case PCRE2_CONFIG_NEVER_BACKSLASH_C: n = 1; break;
  case PCRE2_CONFIG_COMPILED_WIDTHS: n = 1; break;
  case PCRE2_CONFIG_TABLES_LENGTH: n = TABLES; break;
  case PCRE2_CONFIG_UNICODE_VERSION:
    n = 0;
    text = "18.0.0";
    break;
  case PCRE2_CONFIG_VERSION:
    n = 0;
    text = "10.42 2022-12-11";
    break;
  default:
    return PCRE2_ERROR_BADOPTION; /* PCRE2_CONFIG_JITTARGET too, as where there is no such compiler
                                   */
  }
  if (text) {
    if (where) memcpy(where, text, strlen(text) + 1);
    return (int)strlen(text) + 1;
  }
  if (!where) return (int)sizeof n;
  memcpy(where, &n, sizeof n);
  return 0;
}

/* ---- contexts ---- */

pcre2_general_context *pcre2_general_context_create(void *(*get)(size_t, void *),
                                                    void (*give)(void *, void *), void *data) {
  struct memory m = {get ? get : plain_get, give ? give : plain_give, data};
  pcre2_general_context *c = get_block(&m, sizeof *c);
  if (c) c->memory = m;
  return c;
}

/* A context of the values of another, in memory of its own. */
#define COPY(kind, from, of)          \
  kind *c = get_block(of, sizeof *c); \
  if (!c) return NULL;                \
  *c = *(from);                       \
  c->memory = *(of);                  \
  return c

/* Gives back a block that knows its memory. */
#define GIVE(c)                  \
  if (!(c)) return;              \
  struct memory m = (c)->memory; \
  give_block(&m, (c))

static const struct memory *memory_of(const pcre2_general_context *g) {
  return g ? &g->memory : &plain_memory;
}

pcre2_general_context *pcre2_general_context_copy(pcre2_general_context *g) {
  COPY(pcre2_general_context, g, &g->memory);
}
void pcre2_general_context_free(pcre2_general_context *g) { GIVE(g); }

const pcre2_compile_context plain_compile = {
    {plain_get, plain_give, NULL}, PCRE2_NEWLINE_LF, PCRE2_BSR_UNICODE, 250, 0, SIZE_MAX, NULL};

pcre2_compile_context *pcre2_compile_context_create(pcre2_general_context *g) {
  COPY(pcre2_compile_context, &plain_compile, memory_of(g));
}
pcre2_compile_context *pcre2_compile_context_copy(pcre2_compile_context *from) {
  COPY(pcre2_compile_context, from, &from->memory);
}
void pcre2_compile_context_free(pcre2_compile_context *c) { GIVE(c); }

int pcre2_set_bsr(pcre2_compile_context *c, uint32_t n) {
  if (n != PCRE2_BSR_UNICODE && n != PCRE2_BSR_ANYCRLF) return PCRE2_ERROR_BADDATA;
  c->bsr = n;
  return 0;
}

int pcre2_set_newline(pcre2_compile_context *c, uint32_t n) {
  if (n < PCRE2_NEWLINE_CR || n > PCRE2_NEWLINE_NUL) return PCRE2_ERROR_BADDATA;
  c->newline = n;
  return 0;
}

int pcre2_set_character_tables(pcre2_compile_context *c, const uint8_t *tables) {
  c->tables = tables;
  return 0;
}

int pcre2_set_compile_extra_options(pcre2_compile_context *c, uint32_t n) {
  c->extra = n;
  return 0;
}

int pcre2_set_max_pattern_length(pcre2_compile_context *c, size_t n) {
  c->most_pattern = n;
  return 0;
}

int pcre2_set_parens_nest_limit(pcre2_compile_context *c, uint32_t n) {
  c->parens_limit = n;
  return 0;
}

int pcre2_set_compile_recursion_guard(pcre2_compile_context *c, int (*f)(uint32_t, void *),
                                      void *data) {
  (void)c, (void)f,
      (void)data; /* no call of the compiler goes deeper for a pattern that is nested deeper */
  return 0;
}

const pcre2_match_context plain_match = {
    {plain_get, plain_give, NULL}, 10000000, 10000000, 20000000, PCRE2_UNSET, NULL, NULL};

pcre2_match_context *pcre2_match_context_create(pcre2_general_context *g) {
  COPY(pcre2_match_context, &plain_match, memory_of(g));
}
pcre2_match_context *pcre2_match_context_copy(pcre2_match_context *from) {
  COPY(pcre2_match_context, from, &from->memory);
}
void pcre2_match_context_free(pcre2_match_context *c) { GIVE(c); }

int pcre2_set_callout(pcre2_match_context *c, int (*f)(pcre2_callout_block *, void *), void *data) {
  (void)data;
  c->callout = f;
  return 0;
}

int pcre2_set_substitute_callout(pcre2_match_context *c,
                                 int (*f)(pcre2_substitute_callout_block *, void *), void *data) {
  (void)data;
  c->substitute_callout = f;
  return 0;
}

int pcre2_set_match_limit(pcre2_match_context *c, uint32_t n) {
  c->match_limit = n;
  return 0;
}

int pcre2_set_depth_limit(pcre2_match_context *c, uint32_t n) {
  c->depth_limit = n;
  return 0;
}

int pcre2_set_recursion_limit(pcre2_match_context *c, uint32_t n) {
  return pcre2_set_depth_limit(c, n);
}

int pcre2_set_heap_limit(pcre2_match_context *c, uint32_t n) {
  c->heap_limit = n;
  return 0;
}

int pcre2_set_offset_limit(pcre2_match_context *c, size_t n) {
  c->offset_limit = n;
  return 0;
}

int pcre2_set_recursion_memory_management(pcre2_match_context *c, void *(*get)(size_t, void *),
                                          void (*give)(void *, void *), void *data) {
  (void)c, (void)get, (void)give, (void)data; /* without effect, as the page says */
  return 0;
}

/* ---- conversion of patterns: not built ---- */

pcre2_convert_context *pcre2_convert_context_create(pcre2_general_context *g) {
  static const pcre2_convert_context plain = {{plain_get, plain_give, NULL}, '\\', '/'};
  COPY(pcre2_convert_context, &plain, memory_of(g));
}
pcre2_convert_context *pcre2_convert_context_copy(pcre2_convert_context *from) {
  COPY(pcre2_convert_context, from, &from->memory);
}
void pcre2_convert_context_free(pcre2_convert_context *c) { GIVE(c); }

int pcre2_set_glob_escape(pcre2_convert_context *c, uint32_t n) {
  if (n > 127 || (n != 0 && !ispunct((int)n))) return PCRE2_ERROR_BADDATA;
  c->escape = n;
  return 0;
}

int pcre2_set_glob_separator(pcre2_convert_context *c, uint32_t n) {
  if (n != '/' && n != '\\' && n != '.') return PCRE2_ERROR_BADDATA;
  c->separator = n;
  return 0;
}

int pcre2_pattern_convert(PCRE2_SPTR pattern, size_t len, uint32_t options, PCRE2_UCHAR **out,
                          size_t *out_len, pcre2_convert_context *c) {
  (void)len, (void)options, (void)c;
  if (!pattern || !out_len) return PCRE2_ERROR_NULL;
  *out_len = 0;
  if (out) *out = NULL;
  return PCRE2_ERROR_BADOPTION;
}

void pcre2_converted_pattern_free(PCRE2_UCHAR *text) { give_text(text); }

/* ---- just-in-time compiling: there is none ---- */

/* 0, and PCRE2_INFO_JITSIZE tells that nothing was compiled: PHP warns of any other answer. */
int pcre2_jit_compile(pcre2_code *c, uint32_t options) {
  if (!c) return PCRE2_ERROR_NULL;
  if (c->magic != MAGIC) return PCRE2_ERROR_BADMAGIC;
  if (options & ~(PCRE2_JIT_COMPLETE | PCRE2_JIT_PARTIAL_SOFT | PCRE2_JIT_PARTIAL_HARD |
                  PCRE2_JIT_INVALID_UTF))
    return PCRE2_ERROR_JIT_BADOPTION;
  return 0;
}

int pcre2_jit_match(const pcre2_code *c, PCRE2_SPTR subject, size_t len, size_t start,
                    uint32_t options, pcre2_match_data *m, pcre2_match_context *mc) {
  return pcre2_match(c, subject, len, start, options, m, mc);
}

void pcre2_jit_free_unused_memory(pcre2_general_context *g) { (void)g; }

pcre2_jit_stack *pcre2_jit_stack_create(size_t from, size_t to, pcre2_general_context *g) {
  if (from == 0 || to < from) return NULL;
  pcre2_jit_stack *s = get_block(memory_of(g), sizeof *s);
  if (s) s->memory = *memory_of(g);
  return s;
}

void pcre2_jit_stack_assign(pcre2_match_context *c, pcre2_jit_callback f, void *data) {
  (void)c, (void)f, (void)data;
}

void pcre2_jit_stack_free(pcre2_jit_stack *s) { GIVE(s); }

/* ---- tables of a locale: kept, and not read ---- */

const uint8_t *pcre2_maketables(pcre2_general_context *g) {
  uint8_t *tables = get_block(memory_of(g), TABLES);
  if (tables) memset(tables, 0, TABLES);
  return tables;
}

void pcre2_maketables_free(pcre2_general_context *g, const uint8_t *tables) {
  give_block(memory_of(g), (void *)(uintptr_t)tables);
}
