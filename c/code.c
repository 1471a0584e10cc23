/* Compiling, and what is told of a code (pcre2api, "Compiling a pattern", "Information about a
 * compiled pattern"). */
#include "library.h"

#include <ctype.h>
#include <pthread.h>
#include <stdatomic.h>
#include <string.h>

#define NAME_ROOM 128

/* What a code shares with its match data, as long as one of them is there. A handle is in one call
 * at a time, so another one of the code is made under the lock. */
struct shared {
  struct memory memory;
  pthread_mutex_t lock;
  struct door_handle handle; /* of nothing once the code is freed */
  _Atomic(void *) spare;     /* of the handle that match data gave back, for the next */
  atomic_size_t users;
};

#define KNOWN_OPTIONS                                                                           \
  (PCRE2_ANCHORED | PCRE2_ENDANCHORED | PCRE2_NO_UTF_CHECK | PCRE2_ALLOW_EMPTY_CLASS |          \
   PCRE2_AUTO_CALLOUT | PCRE2_CASELESS | PCRE2_DOLLAR_ENDONLY | PCRE2_DOTALL | PCRE2_DUPNAMES | \
   PCRE2_EXTENDED | PCRE2_FIRSTLINE | PCRE2_MATCH_UNSET_BACKREF | PCRE2_MULTILINE |             \
   PCRE2_NEVER_UCP | PCRE2_NEVER_UTF | PCRE2_NO_AUTO_CAPTURE | PCRE2_NO_AUTO_POSSESS |          \
   PCRE2_NO_DOTSTAR_ANCHOR | PCRE2_NO_START_OPTIMIZE | PCRE2_UCP | PCRE2_UNGREEDY | PCRE2_UTF | \
   PCRE2_NEVER_BACKSLASH_C | PCRE2_USE_OFFSET_LIMIT | PCRE2_EXTENDED_MORE | PCRE2_LITERAL |     \
   PCRE2_MATCH_INVALID_UTF)

#define LITERAL_OPTIONS                                                                           \
  (PCRE2_LITERAL | PCRE2_ANCHORED | PCRE2_ENDANCHORED | PCRE2_NO_UTF_CHECK | PCRE2_AUTO_CALLOUT | \
   PCRE2_CASELESS | PCRE2_FIRSTLINE | PCRE2_NO_START_OPTIMIZE | PCRE2_UTF |                       \
   PCRE2_USE_OFFSET_LIMIT | PCRE2_MATCH_INVALID_UTF)

#define WRAPPING (PCRE2_EXTRA_MATCH_WORD | PCRE2_EXTRA_MATCH_LINE)

/* ALLOW_LOOKAROUND_BSK is taken, and a pattern that needs it is refused. */
#define KNOWN_EXTRA \
  (WRAPPING | PCRE2_EXTRA_BAD_ESCAPE_IS_LITERAL | PCRE2_EXTRA_ALLOW_LOOKAROUND_BSK)

static struct door_asked asked_of(uint32_t o, uint32_t newline, uint32_t bsr) {
  return (struct door_asked){
      .anchored = o & PCRE2_ANCHORED,
      .endanchored = o & PCRE2_ENDANCHORED,
      .caseless = o & PCRE2_CASELESS,
      .multiline = o & PCRE2_MULTILINE,
      .dotall = o & PCRE2_DOTALL,
      .extended = o & PCRE2_EXTENDED,
      .extended_more = o & PCRE2_EXTENDED_MORE,
      .dollar_endonly = o & PCRE2_DOLLAR_ENDONLY,
      .dupnames = o & PCRE2_DUPNAMES,
      .firstline = o & PCRE2_FIRSTLINE,
      .literal = o & PCRE2_LITERAL,
      .no_auto_capture = o & PCRE2_NO_AUTO_CAPTURE,
      .ungreedy = o & PCRE2_UNGREEDY,
      .utf = o & PCRE2_UTF,
      .ucp = o & PCRE2_UCP,
      .allow_empty_class = o & PCRE2_ALLOW_EMPTY_CLASS,
      .match_unset_backref = o & PCRE2_MATCH_UNSET_BACKREF,
      .no_start_optimize = o & PCRE2_NO_START_OPTIMIZE,
      .auto_callout = o & PCRE2_AUTO_CALLOUT,
      .newline = (uint8_t)newline,
      .bsr = (uint8_t)bsr,
  };
}

/* ---- the text that is compiled ---- */

struct text {
  uint8_t *bytes;
  size_t len;
};

/* The length of the start items of a pattern, as `(*UTF)`, each in capitals (pcre2pattern, "Special
   start-of-pattern items"). */
static size_t start_items(const uint8_t *p, size_t len) {
  size_t at = 0;
  while (at + 2 < len && p[at] == '(' && p[at + 1] == '*') {
    static const char *const items[] = {"UTF)",
                                        "UCP)",
                                        "NOTEMPTY)",
                                        "NOTEMPTY_ATSTART)",
                                        "NO_AUTO_POSSESS)",
                                        "NO_JIT)",
                                        "NO_START_OPT)",
                                        "NO_DOTSTAR_ANCHOR)",
                                        "CR)",
                                        "LF)",
                                        "CRLF)",
                                        "ANY)",
                                        "NUL)",
                                        "ANYCRLF)",
                                        "BSR_ANYCRLF)",
                                        "BSR_UNICODE)",
                                        "LIMIT_MATCH=",
                                        "LIMIT_DEPTH=",
                                        "LIMIT_HEAP=",
                                        "LIMIT_RECURSION="};
    size_t end = at;
    for (size_t i = 0; end == at && i < sizeof items / sizeof *items; i++) {
      size_t n = strlen(items[i]);
      if (len - at - 2 >= n && !memcmp(p + at + 2, items[i], n)) end = at + 2 + n;
    }
    if (end == at) break;
    if (p[end - 1] == '=') {
      while (end < len && isdigit(p[end]))
        end++;
      if (end == len || p[end++] != ')') break;
    }
    at = end;
  }
  return at;
}

/* A compilation under way. */
struct making {
  struct text text;
  uint32_t options, extra, newline, bsr;
  struct door_handle handle;
  struct door_fault fault;
};

/* What the door answered: 0, or the number of the fault or of the want of memory. */
static int made(struct making *m, int32_t told) {
  if (told == 1) return m->fault.number;
  m->fault.at = 0;
  return told == 0 ? 0 : PCRE2_ERROR_HEAP_FAILED;
}

static int make(struct making *m) {
  struct door_asked asked = asked_of(m->options, m->newline, m->bsr);
  return made(m, door_compile(m->text.bytes, m->text.len, &asked, &m->handle, &m->fault));
}

/* Where the backslash of an unknown escape stands, of which a fault is told at the escape or right
 * behind it. */
static size_t backslash(const struct text *t, size_t at) {
  return at < t->len && t->bytes[at] == '\\' ? at : at - 1;
}

/* Compiles the text. Under BAD_ESCAPE_IS_LITERAL the backslash of an unknown escape is left out,
   and the text compiled again. */
static int make_plain(struct making *m) {
  size_t left_out = 0;
  for (;;) {
    int code = make(m);
    size_t at = backslash(&m->text, m->fault.at);
    if (code != PCRE2_ERROR_UNKNOWN_ESCAPE || !(m->extra & PCRE2_EXTRA_BAD_ESCAPE_IS_LITERAL) ||
        at >= m->text.len) {
      if (code) m->fault.at += left_out;
      return code;
    }
    memmove(m->text.bytes + at, m->text.bytes + at + 1, m->text.len - at - 1);
    m->text.len--;
    left_out++;
  }
}

/* Compiles it with what MATCH_LINE or MATCH_WORD stands for around it. */
static int make_around(struct making *m) {
  struct door_asked asked = asked_of(m->options, m->newline, m->bsr);
  bool line = m->extra & PCRE2_EXTRA_MATCH_LINE;
  int code =
      made(m, door_compile_around(m->text.bytes, m->text.len, &asked, line, &m->handle, &m->fault));
  if (m->fault.at > m->text.len) m->fault.at = m->text.len;
  return code;
}

static int make_all(struct making *m) {
  if (!(m->extra & WRAPPING)) return make_plain(m);
  if (m->extra & PCRE2_EXTRA_BAD_ESCAPE_IS_LITERAL) {
    int code = make_plain(m);
    if (code) return code;
    door_free(&m->handle);
  }
  return make_around(m);
}

/* ---- codes ---- */

static struct shared *shared_of(const struct memory *m, struct door_handle handle) {
  struct shared *s = get_block(m, sizeof *s);
  if (!s) return NULL;
  s->memory = *m;
  s->handle = handle;
  atomic_init(&s->spare, NULL);
  atomic_init(&s->users, 1);
  if (pthread_mutex_init(&s->lock, NULL)) {
    give_block(m, s);
    return NULL;
  }
  return s;
}

/* Ends the use by one user, the last of whom gives the block back. */
static void leave(struct shared *s) {
  if (atomic_fetch_sub(&s->users, 1) > 1) return;
  struct memory m = s->memory;
  struct door_handle spare = {atomic_load(&s->spare)};
  if (spare.at) door_free(&spare);
  pthread_mutex_destroy(&s->lock);
  give_block(&m, s);
}

static bool share(struct shared *s, struct door_handle *other) {
  pthread_mutex_lock(&s->lock);
  bool made = door_share(&s->handle, other) == 0;
  pthread_mutex_unlock(&s->lock);
  return made;
}

bool lend_handle(struct shared *s, struct door_handle *own) {
  own->at = atomic_exchange(&s->spare, NULL);
  if (!own->at && !share(s, own)) return false;
  atomic_fetch_add(&s->users, 1);
  return true;
}

void take_back(struct shared *s, struct door_handle *own) {
  void *none = NULL;
  if (atomic_compare_exchange_strong(&s->spare, &none, own->at))
    own->at = NULL;
  else
    door_free(own);
  leave(s);
}

static void end_sharing(struct shared *s) {
  door_free(&s->handle);
  leave(s);
}

static bool read_names(pcre2_code *c) {
  size_t n = c->told.names, longest = 0;
  uint8_t room[NAME_ROOM];
  if (n == 0) return true;
  for (size_t i = 0; i < n; i++) {
    size_t len = door_name(&c->shared->handle, i, room, sizeof room).len;
    if (len > longest) longest = len;
  }
  c->name_size = (uint32_t)longest + 3;
  c->name_count = (uint32_t)n;
  c->names = get_block(&c->memory, n * c->name_size);
  if (!c->names) return false;
  memset(c->names, 0, n * c->name_size);
  for (size_t i = 0; i < n; i++) {
    uint8_t *entry = c->names + i * c->name_size;
    uint32_t group = door_name(&c->shared->handle, i, entry + 2, longest).group;
    entry[0] = (uint8_t)(group >> 8);
    entry[1] = (uint8_t)group;
    if (i > 0 && !(c->options & PCRE2_DUPNAMES) &&
        !strcmp((char *)entry + 2, (char *)entry - c->name_size + 2))
      c->jchanged = true;
  }
  return true;
}

static bool holds(const uint8_t *s, size_t len, const char *part) {
  size_t n = strlen(part);
  for (size_t i = 0; i + n <= len; i++) {
    if (!memcmp(s + i, part, n)) return true;
  }
  return false;
}

/* How many characters before its start a search looks at, at most. Lookbehinds may stand in one
   another, and each looks as far as the longest; a call can lead from one into itself. A newline
   before `^` has two characters. */
static size_t reach_of(const uint8_t *s, size_t len, size_t longest) {
  static const char *const behind[] = {"(?<", "(*p", "(*n"};
  static const char *const calls[] = {"(?R", "(?&", "(?P>", "\\g"};
  size_t levels = 0;
  bool has_calls = false;
  for (size_t i = 0; i + 2 < len; i++) {
    for (size_t k = 0; k < sizeof behind / sizeof *behind; k++)
      levels += !memcmp(s + i, behind[k], 3);
    has_calls = has_calls || (s[i] == '(' && s[i + 1] == '?' && strchr("0123456789+-", s[i + 2]));
  }
  for (size_t k = 0; k < sizeof calls / sizeof *calls; k++)
    has_calls = has_calls || holds(s, len, calls[k]);
  if (levels == 0) return 2;
  return has_calls ? SIZE_MAX : levels * longest + 2;
}

/* A code of this text over what a handle holds, which it takes; NULL, and the handle is free, for
 * want of memory. */
static pcre2_code *code_of(const struct memory *m, struct door_handle handle, const uint8_t *text,
                           size_t len, uint32_t options, const pcre2_compile_context *with) {
  pcre2_code *c = get_block(m, sizeof *c);
  uint8_t *kept = get_block(m, len + 1);
  struct shared *shared = shared_of(m, handle);
  if (!c || !kept || !shared) {
    if (shared)
      end_sharing(shared);
    else
      door_free(&handle);
    give_block(m, c);
    give_block(m, kept);
    return NULL;
  }
  memcpy(kept, text, len);
  kept[len] = 0;
  *c = (pcre2_code){.magic = MAGIC, .memory = *m, .shared = shared, .text = kept, .text_len = len};
  c->told = door_info(&shared->handle);
  c->options = options;
  c->extra = with->extra;
  c->newline = with->newline;
  c->bsr = with->bsr;
  c->tables = with->tables;
  c->reach = reach_of(text, len, c->told.max_lookbehind);
  c->has_callouts =
      options & PCRE2_AUTO_CALLOUT || (!(options & PCRE2_LITERAL) && holds(text, len, "(?C"));
  if (read_names(c)) return c;
  pcre2_code_free(c);
  return NULL;
}

/* What refuses a pattern before its text is read: 0, or the number of the fault. */
static int refusal(PCRE2_SPTR pattern, size_t len, uint32_t options,
                   const pcre2_compile_context *with) {
  if (!pattern) return PCRE2_ERROR_NULL_PATTERN;
  if (options & ~KNOWN_OPTIONS || with->extra & ~KNOWN_EXTRA) return PCRE2_ERROR_BAD_OPTIONS;
  if (options & PCRE2_LITERAL && options & ~LITERAL_OPTIONS) return PCRE2_ERROR_BAD_LITERAL_OPTIONS;
  if (options & PCRE2_LITERAL && with->extra & ~WRAPPING) return PCRE2_ERROR_BAD_LITERAL_OPTIONS;
  size_t bytes = len == PCRE2_ZERO_TERMINATED ? strlen((const char *)pattern) : len;
  return bytes > with->most_pattern ? PCRE2_ERROR_PATTERN_STRING_TOO_LONG : 0;
}

/* What the caller forbids of a pattern that compiles. */
static int forbidden(uint32_t options, const struct door_told *told) {
  if (options & PCRE2_NEVER_UTF && told->utf) return PCRE2_ERROR_UTF_IS_DISABLED;
  if (options & PCRE2_NEVER_UCP && told->ucp) return PCRE2_ERROR_UCP_IS_DISABLED;
  return 0;
}

/* The number and the place of a fault as PCRE2 tells them: of bad UTF its kind. */
static void tell_fault(const struct making *m, int code, int *error, size_t *at) {
  size_t n;
  *error = code;
  *at = m->fault.at;
  if (code == PCRE2_ERROR_UTF8_ERR1 && *at < m->text.len)
    *error = character_fault(m->text.bytes + *at, m->text.len - *at, &n);
}

pcre2_code *pcre2_compile(PCRE2_SPTR pattern, size_t len, uint32_t options, int *error, size_t *at,
                          pcre2_compile_context *cc) {
  const pcre2_compile_context *with = cc ? cc : &plain_compile;
  if (!error || !at) return NULL;
  *at = 0;
  *error = refusal(pattern, len, options, with);
  if (*error) return NULL;
  if (len == PCRE2_ZERO_TERMINATED) len = strlen((const char *)pattern);
  if (options & PCRE2_MATCH_INVALID_UTF) options |= PCRE2_UTF;
  struct making m = {.text = {get_block(&plain_memory, len + 1), len},
                     .options = options,
                     .extra = with->extra,
                     .newline = with->newline,
                     .bsr = with->bsr};
  if (!m.text.bytes) {
    *error = PCRE2_ERROR_HEAP_FAILED;
    return NULL;
  }
  memcpy(m.text.bytes, pattern, len);
  int code = make_all(&m);
  if (code) tell_fault(&m, code, error, at);
  give_block(&plain_memory, m.text.bytes);
  if (code) return NULL;
  struct door_told told = door_info(&m.handle);
  *error = forbidden(options, &told);
  if (*error) {
    door_free(&m.handle);
    *at = start_items(pattern, len); /* where there are any, one of them asks for it */
    return NULL;
  }
  pcre2_code *c = code_of(&with->memory, m.handle, pattern, len, options, with);
  *error = c ? 100 : PCRE2_ERROR_HEAP_FAILED;
  return c;
}

void pcre2_code_free(pcre2_code *c) {
  if (!c) return;
  struct memory m = c->memory;
  end_sharing(c->shared);
  c->magic = 0;
  give_block(&m, c->names);
  give_block(&m, c->text);
  give_block(&m, c);
}

pcre2_code *pcre2_code_copy(const pcre2_code *c) {
  struct door_handle handle = {NULL};
  if (!c || !share(c->shared, &handle)) return NULL;
  pcre2_compile_context with = plain_compile;
  with.extra = c->extra;
  with.newline = c->newline;
  with.bsr = c->bsr;
  with.tables = c->tables;
  return code_of(&c->memory, handle, c->text, c->text_len, c->options, &with);
}

pcre2_code *pcre2_code_copy_with_tables(const pcre2_code *c) { return pcre2_code_copy(c); }

/* ---- what is told of a code ---- */

static bool has_cr_or_lf(const pcre2_code *c) {
  for (size_t i = 0; i < c->text_len; i++) {
    uint8_t b = c->text[i];
    if (b == '\r' || b == '\n') return true;
    if (b == '\\' && i + 1 < c->text_len && (c->text[i + 1] == 'r' || c->text[i + 1] == 'n'))
      return true;
  }
  return false;
}

static uint32_t all_options(const pcre2_code *c) {
  return c->options | (c->told.utf ? PCRE2_UTF : 0) | (c->told.ucp ? PCRE2_UCP : 0) |
         (c->told.no_start_optimize ? PCRE2_NO_START_OPTIMIZE : 0) |
         (c->told.anchored ? PCRE2_ANCHORED : 0);
}

static int tell_size(size_t n, void *where) {
  if (where) memcpy(where, &n, sizeof n);
  return where ? 0 : (int)sizeof n;
}

static int tell_number(uint32_t n, void *where) {
  if (where) memcpy(where, &n, sizeof n);
  return where ? 0 : (int)sizeof n;
}

static int tell_limit(bool is_set, uint32_t n, void *where) {
  int told = tell_number(is_set ? n : UINT32_MAX, where);
  return told == 0 && !is_set ? PCRE2_ERROR_UNSET : told;
}

static int tell_place(const uint8_t *place, void *where) {
  if (where) memcpy(where, &place, sizeof place);
  return where ? 0 : (int)sizeof place;
}

/* The first code unit of each match, or -1; of an anchored pattern none is told. */
static int32_t first_unit(const pcre2_code *c) {
  struct shared *s = c->shared;
  if (!s || c->told.anchored) return -1;
  pthread_mutex_lock(&s->lock);
  int32_t first = door_first_byte(&s->handle);
  pthread_mutex_unlock(&s->lock);
  return first;
}

int pcre2_pattern_info(const pcre2_code *c, uint32_t what, void *where) {
  static const pcre2_code none; /* the size of an answer is told without a code */
  if (!c && where) return PCRE2_ERROR_NULL;
  if (!c)
    c = &none;
  else if (c->magic != MAGIC)
    return PCRE2_ERROR_BADMAGIC;
  switch (what) {
  case PCRE2_INFO_NAMETABLE: return tell_place(c->names, where);
  case PCRE2_INFO_FIRSTBITMAP: return tell_place(NULL, where);
  case PCRE2_INFO_SIZE: return tell_size(sizeof *c + c->text_len, where);
  case PCRE2_INFO_FRAMESIZE: return tell_size(UNIT, where);
  case PCRE2_INFO_JITSIZE: return tell_size(0, where);
  case PCRE2_INFO_ALLOPTIONS: return tell_number(all_options(c), where);
  case PCRE2_INFO_ARGOPTIONS: return tell_number(c->options, where);
  case PCRE2_INFO_EXTRAOPTIONS: return tell_number(c->extra, where);
  case PCRE2_INFO_BSR: return tell_number(c->told.bsr, where);
  case PCRE2_INFO_NEWLINE: return tell_number(c->told.newline, where);
  case PCRE2_INFO_CAPTURECOUNT: return tell_number(c->told.groups, where);
  case PCRE2_INFO_MAXLOOKBEHIND: return tell_number(c->told.max_lookbehind, where);
  case PCRE2_INFO_MATCHEMPTY: return tell_number(c->told.can_be_empty, where);
  case PCRE2_INFO_NAMECOUNT: return tell_number(c->name_count, where);
  case PCRE2_INFO_NAMEENTRYSIZE: return tell_number(c->name_size, where);
  case PCRE2_INFO_JCHANGED: return tell_number(c->jchanged, where);
  case PCRE2_INFO_HASCRORLF: return tell_number(has_cr_or_lf(c), where);
  case PCRE2_INFO_HASBACKSLASHC: return tell_number(0, where);
  case PCRE2_INFO_MINLENGTH: return tell_number(c != &none && !c->told.can_be_empty, where);
  case PCRE2_INFO_FIRSTCODETYPE: return tell_number(first_unit(c) >= 0, where);
  case PCRE2_INFO_FIRSTCODEUNIT:
    return tell_number(first_unit(c) >= 0 ? (uint32_t)first_unit(c) : 0, where);
  case PCRE2_INFO_LASTCODETYPE: /* hints: nothing is known */
  case PCRE2_INFO_LASTCODEUNIT:
  case PCRE2_INFO_BACKREFMAX: return tell_number(0, where);
  case PCRE2_INFO_MATCHLIMIT: return tell_limit(c->told.limits, c->told.match_limit, where);
  case PCRE2_INFO_DEPTHLIMIT:
  case PCRE2_INFO_HEAPLIMIT: return tell_limit(false, 0, where);
  default: return PCRE2_ERROR_BADOPTION;
  }
}

/* The door doesn't tell the callouts of a pattern. */
int pcre2_callout_enumerate(const pcre2_code *c, int (*f)(pcre2_callout_enumerate_block *, void *),
                            void *data) {
  (void)f, (void)data;
  if (!c) return PCRE2_ERROR_NULL;
  if (c->magic != MAGIC) return PCRE2_ERROR_BADMAGIC;
  return c->has_callouts ? PCRE2_ERROR_CALLOUT : 0;
}
