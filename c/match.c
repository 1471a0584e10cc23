/* Matching (pcre2api, "The match data block", "Matching a pattern"). */
#include "library.h"

#include <string.h>

_Static_assert(sizeof(size_t) == sizeof(uint64_t),
               "a pair of places of the door is one of the vector");
_Static_assert(PCRE2_UNSET == UINT64_MAX, "an unset group is told as the door tells it");

/* ---- match data ---- */

static pcre2_match_data *data_of(uint32_t count, const struct memory *memory) {
  if (count < 1) count = 1;
  if (count > UINT16_MAX) count = UINT16_MAX;
  size_t size = sizeof(pcre2_match_data) + 2 * count * sizeof(size_t);
  pcre2_match_data *m = get_block(memory, size);
  if (!m) return NULL;
  memset(m, 0, size);
  m->memory = *memory;
  m->count = (uint16_t)count;
  m->rc = PCRE2_ERROR_NOMATCH;
  return m;
}

pcre2_match_data *pcre2_match_data_create(uint32_t count, pcre2_general_context *g) {
  return data_of(count, g ? &g->memory : &plain_memory);
}

pcre2_match_data *pcre2_match_data_create_from_pattern(const pcre2_code *c,
                                                       pcre2_general_context *g) {
  return c ? data_of(c->told.groups + 1, g ? &g->memory : &c->memory) : NULL;
}

void pcre2_match_data_free(pcre2_match_data *m) {
  if (!m) return;
  struct memory memory = m->memory;
  if (m->shared) take_back(m->shared, &m->own);
  give_block(&memory, m->copied);
  give_block(&memory, m);
}

PCRE2_SPTR pcre2_get_mark(pcre2_match_data *m) { return m->has_mark ? m->mark : NULL; }
size_t *pcre2_get_ovector_pointer(pcre2_match_data *m) { return m->ovector; }
uint32_t pcre2_get_ovector_count(pcre2_match_data *m) { return m->count; }
size_t pcre2_get_startchar(pcre2_match_data *m) { return m->startchar; }
size_t pcre2_get_match_data_size(pcre2_match_data *m) {
  return sizeof *m + 2 * m->count * sizeof(size_t);
}

/* Match data has a handle of its own of the code, so that threads that share the code don't wait
 * for each other. */
bool take_handle(pcre2_match_data *m, const pcre2_code *c) {
  if (m->shared == c->shared) return true;
  if (m->shared) take_back(m->shared, &m->own);
  m->shared = lend_handle(c->shared, &m->own) ? c->shared : NULL;
  return m->shared != NULL;
}

/* ---- searches ---- */

int begin_match(pcre2_match_data *m, const pcre2_code *c, PCRE2_SPTR *subject, size_t *len,
                size_t start, uint32_t options, const pcre2_match_context *with) {
  if (c->magic != MAGIC) return PCRE2_ERROR_BADMAGIC;
  if (options & (PCRE2_PARTIAL_HARD | PCRE2_PARTIAL_SOFT) &&
      (options | c->options) & PCRE2_ENDANCHORED)
    return PCRE2_ERROR_BADOPTION;
  if (!*subject) {
    if (*len != 0) return PCRE2_ERROR_NULL;
    *subject = nothing;
  }
  if (*len == PCRE2_ZERO_TERMINATED) *len = strlen((const char *)*subject);
  m->code = c;
  m->groups = c->told.groups;
  m->subject = *subject;
  m->subject_len = *len;
  m->startchar = start;
  m->has_mark = false;
  if (start > *len) return PCRE2_ERROR_BADOFFSET;
  if (with->offset_limit != PCRE2_UNSET && !(c->options & PCRE2_USE_OFFSET_LIMIT))
    return PCRE2_ERROR_BADOFFSETLIMIT;
  if (with->callout && c->has_callouts) return PCRE2_ERROR_CALLOUT; /* callouts aren't served */
  return *len > MOST_SUBJECT || !take_handle(m, c) ? PCRE2_ERROR_NOMEMORY : 0;
}

struct door_match_asked match_asked(uint32_t o, const pcre2_match_context *with, bool *by_depth) {
  uint64_t units = (uint64_t)with->heap_limit * 1024 / UNIT;
  *by_depth = with->depth_limit < units;
  if (*by_depth) units = with->depth_limit;
  return (struct door_match_asked){
      .anchored = o & PCRE2_ANCHORED,
      .endanchored = o & PCRE2_ENDANCHORED,
      .notbol = o & PCRE2_NOTBOL,
      .noteol = o & PCRE2_NOTEOL,
      .notempty = o & PCRE2_NOTEMPTY,
      .notempty_atstart = o & PCRE2_NOTEMPTY_ATSTART,
      .dfa_shortest = o & PCRE2_DFA_SHORTEST,
      .partial = o & PCRE2_PARTIAL_HARD   ? 2
                 : o & PCRE2_PARTIAL_SOFT ? 1
                                          : 0,
      .match_limit = with->match_limit,
      .frame_limit = units > UINT32_MAX ? UINT32_MAX : (uint32_t)units,
      .offset_limit = with->offset_limit,
  };
}

int limit_code(int32_t code, bool by_depth) {
  return code == PCRE2_ERROR_HEAPLIMIT && by_depth ? PCRE2_ERROR_DEPTHLIMIT : code;
}

/* A search of a part of the subject, from a place on. */
struct search {
  pcre2_match_data *data;
  struct door_match_asked asked;
  bool by_depth, checked;
};

static void keep_mark(pcre2_match_data *m, const struct door_answer *a) {
  m->has_mark = a->marked;
  if (!a->marked) return;
  size_t len = a->mark;
  if (a->code != 0) len = door_mark(&m->own, (uint32_t)a->mark, m->mark, MARK_ROOM - 1);
  m->mark[len < MARK_ROOM ? len : MARK_ROOM - 1] = 0;
}

/* The begin of what ends at a place, where it is a character. */
static size_t before(const uint8_t *text, size_t at) {
  at--;
  while (at > 0 && (text[at] & 0xc0) == 0x80)
    at--;
  return at;
}

/* Where the part of the subject begins that a search from a place on looks at. In UTF no more than
   what stands as far before it as lookbehinds look has to be UTF-8 (pcre2api, PCRE2_NO_UTF_CHECK);
   of what stands before, whole characters are looked at. */
static size_t part_from(const pcre2_match_data *m, size_t start) {
  const uint8_t *text = m->subject;
  size_t at = start < m->subject_len ? before(text, start + 1) : start, len;
  for (size_t n = 0; at > 0 && n < m->code->reach; n++) {
    size_t from = before(text, at);
    if (n >= m->code->told.max_lookbehind &&
        (character_fault(text + from, at - from, &len) || len != at - from))
      break;
    at = from;
  }
  return at;
}

static size_t pairs_of(const pcre2_match_data *m) {
  return m->groups < m->count ? m->groups + 1 : m->count;
}

/* Takes what was answered for the part of the subject between two places, from whose begin the door
   counts. */
static int take_answer(const struct search *s, const struct door_answer *a, size_t from,
                       size_t to) {
  pcre2_match_data *m = s->data;
  size_t unused;
  keep_mark(m, a);
  if (a->code == PCRE2_ERROR_UTF8_ERR1) {
    m->startchar = from + a->at;
    return character_fault(m->subject + from + a->at, to - from - a->at, &unused);
  }
  if (a->code == PCRE2_ERROR_PARTIAL) {
    m->ovector[0] = m->startchar = from + a->at;
    m->ovector[1] = to;
  }
  if (a->code != 0) return limit_code(a->code, s->by_depth);
  for (size_t i = 0; from > 0 && i < 2 * pairs_of(m); i++) {
    if (m->ovector[i] != PCRE2_UNSET) m->ovector[i] += from;
  }
  m->startchar = m->ovector[0];
  return a->top < m->count ? (int)a->top + 1 : 0;
}

static int search_part(struct search *s, size_t from, size_t start) {
  pcre2_match_data *m = s->data;
  struct door_answer a = (s->checked ? door_match_checked : door_match)(
      &m->own, m->subject + from, m->subject_len - from, start - from, &s->asked,
      (struct door_pair *)m->ovector, pairs_of(m), m->mark, MARK_ROOM - 1);
  return take_answer(s, &a, from, m->subject_len);
}

/* A subject of PCRE2_MATCH_INVALID_UTF is searched run by run of UTF-8. */
static int search_runs(struct search *s, size_t from, size_t start) {
  pcre2_match_data *m = s->data;
  struct door_run run = {0, 0};
  struct door_answer a =
      door_match_runs(&m->own, m->subject + from, m->subject_len - from, start - from, &s->asked,
                      (struct door_pair *)m->ovector, pairs_of(m), m->mark, MARK_ROOM - 1, &run);
  return take_answer(s, &a, from + run.from, from + run.to);
}

static int finish(pcre2_match_data *m, int rc, uint32_t options) {
  if (rc >= 0 && options & PCRE2_COPY_MATCHED_SUBJECT) {
    give_block(&m->memory, m->copied);
    m->copied = get_block(&m->memory, m->subject_len + 1);
    if (!m->copied) return PCRE2_ERROR_NOMEMORY;
    memcpy(m->copied, m->subject, m->subject_len);
    m->subject = m->copied;
  }
  return rc;
}

int pcre2_match(const pcre2_code *c, PCRE2_SPTR subject, size_t len, size_t start, uint32_t options,
                pcre2_match_data *m, pcre2_match_context *mc) {
  const pcre2_match_context *with = mc ? mc : &plain_match;
  if (!c || !m) return PCRE2_ERROR_NULL;
  if (options & ~MATCH_OPTIONS) return PCRE2_ERROR_BADOPTION;
  m->by_dfa = false;
  m->rc = begin_match(m, c, &subject, &len, start, options, with);
  if (m->rc != 0) return m->rc;
  struct search s = {.data = m, .checked = !c->told.utf || options & PCRE2_NO_UTF_CHECK};
  s.asked = match_asked(options, with, &s.by_depth);
  bool by_runs = c->options & PCRE2_MATCH_INVALID_UTF;
  size_t from = by_runs || !s.checked ? part_from(m, start) : 0;
  s.asked.notbol = s.asked.notbol || from > 0;
  if (with->offset_limit < from) return m->rc = PCRE2_ERROR_NOMATCH;
  if (with->offset_limit != PCRE2_UNSET)
    s.asked.offset_limit -= from; /* the door counts from there */
  m->rc = finish(m, by_runs ? search_runs(&s, from, start) : search_part(&s, from, start), options);
  return m->rc;
}

/* ---- all ends ---- */

/* The ends stand in the second half of the vector, and become pairs from the front on. */
static int pair_ends(pcre2_match_data *m, size_t start, size_t count) {
  size_t n = count < m->count ? count : m->count;
  for (size_t i = 0; i < n; i++) {
    m->ovector[2 * i + 1] = m->ovector[m->count + i];
    m->ovector[2 * i] = start;
  }
  for (size_t i = 2 * n; i < 2u * m->count; i++)
    m->ovector[i] = PCRE2_UNSET;
  return count <= m->count ? (int)count : 0;
}

static int search_ends(pcre2_match_data *m, size_t start, const struct door_match_asked *asked,
                       bool by_depth) {
  size_t len = m->subject_len, unused;
  struct door_ends_answer a = door_ends(&m->own, m->subject, len, start, asked,
                                        (uint64_t *)m->ovector + m->count, m->count);
  if (a.code == 0 || a.code == PCRE2_ERROR_PARTIAL || a.code == PCRE2_ERROR_UTF8_ERR1)
    m->startchar = a.at;
  if (a.code == PCRE2_ERROR_UTF8_ERR1)
    return character_fault(m->subject + a.at, len - a.at, &unused);
  if (a.code == PCRE2_ERROR_PARTIAL) {
    m->ovector[0] = a.at;
    m->ovector[1] = len;
  }
  return a.code == 0 ? pair_ends(m, a.at, a.count) : limit_code(a.code, by_depth);
}

int pcre2_dfa_match(const pcre2_code *c, PCRE2_SPTR subject, size_t len, size_t start,
                    uint32_t options, pcre2_match_data *m, pcre2_match_context *mc, int *room,
                    size_t n) {
  const pcre2_match_context *with = mc ? mc : &plain_match;
  if (!c || !m || !room) return PCRE2_ERROR_NULL;
  if (options & ~(MATCH_OPTIONS | PCRE2_DFA_SHORTEST | PCRE2_DFA_RESTART))
    return PCRE2_ERROR_BADOPTION;
  if (n < 20) return PCRE2_ERROR_DFA_WSSIZE;
  if (options & PCRE2_DFA_RESTART) return PCRE2_ERROR_DFA_BADRESTART; /* a search isn't continued */
  m->by_dfa = true;
  m->rc = begin_match(m, c, &subject, &len, start, options, with);
  if (m->rc != 0) return m->rc;
  if (c->options & PCRE2_MATCH_INVALID_UTF) return m->rc = PCRE2_ERROR_DFA_UINVALID_UTF;
  bool by_depth;
  struct door_match_asked asked = match_asked(options, with, &by_depth);
  m->rc = finish(m, search_ends(m, start, &asked, by_depth), options);
  return m->rc;
}
