/* The texts of groups and of errors (pcre2api, "Extracting captured substrings by number",
   "Extracting captured substrings by name", "Extracting a list of all captured substrings",
   "Obtaining a textual error message"). */
#include "library.h"

#include <stdio.h>
#include <string.h>

/* ---- by number ---- */

/* Where a group's text stands: 0, or why there is none. An end before the begin, as `\K` in a
   lookahead leaves it, counts as no text. */
static int find_group(const pcre2_match_data *m, uint32_t n, size_t *from, size_t *len) {
  if (m->rc < 0 && m->rc != PCRE2_ERROR_PARTIAL) return m->rc;
  if (m->rc == PCRE2_ERROR_PARTIAL && n > 0) return PCRE2_ERROR_PARTIAL;
  if (!m->by_dfa && n > m->groups) return PCRE2_ERROR_NOSUBSTRING;
  if (n >= m->count) return PCRE2_ERROR_UNAVAILABLE;
  if (m->by_dfa && m->rc > 0 && n >= (uint32_t)m->rc) return PCRE2_ERROR_UNSET;
  if (m->ovector[2 * n] == PCRE2_UNSET) return PCRE2_ERROR_UNSET;
  *from = m->ovector[2 * n];
  size_t to = m->ovector[2 * n + 1];
  *len = *from < to ? to - *from : 0;
  return 0;
}

static void write_text(uint8_t *out, const pcre2_match_data *m, size_t from, size_t len) {
  if (len) memcpy(out, m->subject + from, len);
  out[len] = 0;
}

int pcre2_substring_length_bynumber(pcre2_match_data *m, uint32_t n, size_t *len) {
  size_t from, found;
  int rc = find_group(m, n, &from, &found);
  if (rc == 0 && len) *len = found;
  return rc;
}

int pcre2_substring_copy_bynumber(pcre2_match_data *m, uint32_t n, PCRE2_UCHAR *out, size_t *room) {
  size_t from, len;
  int rc = find_group(m, n, &from, &len);
  if (rc < 0) return rc;
  if (len + 1 > *room) return PCRE2_ERROR_NOMEMORY;
  write_text(out, m, from, len);
  *room = len;
  return 0;
}

int pcre2_substring_get_bynumber(pcre2_match_data *m, uint32_t n, PCRE2_UCHAR **out,
                                 size_t *out_len) {
  size_t from, len;
  int rc = find_group(m, n, &from, &len);
  if (rc < 0) return rc;
  uint8_t *text = get_text(&m->memory, len + 1);
  if (!text) return PCRE2_ERROR_NOMEMORY;
  write_text(text, m, from, len);
  *out = text;
  *out_len = len;
  return 0;
}

void pcre2_substring_free(PCRE2_UCHAR *text) { give_text(text); }

/* ---- by name ---- */

int pcre2_substring_nametable_scan(const pcre2_code *c, PCRE2_SPTR name, PCRE2_SPTR *first,
                                   PCRE2_SPTR *last) {
  const uint8_t *a = NULL, *b = NULL;
  for (uint32_t i = 0; i < c->name_count; i++) {
    const uint8_t *entry = c->names + i * c->name_size;
    if (strcmp((const char *)entry + 2, (const char *)name)) continue;
    if (!a) a = entry;
    b = entry;
  }
  if (!a) return PCRE2_ERROR_NOSUBSTRING;
  if (!first) return a == b ? a[0] << 8 | a[1] : PCRE2_ERROR_NOUNIQUESUBSTRING;
  *first = a;
  *last = b;
  return (int)c->name_size;
}

int pcre2_substring_number_from_name(const pcre2_code *c, PCRE2_SPTR name) {
  return pcre2_substring_nametable_scan(c, name, NULL, NULL);
}

/* The first set group of a name, or why there is none. */
static int by_name(const pcre2_match_data *m, PCRE2_SPTR name) {
  PCRE2_SPTR first, last;
  if (m->by_dfa) return PCRE2_ERROR_DFA_UFUNC;
  if (!m->code) return PCRE2_ERROR_NOSUBSTRING;
  int size = pcre2_substring_nametable_scan(m->code, name, &first, &last),
      failed = PCRE2_ERROR_UNAVAILABLE;
  if (size < 0) return size;
  for (PCRE2_SPTR e = first; e <= last; e += size) {
    int n = e[0] << 8 | e[1];
    if (n >= m->count) continue;
    if (m->ovector[2 * n] != PCRE2_UNSET) return n;
    failed = PCRE2_ERROR_UNSET;
  }
  return failed;
}

int pcre2_substring_length_byname(pcre2_match_data *m, PCRE2_SPTR name, size_t *len) {
  int n = by_name(m, name);
  return n < 0 ? n : pcre2_substring_length_bynumber(m, (uint32_t)n, len);
}

int pcre2_substring_copy_byname(pcre2_match_data *m, PCRE2_SPTR name, PCRE2_UCHAR *out,
                                size_t *room) {
  int n = by_name(m, name);
  return n < 0 ? n : pcre2_substring_copy_bynumber(m, (uint32_t)n, out, room);
}

int pcre2_substring_get_byname(pcre2_match_data *m, PCRE2_SPTR name, PCRE2_UCHAR **out,
                               size_t *len) {
  int n = by_name(m, name);
  return n < 0 ? n : pcre2_substring_get_bynumber(m, (uint32_t)n, out, len);
}

/* ---- the list ---- */

static size_t list_len(const pcre2_match_data *m, size_t i) {
  size_t from = m->ovector[2 * i], to = m->ovector[2 * i + 1];
  return from < to ? to - from : 0;
}

int pcre2_substring_list_get(pcre2_match_data *m, PCRE2_UCHAR ***list, size_t **lens) {
  if (m->rc < 0) return m->rc;
  size_t n = m->rc == 0 ? m->count : (size_t)m->rc, texts_len = 0;
  for (size_t i = 0; i < n; i++)
    texts_len += list_len(m, i) + 1;
  size_t lens_len = lens ? n * sizeof(size_t) : 0;
  uint8_t **texts = get_text(&m->memory, (n + 1) * sizeof *texts + lens_len + texts_len);
  if (!texts) return PCRE2_ERROR_NOMEMORY;
  size_t *lengths = (size_t *)(void *)(texts + n + 1);
  uint8_t *out = (uint8_t *)lengths + lens_len;
  for (size_t i = 0; i < n; i++) {
    size_t len = list_len(m, i);
    texts[i] = out;
    write_text(out, m, m->ovector[2 * i], len);
    out += len + 1;
    if (lens) lengths[i] = len;
  }
  texts[n] = NULL;
  *list = texts;
  if (lens) *lens = lengths;
  return 0;
}

void pcre2_substring_list_free(PCRE2_SPTR *list) { give_text((void *)(uintptr_t)list); }

/* ---- errors ---- */

static const struct {
  int number;
  const char *text;
} texts[] = {
    {100, "no error"},
    {PCRE2_ERROR_NULL_PATTERN, "no pattern, but a length"},
    {PCRE2_ERROR_BAD_OPTIONS, "options that there aren't or that aren't built"},
    {PCRE2_ERROR_HEAP_FAILED, "no memory for the pattern"},
    {PCRE2_ERROR_UTF_IS_DISABLED, "UTF is forbidden here"},
    {PCRE2_ERROR_UCP_IS_DISABLED, "UCP is forbidden here"},
    {PCRE2_ERROR_PATTERN_STRING_TOO_LONG, "pattern is longer than the limit that was set"},
    {PCRE2_ERROR_BAD_LITERAL_OPTIONS, "option that a literal pattern can't have"},
    {PCRE2_ERROR_NOMATCH, "no match"},
    {PCRE2_ERROR_PARTIAL, "partial match"},
    {PCRE2_ERROR_BADDATA, "bad value"},
    {PCRE2_ERROR_MIXEDTABLES, "patterns with different tables"},
    {PCRE2_ERROR_BADMAGIC, "not a compiled pattern"},
    {PCRE2_ERROR_BADMODE, "pattern of another code unit width"},
    {PCRE2_ERROR_BADOFFSET, "start is past the end of the subject"},
    {PCRE2_ERROR_BADOPTION, "bad option"},
    {PCRE2_ERROR_BADREPLACEMENT, "bad replacement"},
    {PCRE2_ERROR_BADUTFOFFSET, "start is inside a character"},
    {PCRE2_ERROR_CALLOUT, "callout that can't be made"},
    {PCRE2_ERROR_DFA_BADRESTART, "search for all ends can't be continued"},
    {PCRE2_ERROR_DFA_RECURSE, "calls of groups nested too deeply for all ends"},
    {PCRE2_ERROR_DFA_UCOND, "condition that a search for all ends can't test"},
    {PCRE2_ERROR_DFA_UFUNC, "question that a search for all ends can't answer"},
    {PCRE2_ERROR_DFA_UITEM, "item that a search for all ends can't match"},
    {PCRE2_ERROR_DFA_WSSIZE,
     "pattern or workspace is of a size that a search for all ends can't have"},
    {PCRE2_ERROR_INTERNAL, "internal error"},
    {PCRE2_ERROR_JIT_BADOPTION, "bad option of just-in-time compiling"},
    {PCRE2_ERROR_JIT_STACKLIMIT, "stack of just-in-time compiling is full"},
    {PCRE2_ERROR_MATCHLIMIT, "match limit exceeded"},
    {PCRE2_ERROR_NOMEMORY, "no memory or no room"},
    {PCRE2_ERROR_NOSUBSTRING, "no such group"},
    {PCRE2_ERROR_NOUNIQUESUBSTRING, "name of several groups"},
    {PCRE2_ERROR_NULL, "argument is NULL"},
    {PCRE2_ERROR_RECURSELOOP, "recursion at the same place"},
    {PCRE2_ERROR_DEPTHLIMIT, "depth limit exceeded"},
    {PCRE2_ERROR_UNAVAILABLE, "group isn't in the vector"},
    {PCRE2_ERROR_UNSET, "value is unset"},
    {PCRE2_ERROR_BADOFFSETLIMIT, "offset limit without PCRE2_USE_OFFSET_LIMIT"},
    {PCRE2_ERROR_BADREPESCAPE, "bad escape in replacement"},
    {PCRE2_ERROR_REPMISSINGBRACE, "missing brace in replacement"},
    {PCRE2_ERROR_BADSUBSTITUTION, "bad substitution"},
    {PCRE2_ERROR_BADSUBSPATTERN, "match whose end is before its start"},
    {PCRE2_ERROR_TOOMANYREPLACE, "too many replacements"},
    {PCRE2_ERROR_BADSERIALIZEDDATA, "bad serialized patterns"},
    {PCRE2_ERROR_HEAPLIMIT, "heap limit exceeded"},
    {PCRE2_ERROR_CONVERT_SYNTAX, "bad pattern to convert"},
    {PCRE2_ERROR_INTERNAL_DUPMATCH, "internal error: the same match twice"},
    {PCRE2_ERROR_DFA_UINVALID_UTF, "search for all ends can't search in invalid UTF"},
};

/* The text of an error, and its length; 0 where there is no such error. */
static size_t message(int number, char *out, size_t room) {
  for (size_t i = 0; i < sizeof texts / sizeof *texts; i++) {
    if (texts[i].number == number) return (size_t)snprintf(out, room, "%s", texts[i].text);
  }
  if (number <= PCRE2_ERROR_UTF8_ERR1 && number >= PCRE2_ERROR_UTF32_ERR2)
    return (size_t)snprintf(out, room, "invalid UTF, of kind %d",
                            PCRE2_ERROR_UTF8_ERR1 + 1 - number);
  if (number <= 100 || number > PCRE2_ERROR_BACKSLASH_K_IN_LOOKAROUND) return 0;
  size_t len = door_fault_text(number, (uint8_t *)out, room);
  return len ? len : (size_t)snprintf(out, room, "fault %d of a pattern", number);
}

int pcre2_get_error_message(int number, PCRE2_UCHAR *out, size_t room) {
  char text[256];
  if (room == 0) return PCRE2_ERROR_NOMEMORY;
  size_t len = message(number, text, sizeof text);
  if (len > sizeof text) len = sizeof text;
  size_t n = len < room ? len : room - 1;
  memcpy(out, text, n);
  out[n] = 0;
  if (len == 0) return PCRE2_ERROR_BADDATA;
  return len < room ? (int)len : PCRE2_ERROR_NOMEMORY;
}
