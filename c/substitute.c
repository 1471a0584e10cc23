/* Substitution (pcre2api, "Creating a new string with substitutions"). */
#include "library.h"

#include <string.h>

#define SUBSTITUTE_OPTIONS                                                                        \
  (PCRE2_SUBSTITUTE_GLOBAL | PCRE2_SUBSTITUTE_EXTENDED | PCRE2_SUBSTITUTE_UNSET_EMPTY |           \
   PCRE2_SUBSTITUTE_UNKNOWN_UNSET | PCRE2_SUBSTITUTE_OVERFLOW_LENGTH | PCRE2_SUBSTITUTE_LITERAL | \
   PCRE2_SUBSTITUTE_MATCHED | PCRE2_SUBSTITUTE_REPLACEMENT_ONLY)

/* A text, with the place of no bytes where it has none. */
struct part {
  const uint8_t *bytes;
  size_t len;
};

static struct door_subst_asked asked_of(uint32_t o) {
  return (struct door_subst_asked){
      .global = o & PCRE2_SUBSTITUTE_GLOBAL,
      .extended = o & PCRE2_SUBSTITUTE_EXTENDED,
      .literal = o & PCRE2_SUBSTITUTE_LITERAL,
      .unset_empty = o & PCRE2_SUBSTITUTE_UNSET_EMPTY,
      .unknown_unset = o & PCRE2_SUBSTITUTE_UNKNOWN_UNSET,
      .replacement_only = o & PCRE2_SUBSTITUTE_REPLACEMENT_ONLY,
  };
}

/* The kind of bad UTF-8 in the subject or else in the replacement. */
static int utf_fault(const struct part *subject, const struct part *by) {
  size_t n, at = valid_to(subject->bytes, 0, subject->len);
  if (at < subject->len) return character_fault(subject->bytes + at, subject->len - at, &n);
  at = valid_to(by->bytes, 0, by->len);
  return at < by->len ? character_fault(by->bytes + at, by->len - at, &n) : PCRE2_ERROR_UTF8_ERR1;
}

/* The count of replacements, where there is room for a text of so many bytes and a zero; the room's
 * length becomes the text's. */
static int tell(uint64_t count, size_t len, uint32_t options, uint8_t *out, size_t *room) {
  size_t most = *room;
  *room = PCRE2_UNSET;
  if (count > INT_MAX) return PCRE2_ERROR_TOOMANYREPLACE;
  if (len >= most) {
    if (options & PCRE2_SUBSTITUTE_OVERFLOW_LENGTH) *room = len + 1;
    return PCRE2_ERROR_NOMEMORY;
  }
  out[len] = 0;
  *room = len;
  return (int)count;
}

/* The count of replacements, or why there are none. */
static int replace(pcre2_match_data *m, const struct part *subject, size_t start, uint32_t options,
                   const pcre2_match_context *with, const struct part *by, uint8_t *out,
                   size_t *room) {
  bool by_depth;
  uint8_t none[1];
  size_t most = *room;
  struct door_match_asked asked = match_asked(options, with, &by_depth);
  struct door_subst_asked how = asked_of(options);
  struct door_subst_answer a = door_replace(&m->own, subject->bytes, subject->len, start, &asked,
                                            &how, by->bytes, by->len, most ? out : none, most);
  if (a.code == 0) return tell(a.count, a.len, options, out, room);
  *room = PCRE2_UNSET;
  return a.code == PCRE2_ERROR_UTF8_ERR1 ? utf_fault(subject, by) : limit_code(a.code, by_depth);
}

/* The subject with nothing replaced. */
static int keep(const struct part *subject, uint32_t options, uint8_t *out, size_t *room) {
  size_t len = options & PCRE2_SUBSTITUTE_REPLACEMENT_ONLY ? 0 : subject->len;
  if (len < *room) memcpy(out, subject->bytes, len);
  return tell(0, len, options, out, room);
}

/* Under an offset limit a first match behind it isn't replaced. Whether a further one is isn't told
 * by the door. */
static int replace_limited(pcre2_match_data *m, const struct part *subject, size_t start,
                           uint32_t options, pcre2_match_context *with, const struct part *by,
                           uint8_t *out, size_t *room) {
  int rc = PCRE2_ERROR_BADOFFSETLIMIT;
  if (!(options & PCRE2_SUBSTITUTE_GLOBAL))
    rc =
        pcre2_match(m->code, subject->bytes, subject->len, start, options & MATCH_OPTIONS, m, with);
  if (rc == PCRE2_ERROR_NOMATCH) return keep(subject, options, out, room);
  if (rc >= 0) return replace(m, subject, start, options, with, by, out, room);
  *room = PCRE2_UNSET;
  return rc;
}

int pcre2_substitute(const pcre2_code *c, PCRE2_SPTR subject, size_t len, size_t start,
                     uint32_t options, pcre2_match_data *m, pcre2_match_context *mc, PCRE2_SPTR by,
                     size_t by_len, PCRE2_UCHAR *out, size_t *room) {
  const pcre2_match_context *with = mc ? mc : &plain_match;
  if (!c || !room || (!by && by_len != 0) || (!out && *room != 0)) return PCRE2_ERROR_NULL;
  if (options & ~(MATCH_OPTIONS | SUBSTITUTE_OPTIONS) ||
      options & (PCRE2_PARTIAL_HARD | PCRE2_PARTIAL_SOFT))
    return PCRE2_ERROR_BADOPTION;
  if (options & PCRE2_SUBSTITUTE_MATCHED && !m) return PCRE2_ERROR_NULL;
  if (with->substitute_callout)
    return PCRE2_ERROR_CALLOUT; /* substitution callouts aren't served */
  /* The match of SUBSTITUTE_MATCHED is found again: it is that of the same code, subject and
   * options. */
  bool is_own = !m || options & PCRE2_SUBSTITUTE_MATCHED;
  if (is_own) m = pcre2_match_data_create(1, NULL);
  int rc = m ? begin_match(m, c, &subject, &len, start, options, with) : PCRE2_ERROR_NOMEMORY;
  if (rc == 0) {
    if (by_len == PCRE2_ZERO_TERMINATED) by_len = strlen((const char *)by);
    struct part text = {subject, len}, replacement = {by ? by : nothing, by_len};
    rc = with->offset_limit == PCRE2_UNSET
             ? replace(m, &text, start, options, with, &replacement, out, room)
             : replace_limited(m, &text, start, options, mc, &replacement, out, room);
  } else {
    *room = PCRE2_UNSET;
  }
  if (is_own) pcre2_match_data_free(m);
  return rc;
}
