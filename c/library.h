/* What the files of the library share. */
#ifndef LIBRARY_H
#define LIBRARY_H

#define PCRE2_CODE_UNIT_WIDTH 8
#pragma GCC visibility push(default)
#include "pcre2.h"
#pragma GCC visibility pop

#include "door.h"

#define MOST_SUBJECT 4294967294u /* the door takes fewer than 4,294,967,295 bytes */
#define MARK_ROOM 256            /* a mark has at most 255 bytes */
#define TABLES 1088
#define UNIT 80 /* the bytes of a unit of the frame limit */

/* Where blocks come from: what pcre2_general_context_create() was given. */
struct memory {
  void *(*get)(size_t, void *);
  void (*give)(void *, void *);
  void *data;
};

struct pcre2_general_context_of_8 {
  struct memory memory;
};

struct pcre2_compile_context_of_8 {
  struct memory memory;
  uint32_t newline, bsr, parens_limit, extra;
  size_t most_pattern;
  const uint8_t *tables;
};

struct pcre2_match_context_of_8 {
  struct memory memory;
  uint32_t match_limit, depth_limit, heap_limit;
  size_t offset_limit;
  int (*callout)(pcre2_callout_block *, void *);
  int (*substitute_callout)(pcre2_substitute_callout_block *, void *);
};

struct pcre2_convert_context_of_8 {
  struct memory memory;
  uint32_t escape, separator;
};

struct pcre2_jit_stack_of_8 {
  struct memory memory;
};

struct shared; /* what a code shares with its match data */

struct pcre2_code_of_8 {
  uint64_t magic;
  struct memory memory;
  struct shared *shared;
  struct door_told told;
  uint32_t options, extra, newline, bsr;
  const uint8_t *tables;
  uint8_t *text;
  size_t text_len;
  uint8_t *names; /* as PCRE2_INFO_NAMETABLE lays them out */
  uint32_t name_count, name_size;
  size_t reach; /* how many characters before its start a search looks at, or more */
  bool jchanged, has_callouts;
};

struct pcre2_match_data_of_8 {
  struct memory memory;
  const pcre2_code *code;
  struct shared *shared; /* of the code of the handle, or NULL */
  struct door_handle own;
  const uint8_t *subject;
  size_t subject_len;
  uint8_t *copied;
  int rc;
  bool by_dfa, has_mark;
  uint8_t mark[MARK_ROOM];
  uint32_t groups;
  size_t startchar;
  uint16_t count;
  size_t ovector[];
};

#define MAGIC 0x77617075726f6b65u

extern const struct memory plain_memory;
extern const pcre2_compile_context plain_compile;
extern const pcre2_match_context plain_match;
extern const uint8_t nothing[1]; /* a slice of no bytes has a place, too */

void *get_block(const struct memory *, size_t);
void give_block(const struct memory *, void *);
/* A block that is given back by its place alone. */
void *get_text(const struct memory *, size_t);
void give_text(void *);

/* What is wrong with the character at s, of which n bytes are left; 0 and its length where nothing
 * is. */
int character_fault(const uint8_t *s, size_t n, size_t *len);
/* How far the text is UTF-8, from a place on. */
size_t valid_to(const uint8_t *s, size_t from, size_t len);

/* A handle of the code for match data, of which a workspace is used by nobody else; false for want
 * of memory. */
bool lend_handle(struct shared *, struct door_handle *);
/* Takes it back. */
void take_back(struct shared *, struct door_handle *);

/* Match data of this code, ready for a search: 0, or why there is none. */
int begin_match(pcre2_match_data *, const pcre2_code *, PCRE2_SPTR *subject, size_t *len,
                size_t start, uint32_t options, const pcre2_match_context *);
struct door_match_asked match_asked(uint32_t options, const pcre2_match_context *, bool *by_depth);
int limit_code(int32_t code, bool by_depth);
bool take_handle(pcre2_match_data *, const pcre2_code *);

#define MATCH_OPTIONS                                                                      \
  (PCRE2_ANCHORED | PCRE2_ENDANCHORED | PCRE2_NOTBOL | PCRE2_NOTEOL | PCRE2_NOTEMPTY |     \
   PCRE2_NOTEMPTY_ATSTART | PCRE2_NO_UTF_CHECK | PCRE2_PARTIAL_HARD | PCRE2_PARTIAL_SOFT | \
   PCRE2_NO_JIT | PCRE2_COPY_MATCHED_SUBJECT)

#endif
