/* What the proved crate c_door exports. Nothing compares these declarations with crates/c_door/src:
   a change of one is a change of both. A slice crosses as a pointer, which is never null, and a
   length; a Global crosses as nothing. The duties of who calls these stand in
   crates/c_door/README.md. */
#ifndef DOOR_H
#define DOOR_H

#include <stdbool.h>
#include <stddef.h>
#include <stdint.h>

struct door_handle {
  void *at;
};

struct door_asked {
  bool anchored, endanchored, caseless, multiline, dotall, extended, extended_more, dollar_endonly,
      dupnames, firstline, literal, no_auto_capture, ungreedy, utf, ucp, allow_empty_class,
      match_unset_backref, no_start_optimize, auto_callout;
  uint8_t newline, bsr;
};

struct door_match_asked {
  bool anchored, endanchored, notbol, noteol, notempty, notempty_atstart, dfa_shortest;
  uint8_t partial;
  uint32_t match_limit, frame_limit;
  uint64_t offset_limit;
};

struct door_subst_asked {
  bool global, extended, literal, unset_empty, unknown_unset, replacement_only;
};

struct door_fault {
  int32_t number;
  size_t at;
};
struct door_answer {
  int32_t code;
  uint32_t top;
  bool marked;
  uint64_t mark;
  size_t at;
};
struct door_pair {
  uint64_t from, to;
};
struct door_run {
  size_t from, to;
};
struct door_ends_answer {
  int32_t code;
  size_t at, count;
};
struct door_subst_answer {
  int32_t code;
  uint64_t count;
  size_t len;
};
struct door_named {
  uint32_t group;
  size_t len;
};

struct door_told {
  uint32_t groups, max_lookbehind, match_limit;
  bool limits, can_be_empty, utf, ucp, anchored, no_start_optimize;
  uint8_t newline, bsr;
  size_t names;
};

int32_t door_compile(const uint8_t *pattern, size_t len, const struct door_asked *,
                     struct door_handle *, struct door_fault *);
int32_t door_compile_around(const uint8_t *pattern, size_t len, const struct door_asked *,
                            bool line, struct door_handle *, struct door_fault *);
struct door_answer door_match(struct door_handle *, const uint8_t *subject, size_t len,
                              size_t start, const struct door_match_asked *,
                              struct door_pair *places, size_t n, uint8_t *mark, size_t room);
struct door_answer door_match_checked(struct door_handle *, const uint8_t *subject, size_t len,
                                      size_t start, const struct door_match_asked *,
                                      struct door_pair *places, size_t n, uint8_t *mark,
                                      size_t room);
struct door_answer door_match_runs(struct door_handle *, const uint8_t *subject, size_t len,
                                   size_t start, const struct door_match_asked *,
                                   struct door_pair *places, size_t n, uint8_t *mark, size_t room,
                                   struct door_run *);
struct door_ends_answer door_ends(struct door_handle *, const uint8_t *subject, size_t len,
                                  size_t start, const struct door_match_asked *, uint64_t *ends,
                                  size_t n);
struct door_subst_answer door_replace(struct door_handle *, const uint8_t *subject, size_t len,
                                      size_t start, const struct door_match_asked *,
                                      const struct door_subst_asked *, const uint8_t *replacement,
                                      size_t replacement_len, uint8_t *out, size_t room);
int32_t door_share(struct door_handle *, struct door_handle *other);
struct door_told door_info(struct door_handle *);
int32_t door_first_byte(struct door_handle *);
struct door_named door_name(struct door_handle *, size_t i, uint8_t *out, size_t room);
size_t door_mark(struct door_handle *, uint32_t id, uint8_t *out, size_t room);
size_t door_fault_text(int32_t number, uint8_t *out, size_t room);
void door_free(struct door_handle *);

#endif
