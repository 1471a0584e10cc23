/* Serialized codes: the pattern and what it was compiled with, which is compiled again
   (pcre2serialize). They serve the library that wrote them, and aren't to be read from where they
   can't be trusted. */
#include "library.h"

#include <string.h>

#define SERIAL_MAGIC 0x31726f6fu

struct head {
  uint32_t magic, count;
};
struct row {
  uint32_t options, extra, newline, bsr, len;
};

int32_t pcre2_serialize_encode(const pcre2_code **codes, int32_t n, uint8_t **out, size_t *out_len,
                               pcre2_general_context *g) {
  if (!codes || !out || !out_len) return PCRE2_ERROR_NULL;
  if (n <= 0) return PCRE2_ERROR_BADDATA;
  struct head head = {SERIAL_MAGIC, (uint32_t)n};
  size_t size = sizeof head;
  for (int32_t i = 0; i < n; i++) {
    if (!codes[i]) return PCRE2_ERROR_NULL;
    if (codes[i]->magic != MAGIC) return PCRE2_ERROR_BADMAGIC;
    size += sizeof(struct row) + codes[i]->text_len;
  }
  uint8_t *block = get_text(g ? &g->memory : &plain_memory, size), *at = block;
  if (!block) return PCRE2_ERROR_NOMEMORY;
  memcpy(at, &head, sizeof head);
  at += sizeof head;
  for (int32_t i = 0; i < n; i++) {
    const pcre2_code *c = codes[i];
    struct row row = {c->options, c->extra, c->newline, c->bsr, (uint32_t)c->text_len};
    memcpy(at, &row, sizeof row);
    memcpy(at + sizeof row, c->text, c->text_len);
    at += sizeof row + c->text_len;
  }
  *out = block;
  *out_len = size;
  return n;
}

int32_t pcre2_serialize_get_number_of_codes(const uint8_t *block) {
  struct head head;
  if (!block) return PCRE2_ERROR_NULL;
  memcpy(&head, block, sizeof head);
  return head.magic == SERIAL_MAGIC ? (int32_t)head.count : PCRE2_ERROR_BADMAGIC;
}

int32_t pcre2_serialize_decode(pcre2_code **codes, int32_t n, const uint8_t *block,
                               pcre2_general_context *g) {
  if (!codes || !block) return PCRE2_ERROR_NULL;
  if (n <= 0) return PCRE2_ERROR_BADDATA;
  int32_t all = pcre2_serialize_get_number_of_codes(block);
  if (all < 0) return all;
  if (all == 0) return PCRE2_ERROR_BADSERIALIZEDDATA;
  if (n > all) n = all;
  block += sizeof(struct head);
  for (int32_t i = 0; i < n; i++) {
    struct row row;
    int error;
    size_t at;
    memcpy(&row, block, sizeof row);
    pcre2_compile_context with = plain_compile;
    if (g) with.memory = g->memory;
    with.newline = row.newline;
    with.bsr = row.bsr;
    with.extra = row.extra;
    codes[i] = pcre2_compile(block + sizeof row, row.len, row.options, &error, &at, &with);
    if (!codes[i]) {
      while (i > 0)
        pcre2_code_free(codes[--i]);
      return error == PCRE2_ERROR_HEAP_FAILED ? PCRE2_ERROR_NOMEMORY
                                              : PCRE2_ERROR_BADSERIALIZEDDATA;
    }
    block += sizeof row + row.len;
  }
  return n;
}

void pcre2_serialize_free(uint8_t *block) { give_text(block); }
