/* Whether calls without memory end as welungad.h says: each allocation of a call is refused in turn, and then all from it on.
 * The status is WELUNGAD_NO_MEMORY with "no memory\n", or the call's own answer, and no block is left. welungad_read allocates nothing.
 * Linked with --wrap. */
#include <stdio.h>
#include <stdlib.h>
#include <string.h>
#include "welungad.h"

#define MOST 65536

void *__real_malloc(size_t size);
void *__real_realloc(void *block, size_t size);
void __real_free(void *block);

/* Allocations so far, the first one that is refused (0: none), whether all after it are, and the blocks that are left. */
static long made, refused, left;
static int all_after, counting;

static int is_refused(void) {
  if (!counting) return 0;
  made++;
  return refused && (made == refused || (all_after && made > refused));
}

void *__wrap_malloc(size_t size) {
  void *block = is_refused() ? NULL : __real_malloc(size);
  if (counting && block) left++;
  return block;
}

void *__wrap_realloc(void *old, size_t size) {
  void *block = is_refused() ? NULL : __real_realloc(old, size);
  if (counting && block && !old) left++;
  return block;
}

void __wrap_free(void *block) {
  if (counting && block) left--;
  __real_free(block);
}

static const char CASE[] =
    "alpha 0.05\nhypotheses A B C\np 0.01 0.02 0.9\nweights 1/2 1/2 0\nedge A B 1-\\epsilon\nedge A C \\epsilon\nedge B A 1\n";
static const char STAGED[] =
    "alpha 0.05\nhypotheses A B\nweights 1/2 1/2\nedge A B 1\nstages 2\nspend A 1/2 1/2\ntable B 1/2 1/100 1/100\n"
    "arrive A 1 0.01\narrive B 2 0.02\n";

static int findings = 0;

/* A call, its status, and its text. */
struct call {
  const char *words;
  size_t words_len;
  const char *kase;
  const char *proof;
  size_t proof_len;
};

static uint8_t run(const struct call *it, char *out, size_t *needed) {
  return welungad_run((const uint8_t *)it->words, it->words_len, (const uint8_t *)it->kase, strlen(it->kase),
                      (const uint8_t *)it->proof, it->proof_len, (uint8_t *)out, MOST, needed);
}

/* Makes a call with one allocation refused, and returns whether it was answered as without memory. */
static int refuse(const struct call *it, long at, uint8_t status, const char *text, size_t length) {
  static char out[MOST];
  size_t needed = 0;
  uint8_t got;
  int is_out, is_own;
  made = 0;
  left = 0;
  refused = at;
  got = run(it, out, &needed);
  is_out = got == WELUNGAD_NO_MEMORY && needed == 10 && memcmp(out, "no memory\n", 10) == 0;
  is_own = got == status && needed == length && memcmp(out, text, length) == 0;
  if (left != 0 || !(is_out || (is_own && !all_after))) {
    findings++;
    fprintf(stderr, "%s: allocation %ld refused: status %d, %zu bytes, %ld blocks left\n", it->words, at, got, needed, left);
  }
  return is_out;
}

static void try_call(struct call it) {
  static char own[MOST];
  size_t length = 0;
  long count, at, out_of_memory = 0;
  uint8_t status;
  counting = 1;
  refused = 0;
  made = 0;
  left = 0;
  status = run(&it, own, &length);
  count = made;
  if (status != WELUNGAD_DONE || left != 0) {
    findings++;
    fprintf(stderr, "%s: status %d, %ld blocks left\n", it.words, status, left);
  }
  for (all_after = 0; all_after < 2; all_after++)
    for (at = 1; at <= count; at++) out_of_memory += refuse(&it, at, status, own, length);
  counting = 0;
  fprintf(stderr, "%s: %ld allocations, %ld of %ld calls out of memory\n", it.words, count, out_of_memory, 2 * count);
}

/* Decides a row of CASE with one allocation refused, none if it is number 0, and returns whether that was out of memory, with nothing
 * written. */
static int refuse_rows(long at) {
  uint8_t rejected[3] = {9, 9, 9}, status = 9, got;
  uint64_t p[3] = {0, 0, 0};
  int is_out, is_own;
  made = 0;
  left = 0;
  refused = at;
  got = welungad_test_rows((const uint8_t *)CASE, strlen(CASE), p, 3, rejected, 3, &status, 1);
  is_out = got == WELUNGAD_NO_MEMORY && rejected[0] == 9 && rejected[1] == 9 && rejected[2] == 9 && status == 9;
  is_own = got == WELUNGAD_DONE && rejected[0] == 1 && rejected[1] == 1 && rejected[2] == 1 && status == WELUNGAD_DONE;
  if (left != 0 || !(at ? is_out || (is_own && !all_after) : is_own)) {
    findings++;
    fprintf(stderr, "rows: allocation %ld refused: status %d, %ld blocks left\n", at, got, left);
  }
  return is_out;
}

static void try_rows(void) {
  long count, at, out_of_memory = 0;
  counting = 1;
  refuse_rows(0);
  count = made;
  for (all_after = 0; all_after < 2; all_after++)
    for (at = 1; at <= count; at++) out_of_memory += refuse_rows(at);
  counting = 0;
  fprintf(stderr, "rows: %ld allocations, %ld of %ld calls out of memory\n", count, out_of_memory, 2 * count);
}

/* By hand: 1/2 + 1/2 * (1 - epsilon) is (2 - epsilon)/2, and epsilon / (1 - (1 - epsilon)) is 1. */
static const char UPDATED[] = "component 1\nweight B [2,-1]/[2]\nedge B C 1\nweight C [0,1]/[2]\nlevel B 1\nlevel C 0\nend\n";

/* Updates CASE with one allocation refused, none if it is number 0, and returns whether that was out of memory. */
static int refuse_update(long at) {
  static uint8_t out[MOST];
  const size_t first[1] = {0};
  size_t needed = 0;
  uint8_t got;
  int is_out, is_own;
  made = 0;
  left = 0;
  refused = at;
  got = welungad_update((const uint8_t *)CASE, strlen(CASE), first, 1, out, MOST, &needed);
  is_out = got == WELUNGAD_NO_MEMORY && needed == 10 && memcmp(out, "no memory\n", 10) == 0;
  is_own = got == WELUNGAD_DONE && needed == strlen(UPDATED) && memcmp(out, UPDATED, needed) == 0;
  if (left != 0 || !(at ? is_out || (is_own && !all_after) : is_own)) {
    findings++;
    fprintf(stderr, "update: allocation %ld refused: status %d, %ld blocks left\n", at, got, left);
  }
  return is_out;
}

static void try_update(void) {
  long count, at, out_of_memory = 0;
  counting = 1;
  refuse_update(0);
  count = made;
  for (all_after = 0; all_after < 2; all_after++)
    for (at = 1; at <= count; at++) out_of_memory += refuse_update(at);
  counting = 0;
  fprintf(stderr, "update: %ld allocations, %ld of %ld calls out of memory\n", count, out_of_memory, 2 * count);
}

/* Whether the call that reads doubles allocates nothing. */
static void try_reading(void) {
  const uint64_t bits[4] = {0x3fd5555555555555u, 0x3fd3333333333334u, 1, 0x7ff8000000000000u};
  uint64_t words[16];
  uint8_t status;
  counting = 1;
  refused = 0;
  made = 0;
  status = welungad_read(bits, 4, words, 16);
  counting = 0;
  if (status != WELUNGAD_DONE || words[2] != 3 || made) {
    findings++;
    fprintf(stderr, "read: status %d, %ld allocations\n", status, made);
  }
}

int main(void) {
  static char proof[MOST];
  size_t length = 0;
  struct call evidence = {"evidence", 9, CASE, "", 0};
  if (run(&evidence, proof, &length) != WELUNGAD_DONE) return 1;
  try_call((struct call){"test", 5, CASE, "", 0});
  try_call((struct call){"weights", 8, CASE, "", 0});
  try_call((struct call){"bounds", 7, CASE, "", 0});
  try_call((struct call){"simes", 6, CASE, "", 0});
  try_call(evidence);
  try_call((struct call){"check\0-", 8, CASE, proof, length});
  try_call((struct call){"stages", 7, STAGED, "", 0});
  try_call((struct call){"canon\0--to\0json", 16, CASE, "", 0});
  try_rows();
  try_update();
  try_reading();
  fprintf(stderr, "test_memory: %d findings\n", findings);
  return findings != 0;
}
