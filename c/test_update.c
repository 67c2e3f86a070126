/* Whether welungad_update does what welungad.h says: graphs by hand, each room, each status, no pointers, threads with small stacks;
 * and then hostile calls: test_update [CALLS].
 *
 * All blocks have exactly the lengths that are handed in, so that valgrind reports a read or a write past them. */
#include <pthread.h>
#include <stdint.h>
#include <stdio.h>
#include <stdlib.h>
#include <string.h>
#include "welungad.h"

#define STACK (512 * 1024)
#define NOT_WRITTEN 0xAA
#define MOST 65536

static int findings = 0;

#define MUST(holds)                                           \
  do {                                                        \
    if (!(holds)) {                                           \
      findings++;                                             \
      fprintf(stderr, "line %d: not %s\n", __LINE__, #holds); \
    }                                                         \
  } while (0)

static const char HOLM[] =
    "alpha 0.025\nhypotheses H1 H2 H3\nweights 1/3 1/3 1/3\n"
    "edge H1 H2 1/2\nedge H1 H3 1/2\nedge H2 H1 1/2\nedge H2 H3 1/2\nedge H3 H1 1/2\nedge H3 H2 1/2\n";

static const char DIABETES[] =
    "alpha 0.025\nhypotheses H1 H2 H3 H4\np 0.018 0.01 0.105 0.006\nweights 1/2 1/2 0 0\n"
    "edge H1 H2 1/2\nedge H1 H3 1/2\nedge H2 H1 1/2\nedge H2 H4 1/2\nedge H3 H2 1\nedge H4 H1 1\n";

static const char EPSILON[] =
    "alpha 0.05\nhypotheses A B C\nweights 1 0 0\nedge A B 1-\\epsilon\nedge A C \\epsilon\nedge B A 1\n";

static const char ENTANGLED[] =
    "alpha 0.05\nhypotheses A B C D\ncomponent 1/2\nweights 1 0 0 0\nedge A C 1\nedge C B 1\n"
    "component 1/2\nweights 0 1 0 0\nedge B C 1\nedge C D 1\n";

static const char STAGED[] =
    "alpha 0.05\nhypotheses A B\nweights 1/2 1/2\nedge A B 1\nstages 2\nspend A 1/2 1/2\ntable B 1/2 1/100 1/100\n";

/* The weights have the denominators of all edges before them. The third product would have one near 10^54, so H3 cannot be removed. */
static const char CHAIN[] =
    "alpha 0.05\nhypotheses H1 H2 H3 H4\nweights 1 0 0 0\nedge H1 H2 1/1000000000000000000\n"
    "edge H2 H3 1/999999999999999999\nedge H3 H4 1/999999999999999997\n";

/* The terms of the edge are added up before the first removal, with a denominator near 10^54. */
static const char WIDE_OPENING[] =
    "alpha 0.05\nhypotheses H1 H2\nweights 1 0\n"
    "edge H1 H2 1/1000000000000000000 + 1/999999999999999999*\\epsilon + 1/999999999999999997*\\epsilon^2\n";

/* Returns a block of exactly this length, whose bytes are not written. */
static void *block(size_t length) {
  void *it = malloc(length ? length : 1);
  if (!it) abort();
  return memset(it, NOT_WRITTEN, length ? length : 1);
}

/* Returns a copy of bytes in a block of exactly their length. */
static void *copy(const void *bytes, size_t length) {
  void *it = block(length);
  if (length) memcpy(it, bytes, length);
  return it;
}

/* Makes a call with blocks of exactly these lengths, and holds it to its status, to the length of the whole text and to the bytes that
 * are put; those after them must stay. */
static int puts_text(const char *kase, size_t kase_len, const size_t *removed, size_t removed_len, size_t room, uint8_t status,
                     const char *text) {
  uint8_t *given = copy(kase, kase_len), *out = block(room);
  size_t *positions = copy(removed, removed_len * sizeof *removed);
  size_t needed = 77, length = strlen(text), put = length < room ? length : room, k;
  int holds = welungad_update(given, kase_len, positions, removed_len, out, room, &needed) == status;
  holds = holds && needed == length && memcmp(out, text, put) == 0;
  for (k = put; holds && k < room; k++) holds = out[k] == NOT_WRITTEN;
  free(given);
  free(positions);
  free(out);
  return holds;
}

#define GRAPH_OF(kase, text, ...)                                                                                             \
  MUST(puts_text(kase, strlen(kase), (const size_t[]){__VA_ARGS__}, sizeof((size_t[]){__VA_ARGS__}) / sizeof(size_t), 1024, \
                 WELUNGAD_DONE, text))

static void graphs_by_hand(void) {
  MUST(puts_text(STAGED, strlen(STAGED), NULL, 0, 512, WELUNGAD_DONE,
                 "component 1\nweight A 1/2\nedge A B 1\nweight B 1/2\nlevel A 1/2\nlevel B 1/2\nend\n"));
  GRAPH_OF(STAGED, "component 1\nweight B 1\nlevel B 1\nend\n", 0);
  GRAPH_OF(STAGED, "component 1\nend\n", 0, 1);
  /* 1/2 + 1/2 * 1/2 = 3/4, and 1/2 / (1 - 1/4) = 2/3 */
  GRAPH_OF(DIABETES,
           "component 1\nweight H1 3/4\nedge H1 H3 2/3\nedge H1 H4 1/3\nweight H3 0\nedge H3 H1 1/2\nedge H3 H4 1/2\n"
           "weight H4 1/4\nedge H4 H1 1\nlevel H1 3/4\nlevel H3 0\nlevel H4 1/4\nend\n",
           1);
  /* 1/4 + 3/4 * 1/3 = 1/2, and (1/2 + 1/2 * 1/3) / (1 - 1/2 * 2/3) = 1 */
  GRAPH_OF(DIABETES,
           "component 1\nweight H3 1/2\nedge H3 H4 1\nweight H4 1/2\nedge H4 H3 1\nlevel H3 1/2\nlevel H4 1/2\nend\n", 1, 0);
  GRAPH_OF(HOLM, "component 1\nweight H1 1/2\nedge H1 H3 1\nweight H3 1/2\nedge H3 H1 1\nlevel H1 1/2\nlevel H3 1/2\nend\n", 1);
  /* epsilon / (1 - (1 - epsilon)) = 1 */
  GRAPH_OF(EPSILON, "component 1\nweight B [1,-1]/[1]\nedge B C 1\nweight C [0,1]/[1]\nlevel B 1\nlevel C 0\nend\n", 0);
  GRAPH_OF(EPSILON, "component 1\nweight C 1\nlevel C 1\nend\n", 0, 1);
  GRAPH_OF(ENTANGLED,
           "component 1\nweight B 1\nweight D 0\ncomponent 2\nweight B 1\nedge B D 1\nweight D 0\nlevel B 1\nlevel D 0\nend\n", 0, 2);
}

static void each_room(void) {
  static const char text[] = "component 1\nweight H2 1/2\nedge H2 H3 1\nweight H3 1/2\nedge H3 H2 1\nlevel H2 1/2\nlevel H3 1/2\nend\n";
  const size_t first[] = {0};
  size_t whole = strlen(text), room;
  for (room = 0; room < whole + 4; room++)
    MUST(puts_text(HOLM, strlen(HOLM), first, 1, room, room < whole ? WELUNGAD_ROOM : WELUNGAD_DONE, text));
}

static void each_refusal(void) {
  static const char bad[] = "alpha 2\n", long_part[] = "alpha 1/100000\nhypotheses A\nweights 1\n";
  const size_t order[] = {0, 1, 2, 3}, past[] = {3}, twice[] = {2, 0, 2}, last[] = {SIZE_MAX};
  MUST(puts_text("", 0, NULL, 0, 64, WELUNGAD_MALFORMED, "malformed: line 1: ended\n"));
  MUST(puts_text("", 0, past, 1, 64, WELUNGAD_MALFORMED, "malformed: line 1: ended\n"));
  MUST(puts_text(bad, strlen(bad), NULL, 0, 3, WELUNGAD_ROOM, "malformed: line 2: ended\n"));
  MUST(puts_text(long_part, strlen(long_part), NULL, 0, 64, WELUNGAD_LIMIT, "limit: case: part alpha\n"));
  MUST(puts_text(HOLM, strlen(HOLM), past, 1, 64, WELUNGAD_LENGTHS, ""));
  MUST(puts_text(HOLM, strlen(HOLM), twice, 3, 64, WELUNGAD_LENGTHS, ""));
  MUST(puts_text(HOLM, strlen(HOLM), last, 1, 64, WELUNGAD_LENGTHS, ""));
  MUST(puts_text(HOLM, strlen(HOLM), order, 4, 64, WELUNGAD_LENGTHS, ""));
  MUST(puts_text(WIDE_OPENING, strlen(WIDE_OPENING), twice, 3, 128, WELUNGAD_LENGTHS, ""));
  MUST(puts_text(WIDE_OPENING, strlen(WIDE_OPENING), order, 1, 128, WELUNGAD_TOO_WIDE,
                 "too wide: step 0: component 1 edge H1 H2 add\n"));
  MUST(puts_text(CHAIN, strlen(CHAIN), order, 4, 128, WELUNGAD_TOO_WIDE, "too wide: step 3: component 1 weight of H4 mul\n"));
}

/* A NULL for nothing is answered as another pointer to nothing. */
static void no_pointers(void) {
  size_t needed = 77;
  MUST(welungad_update(NULL, 0, NULL, 0, NULL, 0, &needed) == WELUNGAD_ROOM && needed == 25);
  needed = 77;
  MUST(welungad_update((const uint8_t *)HOLM, strlen(HOLM), NULL, 0, NULL, 0, &needed) == WELUNGAD_ROOM && needed != 77);
}

/* A NULL of another length than 0, or for needed, is refused, and nothing is written. */
static void missing_pointers(void) {
  const uint8_t *kase = (const uint8_t *)HOLM;
  const size_t first[] = {0};
  size_t len = strlen(HOLM), needed = 77;
  uint8_t out[512];
  memset(out, 9, sizeof out);
  MUST(welungad_update(NULL, len, first, 1, out, sizeof out, &needed) == WELUNGAD_LENGTHS);
  MUST(welungad_update(kase, len, NULL, 1, out, sizeof out, &needed) == WELUNGAD_LENGTHS);
  MUST(welungad_update(kase, len, first, 1, NULL, 1, &needed) == WELUNGAD_LENGTHS);
  MUST(welungad_update(kase, len, first, 1, out, sizeof out, NULL) == WELUNGAD_LENGTHS);
  MUST(needed == 77 && out[0] == 9 && memcmp(out, out + 1, sizeof out - 1) == 0);
}

/* ---- threads */

static void *in_thread(void *unused) {
  int k;
  (void)unused;
  for (k = 0; k < 5; k++) graphs_by_hand();
  return NULL;
}

static void threads_with_small_stacks(void) {
  pthread_attr_t small;
  pthread_t threads[4];
  int k;
  pthread_attr_init(&small);
  MUST(pthread_attr_setstacksize(&small, STACK) == 0);
  for (k = 0; k < 4; k++)
    if (pthread_create(&threads[k], &small, in_thread, NULL) != 0) abort();
  for (k = 0; k < 4; k++) pthread_join(threads[k], NULL);
  pthread_attr_destroy(&small);
}

/* ---- hostile calls */

/* Returns the next number of a sequence that is the same at each run (xorshift). */
static uint64_t drawn(void) {
  static uint64_t state = 88172645463325252u;
  state ^= state << 13;
  state ^= state >> 7;
  state ^= state << 17;
  return state;
}

/* Whether a text has lines of whole words up to `end`, and no other bytes. */
static int is_whole(const uint8_t *text, size_t length) {
  return length >= 4 && memcmp(text + length - 4, "end\n", 4) == 0 && memcmp(text, "component 1\n", 12) == 0 &&
         !memchr(text, NOT_WRITTEN, length);
}

/* Updates a text, of which a byte may be another one, by positions that are mostly those of hypotheses, into room that is mostly
 * enough. */
static void hostile_call(void) {
  static const char *const texts[] = {HOLM, DIABETES, EPSILON, ENTANGLED, STAGED, CHAIN, WIDE_OPENING};
  static const size_t sizes[] = {3, 4, 3, 4, 2, 4, 2};
  size_t which = drawn() % 7, length = strlen(texts[which]), size = sizes[which], count = drawn() % (size + 2), k;
  size_t room = drawn() % 8 ? 2048 : drawn() % 300, needed = 77;
  uint8_t *kase = copy(texts[which], length), *out = block(room), status;
  size_t *removed = block(count * sizeof *removed);
  int is_order = count <= size, is_spoilt = drawn() % 3 == 0;
  for (k = 0; k < count; k++) removed[k] = k;
  for (k = 1; k < count; k++) {
    size_t other = drawn() % (k + 1), held = removed[k];
    removed[k] = removed[other];
    removed[other] = held;
  }
  if (count && drawn() % 4 == 0) {
    size_t at = drawn() % count;
    removed[at] = drawn() % 2 ? drawn() : removed[drawn() % count];
    for (k = 0; k < count; k++) {
      size_t j;
      is_order = is_order && removed[k] < size;
      for (j = 0; j < k; j++) is_order = is_order && removed[j] != removed[k];
    }
  }
  if (is_spoilt) kase[drawn() % length] ^= (uint8_t)(1 << drawn() % 8);
  if (drawn() % 16 == 0) {
    is_spoilt = 1;
    length = drawn() % length;
  }
  status = welungad_update(kase, length, removed, count, out, room, &needed);
  if (status == WELUNGAD_LENGTHS) {
    MUST(needed == 0 && (is_spoilt || !is_order));
  } else if (status == WELUNGAD_ROOM) {
    MUST(needed > room);
  } else {
    MUST(needed <= room);
    MUST(status == WELUNGAD_DONE ? is_whole(out, needed) : needed && out[needed - 1] == '\n' && !memchr(out, '\n', needed - 1));
    MUST(status == WELUNGAD_DONE || status == WELUNGAD_TOO_WIDE || (is_spoilt && (status == WELUNGAD_MALFORMED || status == WELUNGAD_LIMIT)));
    MUST(is_spoilt || is_order);
  }
  for (k = needed; k < room; k++)
    if (out[k] != NOT_WRITTEN) {
      MUST(!"a byte after the text is written");
      break;
    }
  free(kase);
  free(removed);
  free(out);
}

int main(int count, char **words) {
  long calls = count > 1 ? atol(words[1]) : 1000, k;
  graphs_by_hand();
  each_room();
  each_refusal();
  no_pointers();
  missing_pointers();
  threads_with_small_stacks();
  for (k = 0; k < calls; k++) hostile_call();
  fprintf(stderr, "test_update: %ld hostile calls, %d findings\n", calls, findings);
  return findings != 0;
}
