/* Whether the calls do what welungad.h says: each status, each room, words, limits, evidence, threads, no pointers, the release.
 *
 * All blocks have exactly the lengths that are handed in, so that valgrind reports a read or a write past them. */
#include <pthread.h>
#include <stdio.h>
#include <stdlib.h>
#include <string.h>
#include "welungad.h"

#define MOST_BYTES 4194304
#define STACK (512 * 1024)

static int findings = 0;

#define MUST(holds)                                             \
  do {                                                          \
    if (!(holds)) {                                             \
      findings++;                                               \
      fprintf(stderr, "line %d: not %s\n", __LINE__, #holds);   \
    }                                                           \
  } while (0)

static const char HOLM[] =
    "alpha 0.025\nhypotheses H1 H2 H3\np 0.01 0.005 0.02\nweights 1/3 1/3 1/3\n"
    "edge H1 H2 1/2\nedge H1 H3 1/2\nedge H2 H1 1/2\nedge H2 H3 1/2\nedge H3 H1 1/2\nedge H3 H2 1/2\n";

/* By hand: the thresholds are 1/120, 1/80 and 1/40. */
static const char REPORT[] =
    "alpha 1/40\nstep 1 H2 p 1/200 weight 1/3\nstep 2 H1 p 1/100 weight 1/2\nstep 3 H3 p 1/50 weight 1\n"
    "rejected H1 H2 H3\nadjusted H1 1/50\nadjusted H2 3/200\nadjusted H3 1/50\nend\n";

/* Bytes in a block of exactly their length. */
struct block {
  uint8_t *bytes;
  size_t length;
};

static struct block block_of(const void *bytes, size_t length) {
  struct block it = {malloc(length ? length : 1), length};
  if (!it.bytes) abort();
  if (length) memcpy(it.bytes, bytes, length);
  return it;
}

static struct block text_of(const char *text) { return block_of(text, strlen(text)); }

/* What a call answers. */
struct answer {
  uint8_t status;
  size_t needed;
  struct block out;
};

/* Makes a call with room for `room` bytes, which hold 0xAA before it, and frees what is handed in. */
static struct answer call(struct block words, struct block kase, struct block proof, size_t room) {
  struct answer it = {255, 77, {malloc(room ? room : 1), room}};
  if (!it.out.bytes) abort();
  memset(it.out.bytes, 0xAA, room ? room : 1);
  it.status = welungad_run(words.bytes, words.length, kase.bytes, kase.length, proof.bytes, proof.length, it.out.bytes,
                           room, &it.needed);
  free(words.bytes);
  free(kase.bytes);
  free(proof.bytes);
  return it;
}

/* Whether a call answers with this status and this text, and what is after the text stays. */
static int answers(struct answer it, uint8_t status, const char *text) {
  size_t length = strlen(text), k = length;
  int holds = it.status == status && it.needed == length && memcmp(it.out.bytes, text, length) == 0;
  for (; holds && k < it.out.length; k++) holds = it.out.bytes[k] == 0xAA;
  free(it.out.bytes);
  return holds;
}

static struct answer test_of(struct block kase, size_t room) { return call(block_of("test", 5), kase, text_of(""), room); }

static void each_room(void) {
  size_t whole = strlen(REPORT), room;
  for (room = 0; room < whole; room++) {
    struct answer it = test_of(text_of(HOLM), room);
    MUST(it.status == WELUNGAD_ROOM && it.needed == whole && memcmp(it.out.bytes, REPORT, room) == 0);
    free(it.out.bytes);
  }
  for (room = whole; room < whole + 4; room++) MUST(answers(test_of(text_of(HOLM), room), WELUNGAD_DONE, REPORT));
  MUST(answers(test_of(text_of(HOLM), 65536), WELUNGAD_DONE, REPORT));
}

static uint8_t status_of_words(const char *words, size_t length, const char *text) {
  struct answer it = call(block_of(words, length), text_of(HOLM), text_of(""), 64);
  uint8_t status = it.status;
  return answers(it, status, text) ? status : 255;
}

static void each_list_of_words(void) {
  MUST(status_of_words("test", 4, "") == WELUNGAD_WORDS);
  MUST(status_of_words("te\xffst", 6, "") == WELUNGAD_WORDS);
  MUST(status_of_words("test\0x", 6, "") == WELUNGAD_WORDS);
  MUST(status_of_words("\0x", 2, "") == WELUNGAD_WORDS);
  MUST(status_of_words("", 0, "usage: word 1\n") == WELUNGAD_USAGE);
  MUST(status_of_words("\0", 1, "usage: word 1\n") == WELUNGAD_USAGE);
  MUST(status_of_words("t\xc3\xa9st", 6, "usage: word 1\n") == WELUNGAD_USAGE);
  MUST(status_of_words("study\0-", 8, "usage: word 1\n") == WELUNGAD_USAGE);
  MUST(status_of_words("test\0--form\0csv", 16, "usage: word 4\n") == WELUNGAD_USAGE);
}

static struct block lines_of(size_t length) {
  struct block it = {malloc(length), length};
  if (!it.bytes) abort();
  memset(it.bytes, '\n', length);
  return it;
}

static void each_refusal(void) {
  MUST(answers(test_of(text_of(""), 64), WELUNGAD_MALFORMED, "malformed: line 1: ended\n"));
  MUST(answers(test_of(lines_of(MOST_BYTES), 64), WELUNGAD_MALFORMED, "malformed: line 4194305: ended\n"));
  MUST(answers(test_of(lines_of(MOST_BYTES + 1), 64), WELUNGAD_LIMIT, "limit: bytes 4194305\n"));
  MUST(answers(call(block_of("check\0-", 8), text_of(HOLM), lines_of(MOST_BYTES + 1), 64), WELUNGAD_LIMIT,
               "limit: proof bytes 4194305\n"));
  MUST(answers(call(block_of("check\0-", 8), text_of(HOLM), text_of("evidence 1\nstep H3\nend\n"), 64), WELUNGAD_NO,
               "no: step 1: above level\n"));
}

static void evidence_is_checked(void) {
  struct answer made = call(block_of("evidence", 9), text_of(HOLM), text_of(""), 4096);
  struct block proof;
  MUST(made.status == WELUNGAD_DONE && made.needed <= 4096);
  proof = block_of(made.out.bytes, made.needed);
  MUST(answers(call(block_of("check\0-", 8), text_of(HOLM), block_of(proof.bytes, proof.length), 4096), WELUNGAD_DONE,
               "yes\nlisted H2 H1 H3\nkept\nend\n"));
  proof.bytes[0] ^= 1;
  MUST(answers(call(block_of("check\0-", 8), text_of(HOLM), proof, 4096), WELUNGAD_MALFORMED,
               "malformed: proof line 1: unexpected\n"));
  free(made.out.bytes);
}

/* A NULL for no bytes is answered as another pointer to none. */
static void no_pointers(void) {
  static const char usage[] = "usage: word 1\n";
  uint8_t out[64];
  size_t needed = 77;
  MUST(welungad_run(NULL, 0, NULL, 0, NULL, 0, NULL, 0, &needed) == WELUNGAD_ROOM && needed == strlen(usage));
  needed = 77;
  MUST(welungad_run(NULL, 0, NULL, 0, NULL, 0, out, sizeof out, &needed) == WELUNGAD_USAGE && needed == strlen(usage) &&
       memcmp(out, usage, strlen(usage)) == 0);
  needed = 77;
  MUST(welungad_run((const uint8_t *)"test", 5, NULL, 0, NULL, 0, out, sizeof out, &needed) == WELUNGAD_MALFORMED &&
       needed == 25 && memcmp(out, "malformed: line 1: ended\n", 25) == 0);
  needed = 77;
  MUST(welungad_run((const uint8_t *)"test", 5, (const uint8_t *)HOLM, strlen(HOLM), NULL, 0, NULL, 0, &needed) ==
           WELUNGAD_ROOM &&
       needed == strlen(REPORT));
  needed = 77;
  MUST(welungad_run((const uint8_t *)"test", 4, NULL, 0, NULL, 0, NULL, 0, &needed) == WELUNGAD_WORDS && needed == 0);
}

/* A NULL of another length than 0, or for needed, is refused, and nothing is written. */
static void missing_pointers(void) {
  const uint8_t *words = (const uint8_t *)"test", *kase = (const uint8_t *)HOLM;
  size_t len = strlen(HOLM), needed = 77;
  uint8_t out[512], none = 0;
  memset(out, 9, sizeof out);
  MUST(welungad_run(NULL, 5, kase, len, &none, 0, out, sizeof out, &needed) == WELUNGAD_LENGTHS);
  MUST(welungad_run(words, 5, NULL, len, &none, 0, out, sizeof out, &needed) == WELUNGAD_LENGTHS);
  MUST(welungad_run(words, 5, kase, len, NULL, 1, out, sizeof out, &needed) == WELUNGAD_LENGTHS);
  MUST(welungad_run(words, 5, kase, len, &none, 0, NULL, 1, &needed) == WELUNGAD_LENGTHS);
  MUST(welungad_run(words, 5, kase, len, &none, 0, out, sizeof out, NULL) == WELUNGAD_LENGTHS);
  MUST(needed == 77 && out[0] == 9 && memcmp(out, out + 1, sizeof out - 1) == 0);
}

static void *in_thread(void *unused) {
  size_t bad = 0;
  int k;
  (void)unused;
  for (k = 0; k < 20; k++) bad += !answers(test_of(text_of(HOLM), 512), WELUNGAD_DONE, REPORT);
  return (void *)bad;
}

static void threads_with_small_stacks(void) {
  pthread_attr_t small;
  pthread_t threads[4];
  void *bad;
  int k;
  pthread_attr_init(&small);
  MUST(pthread_attr_setstacksize(&small, STACK) == 0);
  for (k = 0; k < 4; k++)
    if (pthread_create(&threads[k], &small, in_thread, NULL) != 0) abort();
  for (k = 0; k < 4; k++) {
    pthread_join(threads[k], &bad);
    MUST(bad == NULL);
  }
  pthread_attr_destroy(&small);
}

int main(void) {
  MUST(welungad_interface() == WELUNGAD_INTERFACE);
  MUST(strcmp(welungad_version(), RELEASE) == 0);
  no_pointers();
  missing_pointers();
  each_room();
  each_list_of_words();
  each_refusal();
  evidence_is_checked();
  threads_with_small_stacks();
  fprintf(stderr, "test_calls: %d findings\n", findings);
  return findings != 0;
}
