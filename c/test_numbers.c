/* Whether the calls on numbers do what welungad.h says: readings, marks and statuses by hand, lengths, refusals, no pointers, threads
 * with small stacks; and then hostile calls: test_numbers [CALLS].
 *
 * All blocks have exactly the lengths that are handed in, so that valgrind reports a read or a write past them. */
#include <math.h>
#include <pthread.h>
#include <stdio.h>
#include <stdlib.h>
#include <string.h>
#include "welungad.h"

#define MOST_BYTES 4194304
#define STACK (512 * 1024)
#define NOT_WRITTEN 0xAA

static int findings = 0;

#define MUST(holds)                                           \
  do {                                                        \
    if (!(holds)) {                                           \
      findings++;                                             \
      fprintf(stderr, "line %d: not %s\n", __LINE__, #holds); \
    }                                                         \
  } while (0)

/* Holm's procedure at 1/40: the least p-value is compared with 1/120, the next with 1/80, and the last with 1/40. */
static const char HOLM[] =
    "alpha 0.025\nhypotheses H1 H2 H3\nweights 1/3 1/3 1/3\n"
    "edge H1 H2 1/2\nedge H1 H3 1/2\nedge H2 H1 1/2\nedge H2 H3 1/2\nedge H3 H1 1/2\nedge H3 H2 1/2\n";

/* The weights have the denominators of all edges before them. The third product would have one near 10^54, so H3 cannot be removed. */
static const char CHAIN[] =
    "alpha 0.05\nhypotheses H1 H2 H3 H4\nweights 1 0 0 0\nedge H1 H2 1/1000000000000000000\n"
    "edge H2 H3 1/999999999999999999\nedge H3 H4 1/999999999999999997\n";

/* The terms of the edge are added up before the first rejection, with a denominator near 10^54. */
static const char WIDE_OPENING[] =
    "alpha 0.05\nhypotheses H1 H2\nweights 1 0\n"
    "edge H1 H2 1/1000000000000000000 + 1/999999999999999999*\\epsilon + 1/999999999999999997*\\epsilon^2\n";

/* The sum of the row of H1 has a denominator near 10^54. */
static const char WIDE_ROW[] =
    "alpha 0.05\nhypotheses H1 H2 H3 H4\nweights 1 0 0 0\nedge H1 H2 1/1000000000000000000\n"
    "edge H1 H3 1/999999999999999999\nedge H1 H4 1/999999999999999997\n";

static const char STAGED[] =
    "alpha 0.05\nhypotheses A B\nweights 1/2 1/2\nedge A B 1\nstages 2\nspend A 1/2 1/2\ntable B 1/2 1/100 1/100\n";

/* Returns a block of exactly this length, whose bytes are not written. */
static void *block(size_t length) {
  void *it = malloc(length ? length : 1);
  if (!it) abort();
  return memset(it, NOT_WRITTEN, length ? length : 1);
}

/* Returns a copy of bytes in a block of exactly their length. */
static void *copy(const void *bytes, size_t length) {
  void *it = block(length);
  if (length) memcpy(it, bytes, length);
  return it;
}

/* Whether no byte of a block was written. */
static int stays(const void *bytes, size_t length) {
  const uint8_t *it = bytes;
  size_t k;
  for (k = 0; k < length; k++)
    if (it[k] != NOT_WRITTEN) return 0;
  return 1;
}

static uint64_t bits_of(double x) {
  uint64_t bits;
  memcpy(&bits, &x, sizeof bits);
  return bits;
}

static double double_of(uint64_t bits) {
  double x;
  memcpy(&x, &bits, sizeof x);
  return x;
}

/* ---- readings */

/* A double, and the words of the fraction that it is read as. */
struct reading {
  uint64_t bits;
  uint64_t words[4];
};

/* 10^30 is 54210108624 * 2^64 + 5076944270305263616, and 10^23 is 5421 * 2^64 + 200376420520689664. */
#define LOW_30 5076944270305263616u
#define HIGH_30 54210108624u
#define LOW_23 200376420520689664u
#define HIGH_23 5421u

static const struct reading READINGS[] = {
    /* 0, minus 0, 1, 1/3, 0.025, 0.3333 and 1/10000 */
    {0x0000000000000000u, {0, 0, 1, 0}},
    {0x8000000000000000u, {0, 0, 1, 0}},
    {0x3ff0000000000000u, {1, 0, 1, 0}},
    {0x3fd5555555555555u, {1, 0, 3, 0}},
    {0x3f9999999999999au, {1, 0, 40, 0}},
    {0x3fd554c985f06f69u, {3333, 0, 10000, 0}},
    {0x3f1a36e2eb1c432du, {1, 0, 10000, 0}},
    /* 0.1 + 0.2 is 0.30000000000000004, and 2^-24 is 0.00000005960464477539063 */
    {0x3fd3333333333334u, {7500000000000001u, 0, 25000000000000000u, 0}},
    {0x3e70000000000000u, {5960464477539063u, 0, LOW_23, HIGH_23}},
    /* the least double, and the greatest subnormal one, are rounded up to 10^-30 */
    {0x0000000000000001u, {1, 0, LOW_30, HIGH_30}},
    {0x000fffffffffffffu, {1, 0, LOW_30, HIGH_30}},
    /* none: the next double after 1, 2, infinities, NaNs, minus the least double, -0.5 */
    {0x3ff0000000000001u, {0, 0, 0, 0}},
    {0x4000000000000000u, {0, 0, 0, 0}},
    {0x7ff0000000000000u, {0, 0, 0, 0}},
    {0xfff0000000000000u, {0, 0, 0, 0}},
    {0x7ff8000000000000u, {0, 0, 0, 0}},
    {0xffffffffffffffffu, {0, 0, 0, 0}},
    {0x8000000000000001u, {0, 0, 0, 0}},
    {0xbfe0000000000000u, {0, 0, 0, 0}},
};

#define COUNT (sizeof READINGS / sizeof READINGS[0])

static void each_reading(void) {
  uint64_t *bits = block(COUNT * sizeof *bits), *out = block(4 * COUNT * sizeof *out);
  size_t k;
  for (k = 0; k < COUNT; k++) bits[k] = READINGS[k].bits;
  MUST(welungad_read(bits, COUNT, out, 4 * COUNT) == WELUNGAD_DONE);
  for (k = 0; k < COUNT; k++) {
    if (memcmp(out + 4 * k, READINGS[k].words, sizeof READINGS[k].words) == 0) continue;
    findings++;
    fprintf(stderr, "reading %zu: %llu %llu / %llu %llu\n", k, (unsigned long long)out[4 * k], (unsigned long long)out[4 * k + 1],
            (unsigned long long)out[4 * k + 2], (unsigned long long)out[4 * k + 3]);
  }
  free(bits);
  free(out);
}

static void each_length_of_readings(void) {
  size_t doubles, words;
  for (doubles = 0; doubles < 3; doubles++) {
    for (words = 0; words < 13; words++) {
      uint64_t *bits = block(doubles * sizeof *bits), *out = block(words * sizeof *out);
      uint8_t status = welungad_read(bits, doubles, out, words);
      MUST(words == 4 * doubles ? status == WELUNGAD_DONE : status == WELUNGAD_LENGTHS && stays(out, words * sizeof *out));
      free(bits);
      free(out);
    }
  }
}

/* ---- rows */

/* Makes a call with blocks of exactly these lengths, and holds it to its status. The marks and the statuses that are wanted may be
 * NULL: then nothing is to be written. */
static int rows_are(const char *kase, size_t kase_len, const double *p, size_t p_len, size_t marks_len, size_t rows, uint8_t status,
                    const uint8_t *marks, const uint8_t *statuses) {
  uint8_t *text = copy(kase, kase_len), *rejected = block(marks_len), *ends = block(rows);
  uint64_t *bits = block(p_len * sizeof *bits);
  size_t k;
  int holds;
  for (k = 0; k < p_len; k++) bits[k] = bits_of(p[k]);
  holds = welungad_test_rows(text, kase_len, bits, p_len, rejected, marks_len, ends, rows) == status;
  holds = holds && (marks ? memcmp(rejected, marks, marks_len) == 0 : stays(rejected, marks_len));
  holds = holds && (statuses ? memcmp(ends, statuses, rows) == 0 : stays(ends, rows));
  free(text);
  free(rejected);
  free(ends);
  free(bits);
  return holds;
}

static int decided(const char *kase, const double *p, size_t p_len, size_t rows, const uint8_t *marks, const uint8_t *statuses) {
  return rows_are(kase, strlen(kase), p, p_len, p_len, rows, WELUNGAD_DONE, marks, statuses);
}

static int refused(const char *kase, size_t kase_len, size_t p_len, size_t marks_len, size_t rows, uint8_t status) {
  static const double p[8] = {0};
  return rows_are(kase, kase_len, p, p_len, marks_len, rows, status, NULL, NULL);
}

static void rows_of_holm(void) {
  const double p[] = {
      0.01,       0.005,       0.02,             /* each passes */
      0.02,       0.02,        0.02,             /* none does */
      0.008,      0.5,         1.0 / 80,         /* H1 at less than 1/120, and then H3 at 1/80 */
      0.008,      0.5,         1.0 / 80 + 1e-17, /* H3 is above 1/80 by a last place */
      1.0 / 120,  0.5,         1,                /* H1 at 1/120 */
      NAN,        0,           0,                /* no reading */
      0,          1 + 1e-15,   0,                /* none either */
      0,          0,           -1e-300,          /* nor here */
      5e-324,     -0.0,        0x1p-1030,        /* subnormal values and minus 0 pass */
      INFINITY,   0,           0,                /* no reading */
      0.5,        -INFINITY,   0.5,              /* nor here */
      0.025,      0.0125,      0.0083,           /* each passes at its limit */
  };
  const uint8_t marks[] = {1, 1, 1, 0, 0, 0, 1, 0, 1, 1, 0, 0, 1, 0, 0, 0, 0, 0, 0, 0, 0, 0, 0, 0, 1, 1, 1, 0, 0, 0, 0, 0, 0, 1, 1, 1};
  const uint8_t statuses[] = {0, 0, 0, 0, 0, 3, 3, 3, 0, 3, 3, 0};
  MUST(decided(HOLM, p, 36, 12, marks, statuses));
  MUST(decided(HOLM, p, 0, 0, NULL, NULL));
}

/* Only a run that comes to the wide removal is too wide. */
static void rows_of_chain(void) {
  const double p[] = {0, 0, 0, 0, 1, 0, 0, 0, 0, 0, 1, 1, 0, 0, 0, 1, 0, 1, 0, 0};
  const uint8_t marks[] = {0, 0, 0, 0, 0, 0, 0, 0, 1, 1, 0, 0, 0, 0, 0, 0, 1, 0, 0, 0};
  const uint8_t statuses[] = {5, 0, 0, 5, 0};
  MUST(decided(CHAIN, p, 20, 5, marks, statuses));
}

/* The p-values of the text are not used. */
static void rows_of_a_case_with_p_values(void) {
  static const char given[] = "alpha 0.05\nhypotheses A B\np 0 1\nweights 1 0\nedge A B 1\n";
  const double p[] = {0.05, 0.05, 0.06, 0};
  const uint8_t marks[] = {1, 1, 0, 0}, statuses[] = {0, 0};
  MUST(decided(given, p, 4, 2, marks, statuses));
}

static void each_refusal(void) {
  static const char long_part[] = "alpha 1/100000\nhypotheses A\nweights 1\n";
  char *blank = memset(block(MOST_BYTES + 1), '\n', MOST_BYTES + 1);
  MUST(refused("", 0, 0, 0, 0, WELUNGAD_MALFORMED));
  MUST(refused("alpha 2\n", 8, 0, 0, 0, WELUNGAD_MALFORMED));
  MUST(refused(long_part, strlen(long_part), 1, 1, 1, WELUNGAD_LIMIT));
  MUST(refused(blank, MOST_BYTES, 2, 2, 1, WELUNGAD_MALFORMED));
  MUST(refused(blank, MOST_BYTES + 1, 2, 2, 1, WELUNGAD_LIMIT));
  MUST(refused(STAGED, strlen(STAGED), 2, 2, 1, WELUNGAD_MALFORMED));
  MUST(refused(WIDE_OPENING, strlen(WIDE_OPENING), 2, 2, 1, WELUNGAD_TOO_WIDE));
  MUST(refused(WIDE_OPENING, strlen(WIDE_OPENING), 0, 0, 0, WELUNGAD_TOO_WIDE));
  MUST(refused(WIDE_OPENING, strlen(WIDE_OPENING), 2, 2, 2, WELUNGAD_LENGTHS));
  MUST(refused(WIDE_ROW, strlen(WIDE_ROW), 4, 4, 1, WELUNGAD_TOO_WIDE));
  free(blank);
}

static void each_length_of_rows(void) {
  size_t p_len, marks_len, rows;
  for (p_len = 0; p_len < 8; p_len++)
    for (marks_len = 0; marks_len < 8; marks_len++)
      for (rows = 0; rows < 4; rows++)
        if (p_len != 3 * rows || marks_len != p_len) MUST(refused(HOLM, strlen(HOLM), p_len, marks_len, rows, WELUNGAD_LENGTHS));
  MUST(welungad_test_rows((const uint8_t *)HOLM, strlen(HOLM), NULL, 0, NULL, 0, NULL, 0) == WELUNGAD_DONE);
}

/* A NULL to nothing is answered as another pointer to nothing. */
static void no_pointers(void) {
  uint64_t words[4] = {7, 7, 7, 7}, bits = 0;
  uint8_t marks[3] = {9, 9, 9}, status = 9;
  MUST(welungad_read(NULL, 0, NULL, 0) == WELUNGAD_DONE);
  MUST(welungad_read(NULL, 0, words, 4) == WELUNGAD_LENGTHS && words[0] == 7 && words[3] == 7);
  MUST(welungad_read(&bits, 1, NULL, 0) == WELUNGAD_LENGTHS);
  MUST(welungad_test_rows(NULL, 0, NULL, 0, NULL, 0, NULL, 0) == WELUNGAD_MALFORMED);
  MUST(welungad_test_rows((const uint8_t *)HOLM, strlen(HOLM), NULL, 0, marks, 3, &status, 1) == WELUNGAD_LENGTHS);
  MUST(welungad_test_rows((const uint8_t *)HOLM, strlen(HOLM), NULL, 0, NULL, 0, &status, 1) == WELUNGAD_LENGTHS);
  MUST(marks[0] == 9 && marks[2] == 9 && status == 9);
}

/* A NULL of another length than 0 is refused, and nothing is written. */
static void missing_pointers(void) {
  const uint8_t *kase = (const uint8_t *)HOLM;
  uint64_t words[4] = {7, 7, 7, 7}, p[3] = {0, 0, 0};
  uint8_t marks[3] = {9, 9, 9}, status = 9;
  MUST(welungad_read(NULL, 1, words, 4) == WELUNGAD_LENGTHS && words[0] == 7 && words[3] == 7);
  MUST(welungad_read(p, 1, NULL, 4) == WELUNGAD_LENGTHS);
  MUST(welungad_test_rows(NULL, 1, p, 3, marks, 3, &status, 1) == WELUNGAD_LENGTHS);
  MUST(welungad_test_rows(kase, strlen(HOLM), NULL, 3, marks, 3, &status, 1) == WELUNGAD_LENGTHS);
  MUST(welungad_test_rows(kase, strlen(HOLM), p, 3, NULL, 3, &status, 1) == WELUNGAD_LENGTHS);
  MUST(welungad_test_rows(kase, strlen(HOLM), p, 3, marks, 3, NULL, 1) == WELUNGAD_LENGTHS);
  MUST(marks[0] == 9 && marks[2] == 9 && status == 9);
}

/* ---- threads */

static void *in_thread(void *unused) {
  (void)unused;
  rows_of_holm();
  rows_of_chain();
  each_reading();
  return NULL;
}

static void threads_with_small_stacks(void) {
  pthread_attr_t small;
  pthread_t threads[4];
  int k;
  pthread_attr_init(&small);
  MUST(pthread_attr_setstacksize(&small, STACK) == 0);
  for (k = 0; k < 4; k++)
    if (pthread_create(&threads[k], &small, in_thread, NULL) != 0) abort();
  for (k = 0; k < 4; k++) pthread_join(threads[k], NULL);
  pthread_attr_destroy(&small);
}

/* ---- hostile calls */

/* Returns the next number of a sequence that is the same at each run (xorshift). */
static uint64_t drawn(void) {
  static uint64_t state = 88172645463325252u;
  state ^= state << 13;
  state ^= state >> 7;
  state ^= state << 17;
  return state;
}

/* Returns the bits of some double: any bits, one of the readings above, or one at a limit of Holm's procedure or near it. */
static uint64_t some_bits(void) {
  static const double limits[] = {0, 1.0 / 120, 1.0 / 80, 1.0 / 40, 0.008, 0.5, 1};
  switch (drawn() % 4) {
    case 0: return drawn();
    case 1: return READINGS[drawn() % COUNT].bits;
    case 2: return bits_of(limits[drawn() % 7]) + drawn() % 3;
    default: return bits_of(limits[drawn() % 7]);
  }
}

static int is_readable(uint64_t bits) { return double_of(bits) >= 0 && double_of(bits) <= 1; }

/* Reads some doubles into room that mostly fits, and holds the words to what can be seen of them. */
static void hostile_reading(void) {
  size_t n = drawn() % 5, words = drawn() % 4 ? 4 * n : drawn() % 21, k;
  uint64_t *bits = block(n * sizeof *bits), *out = block(words * sizeof *out);
  uint8_t status;
  for (k = 0; k < n; k++) bits[k] = some_bits();
  status = welungad_read(drawn() % 2 || n ? bits : NULL, n, out, words);
  if (words != 4 * n) {
    MUST(status == WELUNGAD_LENGTHS && stays(out, words * sizeof *out));
  } else {
    MUST(status == WELUNGAD_DONE);
    for (k = 0; k < n; k++) MUST(is_readable(bits[k]) == (out[4 * k + 2] != 0 || out[4 * k + 3] != 0));
  }
  free(bits);
  free(out);
}

/* Whether the row's status and marks are some that its doubles can have. */
static int is_some_row(const uint64_t *bits, const uint8_t *marks, size_t size, uint8_t status) {
  int readable = 1, marked = 0;
  size_t j;
  for (j = 0; j < size; j++) {
    readable = readable && is_readable(bits[j]);
    marked += marks[j];
    if (marks[j] > 1) return 0;
  }
  if (!readable) return status == WELUNGAD_MALFORMED && marked == 0;
  return status == WELUNGAD_DONE || (status == WELUNGAD_TOO_WIDE && marked == 0);
}

/* Decides some rows of a text, of which a byte may be another one, with lengths that mostly fit. */
static void hostile_rows(void) {
  static const char *const texts[] = {HOLM, CHAIN, WIDE_OPENING, WIDE_ROW, STAGED};
  const char *text = texts[drawn() % 8 < 4 ? 0 : drawn() % 5];
  size_t length = strlen(text), rows = drawn() % 4, size = text == HOLM ? 3 : text == STAGED || text == WIDE_OPENING ? 2 : 4;
  size_t p_len = drawn() % 4 ? rows * size : drawn() % 13, marks_len = drawn() % 4 ? p_len : drawn() % 13, k;
  uint8_t *kase = copy(text, length), *rejected = block(marks_len), *statuses = block(rows), status;
  uint64_t *p = block(p_len * sizeof *p);
  int is_spoilt = drawn() % 3 == 0;
  for (k = 0; k < p_len; k++) p[k] = some_bits();
  if (is_spoilt) kase[drawn() % length] ^= (uint8_t)(1 << drawn() % 8);
  if (drawn() % 16 == 0) length = drawn() % length;
  status = welungad_test_rows(kase, length, p, p_len, rejected, marks_len, statuses, rows);
  if (status == WELUNGAD_DONE) {
    size_t own = rows ? p_len / rows : 0;
    MUST(marks_len == p_len && p_len == rows * own);
    for (k = 0; k < rows; k++) MUST(is_some_row(p + k * own, rejected + k * own, own, statuses[k]));
  } else {
    MUST(status == WELUNGAD_MALFORMED || status == WELUNGAD_LIMIT || status == WELUNGAD_TOO_WIDE || status == WELUNGAD_LENGTHS);
    MUST(stays(rejected, marks_len) && stays(statuses, rows));
  }
  free(kase);
  free(p);
  free(rejected);
  free(statuses);
}

int main(int count, char **words) {
  long calls = count > 1 ? atol(words[1]) : 1000, k;
  each_reading();
  each_length_of_readings();
  rows_of_holm();
  rows_of_chain();
  rows_of_a_case_with_p_values();
  each_refusal();
  each_length_of_rows();
  no_pointers();
  missing_pointers();
  threads_with_small_stacks();
  for (k = 0; k < calls; k++) {
    if (k % 2)
      hostile_rows();
    else
      hostile_reading();
  }
  fprintf(stderr, "test_numbers: %ld hostile calls, %d findings\n", calls, findings);
  return findings != 0;
}
