/* Measures welungad_test_rows and welungad_read.
 *
 *   rows FILE ROWS
 *
 * decides the case of the file with this number of rows of p-values, in one call, and prints processor times: of the call in seconds and
 * of a row in microseconds, how many hypotheses of a row are rejected on average, and of the reading of a double in microseconds. The
 * times are the least of three rounds.
 *
 * The p-values are those of a trial in which each hypothesis has an effect with probability 1/2: uniform, or the fourth power of a uniform
 * value. So they have all 53 digits, as those of a simulation have. */
#define _POSIX_C_SOURCE 200809L
#include <stdio.h>
#include <stdlib.h>
#include <string.h>
#include <time.h>
#include "../c/welungad.h"

#define ROUNDS 3

static uint8_t kase[1 << 22];

static double seconds(void) {
  struct timespec now;
  clock_gettime(CLOCK_PROCESS_CPUTIME_ID, &now);
  return now.tv_sec + now.tv_nsec / 1e9;
}

/* Returns the next number below 1 of a sequence that is the same at each run (xorshift). */
static double drawn(void) {
  static uint64_t state = 88172645463325252u;
  state ^= state << 13;
  state ^= state >> 7;
  state ^= state << 17;
  return (state >> 11) / 9007199254740992.0;
}

/* Returns how many words the line of the hypotheses has after its first one. */
static size_t size_of_case(void) {
  const char *line = strstr((const char *)kase, "hypotheses ");
  size_t size = 0;
  for (; line && *line && *line != '\n'; line++) size += *line == ' ';
  return size;
}

static void draw(uint64_t *p, size_t count) {
  size_t k;
  for (k = 0; k < count; k++) {
    double x = drawn();
    if (drawn() < 0.5) x = x * x * x * x;
    memcpy(p + k, &x, sizeof x);
  }
}

int main(int argc, char **argv) {
  FILE *file;
  size_t length, rows, count, k, marked = 0, size;
  uint64_t *p, *words;
  uint8_t *rejected, *statuses;
  double decide = 1e18, read = 1e18;
  int round;
  if (argc != 3 || !(file = fopen(argv[1], "rb"))) return 2;
  length = fread(kase, 1, sizeof kase - 1, file);
  fclose(file);
  size = size_of_case();
  rows = (size_t)atol(argv[2]);
  count = rows * size;
  p = malloc(count * sizeof *p);
  words = malloc(4 * count * sizeof *words);
  rejected = malloc(count);
  statuses = malloc(rows);
  if (!p || !words || !rejected || !statuses) return 1;
  draw(p, count);
  for (round = 0; round < ROUNDS; round++) {
    double begin = seconds(), time;
    if (welungad_test_rows(kase, length, p, count, rejected, count, statuses, rows) != WELUNGAD_DONE) return 1;
    time = seconds() - begin;
    if (time < decide) decide = time;
    begin = seconds();
    if (welungad_read(p, count, words, 4 * count) != WELUNGAD_DONE) return 1;
    time = seconds() - begin;
    if (time < read) read = time;
  }
  for (k = 0; k < count; k++) marked += rejected[k];
  for (k = 0; k < rows; k++)
    if (statuses[k] != WELUNGAD_DONE) return 1;
  printf("%zu hypotheses, %zu rows: %.3f s, %.2f microseconds a row, %.2f rejected a row, %.3f microseconds a double\n", size, rows, decide,
         decide / rows * 1e6, (double)marked / rows, read / count * 1e6);
  return 0;
}
