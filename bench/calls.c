/* Measures calls of `test`: in process through libwelungad, and by the program, started for each call.
 *
 *   calls PROGRAM FILE CALLS STARTS
 *
 * prints, in microseconds, the processor time of a call in process and the time of a started program: each the least of five
 * rounds. */
#define _POSIX_C_SOURCE 200809L
#include <fcntl.h>
#include <spawn.h>
#include <stdio.h>
#include <stdlib.h>
#include <string.h>
#include <sys/wait.h>
#include <time.h>
#include "../c/welungad.h"

#define ROUNDS 5

static uint8_t kase[1 << 22], out[1 << 16];
static size_t length;

static double microseconds(clockid_t clock) {
  struct timespec now;
  clock_gettime(clock, &now);
  return now.tv_sec * 1e6 + now.tv_nsec / 1e3;
}

static void call(const char *program, const char *file) {
  static const uint8_t words[] = "test";
  size_t needed;
  (void)program;
  (void)file;
  if (welungad_run(words, sizeof words, kase, length, kase, 0, out, sizeof out, &needed) != WELUNGAD_DONE) exit(1);
}

static void start(const char *program, const char *file) {
  char *words[] = {(char *)program, "test", NULL};
  char *none[] = {NULL};
  posix_spawn_file_actions_t files;
  pid_t child;
  int status;
  posix_spawn_file_actions_init(&files);
  posix_spawn_file_actions_addopen(&files, 0, file, O_RDONLY, 0);
  posix_spawn_file_actions_addopen(&files, 1, "/dev/null", O_WRONLY, 0);
  if (posix_spawn(&child, program, &files, NULL, words, none) != 0) exit(1);
  if (waitpid(child, &status, 0) != child || status != 0) exit(1);
  posix_spawn_file_actions_destroy(&files);
}

/* Returns the least time of a call, over the rounds. */
static double least(void (*make)(const char *, const char *), const char *program, const char *file, long count,
                    clockid_t clock) {
  double best = 1e18;
  int round;
  for (round = 0; round < ROUNDS; round++) {
    double begin = microseconds(clock), time;
    long k;
    for (k = 0; k < count; k++) make(program, file);
    time = (microseconds(clock) - begin) / count;
    if (time < best) best = time;
  }
  return best;
}

int main(int argc, char **argv) {
  FILE *file;
  if (argc != 5 || !(file = fopen(argv[2], "rb"))) return 2;
  length = fread(kase, 1, sizeof kase, file);
  fclose(file);
  printf("%.1f %.0f\n", least(call, argv[1], argv[2], atol(argv[3]), CLOCK_PROCESS_CPUTIME_ID),
         least(start, argv[1], argv[2], atol(argv[4]), CLOCK_MONOTONIC));
  return 0;
}
