/* Makes the calls of a file, each with blocks of exactly the lengths that it hands in, so that valgrind reports each access past
 * them. c_inputs.py writes the file: for each call four lengths of 8 bytes (words, case, proof, room) and the bytes.
 *
 * Prints for each call its status, the length of its text and a checksum of it. A text that does not fit is requested again, with
 * exactly the room that it needs. Ends with status 1 if a call does not keep to welungad.h. */
#include <stdio.h>
#include <stdlib.h>
#include <string.h>
#include "../c/welungad.h"

static uint8_t *block_of(FILE *file, size_t length) {
  uint8_t *block = malloc(length ? length : 1);
  if (!block || fread(block, 1, length, file) != length) exit(2);
  return block;
}

static uint64_t checksum(const uint8_t *bytes, size_t length) {
  uint64_t sum = 14695981039346656037u;
  for (size_t k = 0; k < length; k++) sum = (sum ^ bytes[k]) * 1099511628211u;
  return sum;
}

/* Ends the run with what does not hold. */
static void must(int holds, const char *what, long number) {
  if (holds) return;
  fprintf(stderr, "call %ld: %s\n", number, what);
  exit(1);
}

/* Whether all bytes from one place on are those that were put there before the call. */
static int stays(const uint8_t *bytes, size_t from, size_t to) {
  for (; from < to; from++)
    if (bytes[from] != 0xAA) return 0;
  return 1;
}

int main(int argc, char **argv) {
  FILE *file = argc == 2 ? fopen(argv[1], "rb") : NULL;
  uint64_t lengths[4];
  if (!file) return 2;
  for (long number = 0; fread(lengths, 8, 4, file) == 4; number++) {
    uint8_t *words = block_of(file, lengths[0]), *kase = block_of(file, lengths[1]), *proof = block_of(file, lengths[2]);
    size_t room = lengths[3], needed = 77, first;
    uint8_t *out = malloc(room ? room : 1);
    uint64_t front;
    int status;
    if (!out) return 2;
    memset(out, 0xAA, room);
    status = welungad_run(words, lengths[0], kase, lengths[1], proof, lengths[2], out, room, &needed);
    if (status == WELUNGAD_ROOM) {
      must(needed > room, "a text that fits has status 7", number);
      first = needed;
      front = checksum(out, room);
      free(out);
      out = malloc(first);
      if (!out) return 2;
      status = welungad_run(words, lengths[0], kase, lengths[1], proof, lengths[2], out, first, &needed);
      must(status != WELUNGAD_ROOM && needed == first, "a text has another length than was reported", number);
      must(checksum(out, room) == front, "the front of a text is not that of the whole text", number);
    } else {
      must(needed <= room, "a text that does not fit has another status than 7", number);
      must(stays(out, needed, room), "a byte after the text has changed", number);
    }
    must(status <= 5 || status == WELUNGAD_WORDS, "a status that no call with memory has", number);
    printf("%d %zu %016llx\n", status, needed, (unsigned long long)checksum(out, needed));
    free(words);
    free(kase);
    free(proof);
    free(out);
  }
  return fclose(file);
}
