/* Prints the graph of the case in a file after the rejection of hypotheses, which are named by their positions from 0 on, in the order of
 * their rejection. Ends with the status of the call, or with 125 if none is made or its text cannot be written.
 *
 *     cc $(pkg-config --cflags welungad) -o update update.c $(pkg-config --libs welungad)
 *     ./update diabetes.txt 1 0
 *
 * decide.c says where the library is found, and reads longer files. */
#include <stdio.h>
#include <stdlib.h>
#include <welungad.h>

#define MOST_BYTES 65536
#define MOST_HYPOTHESES 64

/* Ends the program. */
static void stop(const char *why) {
  fprintf(stderr, "update: %s\n", why);
  exit(125);
}

/* Reads a file into `kase`, and returns how many bytes it has. */
static size_t read_file(const char *path, uint8_t *kase) {
  FILE *file = fopen(path, "rb");
  size_t length;
  if (!file) stop("the file cannot be opened");
  length = fread(kase, 1, MOST_BYTES, file);
  if (ferror(file) || !feof(file)) stop("the file cannot be read, or is too long");
  fclose(file);
  return length;
}

/* Returns the position that a word names. */
static size_t position_of(const char *word) {
  char *end;
  unsigned long position = strtoul(word, &end, 10);
  if (*word < '0' || *word > '9' || *end) stop("a position is not a whole number");
  return position;
}

int main(int count, char **words) {
  static uint8_t kase[MOST_BYTES + 1];
  size_t removed[MOST_HYPOTHESES], length, needed = 4096, k;
  uint8_t *text = NULL, status;
  if (count < 2 || count > 2 + MOST_HYPOTHESES) stop("usage: update FILE POSITION..");
  if (welungad_interface() != WELUNGAD_INTERFACE) stop("the library and its header are of different releases");
  length = read_file(words[1], kase);
  for (k = 2; k < (size_t)count; k++) removed[k - 2] = position_of(words[k]);
  do {
    size_t room = needed;
    uint8_t *longer = realloc(text, room);
    if (!longer) stop("out of memory");
    text = longer;
    status = welungad_update(kase, length, removed, (size_t)count - 2, text, room, &needed);
  } while (status == WELUNGAD_ROOM);
  if (fwrite(text, 1, needed, stdout) < needed || fflush(stdout)) stop("the text cannot be written");
  free(text);
  return status;
}
