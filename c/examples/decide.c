/* Decides the case in a file, and prints the report or the refusal. Ends with the status of the call, or with 125 if none is made or its
 * text cannot be written.
 *
 *     cc $(pkg-config --cflags welungad) -o decide decide.c $(pkg-config --libs welungad)
 *     ./decide holm.txt
 *
 * The library is in PREFIX/lib. If the loader doesn't look there, add -Wl,-rpath,PREFIX/lib; if pkg-config doesn't, set
 * PKG_CONFIG_PATH=PREFIX/lib/pkgconfig. */
#include <stdio.h>
#include <stdlib.h>
#include <welungad.h>

/* The bytes of a case or a text. A block of length 0 may have no bytes. */
struct block {
  uint8_t *bytes;
  size_t length;
};

/* Ends the program. */
static void stop(const char *why) {
  fprintf(stderr, "decide: %s\n", why);
  exit(125);
}

/* Returns the bytes of a file. Longer cases than the limit are handed on too, so that the library refuses them by its own line. */
static struct block read_file(const char *path) {
  struct block read = {NULL, 0};
  FILE *file = fopen(path, "rb");
  size_t room = 0, count;
  if (!file) stop("the file cannot be opened");
  do {
    if (read.length == room) {
      uint8_t *longer = realloc(read.bytes, room = room ? 2 * room : 4096);
      if (!longer) stop("out of memory");
      read.bytes = longer;
    }
    count = fread(read.bytes + read.length, 1, room - read.length, file);
    read.length += count;
  } while (count);
  if (ferror(file)) stop("the file cannot be read");
  fclose(file);
  return read;
}

/* Calls `test` on a case, again with more room if the text doesn't fit, and returns the status. The text goes to *text. */
static uint8_t decide(struct block kase, struct block *text) {
  static const uint8_t words[] = "test"; /* each word with its byte 0 */
  uint8_t status;
  size_t needed = 4096;
  do {
    uint8_t *room = realloc(text->bytes, needed);
    if (!room) stop("out of memory");
    text->bytes = room;
    text->length = needed;
    status = welungad_run(words, sizeof words, kase.bytes, kase.length, NULL, 0, text->bytes, text->length, &needed);
  } while (status == WELUNGAD_ROOM);
  text->length = needed;
  return status;
}

int main(int count, char **words) {
  struct block kase, text = {NULL, 0};
  uint8_t status;
  if (count != 2) stop("usage: decide FILE");
  if (welungad_interface() != WELUNGAD_INTERFACE) stop("the library and its header are of different releases");
  kase = read_file(words[1]);
  status = decide(kase, &text);
  if (fwrite(text.bytes, 1, text.length, stdout) < text.length || fflush(stdout)) stop("the text cannot be written");
  free(text.bytes);
  free(kase.bytes);
  return status;
}
