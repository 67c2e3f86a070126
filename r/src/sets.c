/* Reads the reports of all sets: of `weights` a line "set NAME=WEIGHT .." for each set, of `bounds` and `simes` a line "bound B of NAME ..".
 * A set is known by its code, the sum of 2^i over the places i of its members from 0 on, and a weight by its place among different ones. */
#include <R.h>
#include <Rinternals.h>
#include <stdint.h>
#include <string.h>
#include "report.h"

#define MOST 16

enum part { SETS, CODES, BOUND, WEIGHTS, TEXTS };

/* Different texts, each with its place. R keeps equal texts once, so they are told apart by where they are. */
struct table {
  SEXP result;  /* whose part TEXTS has the texts; those from `count` on are not yet taken */
  int count;
  int *places;  /* by hash: places from 1 on, and 0 where there is none; at most half of them are taken */
  uint32_t mask;
};

/* Returns the place of a text from 1 on, which is added if it isn't there. */
static int place_in(struct table *table, SEXP text) {
  SEXP texts = VECTOR_ELT(table->result, TEXTS);
  uint32_t at = (uint32_t)(((uintptr_t)text >> 4) * 2654435761u) & table->mask;
  for (; table->places[at]; at = (at + 1) & table->mask) {
    if (STRING_ELT(texts, table->places[at] - 1) == text) return table->places[at];
  }
  if (table->count == LENGTH(texts)) {
    PROTECT(text);
    texts = lengthgets(texts, 2 * table->count);
    SET_VECTOR_ELT(table->result, TEXTS, texts);
    UNPROTECT(1);
  }
  SET_STRING_ELT(texts, table->count, text);
  return table->places[at] = ++table->count;
}

/* Returns the place of a name of `len` bytes from 0 on, and -1 if it is none. The search begins at the place `from`. */
static int place_of(const char *text, size_t len, SEXP names, int from) {
  int n = LENGTH(names);
  for (int k = 0; k < n; k++) {
    int i = (from + k) % n;
    const char *name = CHAR(STRING_ELT(names, i));
    if (strncmp(name, text, len) == 0 && name[len] == 0) return i;
  }
  return -1;
}

/* Reads a number of at most two digits before " of ", and returns where the text continues; NULL if there is none. */
static const char *take_bound(const char *text, int *bound) {
  int digits = 0;
  *bound = 0;
  for (; *text >= '0' && *text <= '9' && digits < 3; text++, digits++) *bound = 10 * *bound + (*text - '0');
  return digits >= 1 && digits <= 2 && strncmp(text, " of ", 4) == 0 ? text + 4 : NULL;
}

/* Reads the members of a set, and if `table` isn't NULL, the places of their weights into the row `row` of the result. Returns how many
 * members there are; 0 if the text is not a set. */
static int read_members(const char *text, SEXP names, int *places, int *code, struct table *table, R_xlen_t row) {
  int count = 0;
  *code = 0;
  for (;;) {
    size_t word = strcspn(text, " "), len = table ? strcspn(text, "=") : word;
    if (len == 0 || len > word || count == MOST || (table && word <= len + 1)) return 0;
    int place = place_of(text, len, names, count ? places[count - 1] + 1 : 0);
    if (place < 0 || (*code >> place & 1)) return 0;
    if (table) {
      SEXP weights = VECTOR_ELT(table->result, WEIGHTS);
      INTEGER(weights)[row + (R_xlen_t)nrows(weights) * place] = place_in(table, mkCharLen(text + len + 1, (int)(word - len - 1)));
    }
    places[count++] = place;
    *code |= 1 << place;
    if (text[word] == 0) return count;
    text += word + 1;
  }
}

/* Reads the line of a set into the row `row` of the result, and returns whether it is one. It has weights if `table` isn't NULL. */
static int read_set(const char *line, R_xlen_t row, SEXP names, SEXP result, struct table *table) {
  int places[MOST], code, bound = 0;
  const char *head = table ? "set " : "bound ";
  if (strncmp(line, head, strlen(head)) != 0) return 0;
  line += strlen(head);
  if (!table) line = take_bound(line, &bound);
  int count = line ? read_members(line, names, places, &code, table, row) : 0;
  if (count == 0) return 0;
  SEXP set = allocVector(INTSXP, count);
  SET_VECTOR_ELT(VECTOR_ELT(result, SETS), row, set);
  for (int k = 0; k < count; k++) INTEGER(set)[k] = places[k] + 1;
  INTEGER(VECTOR_ELT(result, CODES))[row] = code;
  if (!table) INTEGER(VECTOR_ELT(result, BOUND))[row] = bound;
  return 1;
}

/* A table with room for the weights of all sets of n hypotheses. */
static struct table empty_table(SEXP result, int n) {
  uint32_t room = 1;
  while (room < (uint32_t)n << n) room *= 2;
  struct table table = {result, 0, (int *)R_alloc(room, sizeof(int)), room - 1};
  memset(table.places, 0, room * sizeof(int));
  SET_VECTOR_ELT(result, TEXTS, allocVector(STRSXP, 64));
  return table;
}

/* Returns a list of the sets of lines, one line a set: the places of their members from 1 on, their codes, and their bounds, or a matrix with a
 * row for each set: the places of the weights of its members among different `texts`, and NA for the others. NULL if the lines are not
 * those of all sets of the hypotheses with these names, each once. */
SEXP welungad_read_sets(SEXP lines, SEXP names, SEXP has_weights) {
  if (TYPEOF(lines) != STRSXP || TYPEOF(names) != STRSXP || TYPEOF(has_weights) != LGLSXP) error("lines and names are needed");
  int n = LENGTH(names), with = LOGICAL(has_weights)[0];
  if (n < 1 || n > MOST || XLENGTH(lines) != (1 << n) - 1) return R_NilValue;
  const void *top = vmaxget();
  int count = (1 << n) - 1;
  const char *parts[] = {"sets", "codes", "bound", "weights", "texts", ""};
  SEXP result = PROTECT(mkNamed(VECSXP, parts));
  SET_VECTOR_ELT(result, SETS, allocVector(VECSXP, count));
  SET_VECTOR_ELT(result, CODES, allocVector(INTSXP, count));
  SET_VECTOR_ELT(result, BOUND, with ? R_NilValue : allocVector(INTSXP, count));
  SET_VECTOR_ELT(result, WEIGHTS, with ? allocMatrix(INTSXP, count, n) : R_NilValue);
  for (R_xlen_t k = 0; with && k < (R_xlen_t)count * n; k++) INTEGER(VECTOR_ELT(result, WEIGHTS))[k] = NA_INTEGER;
  struct table table = {result, 0, NULL, 0};
  if (with) table = empty_table(result, n);
  char *seen = R_alloc(count + 1, 1);
  memset(seen, 0, count + 1);
  int is_whole = 1;
  for (int row = 0; row < count && is_whole; row++) {
    is_whole = read_set(CHAR(STRING_ELT(lines, row)), row, names, result, with ? &table : NULL);
    is_whole = is_whole && !seen[INTEGER(VECTOR_ELT(result, CODES))[row]]++;
  }
  if (with) SET_VECTOR_ELT(result, TEXTS, lengthgets(VECTOR_ELT(result, TEXTS), table.count));
  vmaxset(top);
  UNPROTECT(1);
  return is_whole ? result : R_NilValue;
}
