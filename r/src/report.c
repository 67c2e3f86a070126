/* Reads the report of `test`. It has a line alpha, then for each hypothesis a line "step N NAME p P weight W" or, after all of these,
 * "kept NAME p P weight W", then the line rejected, a line adjusted for each hypothesis in its order, and end. */
#include <R.h>
#include <Rinternals.h>
#include <stdio.h>
#include <string.h>
#include "report.h"

enum part { ALPHA, ORDER, REJECTED, P, WEIGHT, ADJUSTED, REACHED };

/* Returns where a text continues after a beginning; NULL if it has another one, or is NULL. */
static const char *after(const char *text, const char *beginning) {
  size_t len = strlen(beginning);
  return text && strncmp(text, beginning, len) == 0 ? text + len : NULL;
}

/* Takes a word, which is not empty, and returns where the text continues: at a blank or at its end. */
static const char *take_word(const char *text, SEXP *word) {
  size_t len = text ? strcspn(text, " ") : 0;
  if (len == 0) return NULL;
  *word = mkCharLen(text, (int)len);
  return text + len;
}

/* Returns the place of a name from 0 on, and the number of names if it is none of them. */
static int place_of(SEXP name, SEXP names) {
  int i = 0;
  while (i < LENGTH(names) && strcmp(CHAR(STRING_ELT(names, i)), CHAR(name)) != 0) i++;
  return i;
}

/* Reads the line of the i-th hypothesis that is listed, and returns its place; -1 if the line is another one. `steps` counts those that
 * are rejected. */
static int read_tested(const char *line, int i, int *steps, SEXP names, SEXP result) {
  char head[32];
  snprintf(head, sizeof head, "step %d ", i + 1);
  const char *text = *steps == i ? after(line, head) : NULL;
  int is_step = text != NULL;
  if (!is_step) text = after(line, "kept ");
  SEXP word = R_NilValue;
  text = after(take_word(text, &word), " p ");
  if (!text) return -1;
  int place = place_of(word, names);
  if (place == LENGTH(names) || STRING_ELT(VECTOR_ELT(result, P), place) != NA_STRING) return -1;
  text = after(take_word(text, &word), " weight ");
  SET_STRING_ELT(VECTOR_ELT(result, P), place, text ? word : NA_STRING);
  text = take_word(text, &word);
  if (!text || *text != 0) return -1;
  SET_STRING_ELT(VECTOR_ELT(result, WEIGHT), place, word);
  LOGICAL(VECTOR_ELT(result, REJECTED))[place] = is_step;
  *steps += is_step;
  return place;
}

/* Whether a line is the one with the names of the rejected, in the order of the hypotheses. */
static int is_rejected_line(const char *line, SEXP names, SEXP rejected) {
  line = after(line, "rejected");
  for (int i = 0; line && i < LENGTH(names); i++) {
    if (LOGICAL(rejected)[i]) line = after(after(line, " "), CHAR(STRING_ELT(names, i)));
  }
  return line && *line == 0;
}

/* Reads the line with the adjusted p-value of a hypothesis, and returns whether it is one. */
static int read_adjusted(const char *line, int i, SEXP names, SEXP result) {
  const char *value = after(after(after(line, "adjusted "), CHAR(STRING_ELT(names, i))), " ");
  if (!value) return 0;
  int reached = strcmp(value, "1 not reached") != 0;
  LOGICAL(VECTOR_ELT(result, REACHED))[i] = reached;
  SET_STRING_ELT(VECTOR_ELT(result, ADJUSTED), i, mkChar(reached ? value : "1"));
  return !reached || (*value != 0 && !strchr(value, ' '));
}

static int read_lines(SEXP lines, SEXP names, SEXP result) {
  int n = LENGTH(names), steps = 0, count = LENGTH(lines);
  const char *alpha = after(CHAR(STRING_ELT(lines, 0)), "alpha ");
  if (!alpha || *alpha == 0 || strchr(alpha, ' ') || strcmp(CHAR(STRING_ELT(lines, count - 1)), "end") != 0) return 0;
  SET_STRING_ELT(VECTOR_ELT(result, ALPHA), 0, mkChar(alpha));
  int *order = INTEGER(VECTOR_ELT(result, ORDER));
  for (int i = 0; i < n; i++) {
    int before = steps, place = read_tested(CHAR(STRING_ELT(lines, 1 + i)), i, &steps, names, result);
    if (place < 0) return 0;
    if (steps > before) order[before] = place + 1;
  }
  if (!is_rejected_line(CHAR(STRING_ELT(lines, n + 1)), names, VECTOR_ELT(result, REJECTED))) return 0;
  for (int i = 0; i < n; i++) {
    if (!read_adjusted(CHAR(STRING_ELT(lines, n + 2 + i)), i, names, result)) return 0;
  }
  SET_VECTOR_ELT(result, ORDER, lengthgets(VECTOR_ELT(result, ORDER), steps));
  return 1;
}

/* Returns a list of the parts of a report for the hypotheses with these names, in their order; NULL if the lines are not one. `order` has
 * the places of the rejected, from 1 on. */
SEXP welungad_read_test(SEXP lines, SEXP names) {
  if (TYPEOF(lines) != STRSXP || TYPEOF(names) != STRSXP) error("lines and names are needed");
  int n = LENGTH(names);
  if (LENGTH(lines) != 2 * n + 3) return R_NilValue;
  const char *parts[] = {"alpha", "order", "rejected", "p", "weight", "adjusted", "reached", ""};
  const unsigned types[] = {STRSXP, INTSXP, LGLSXP, STRSXP, STRSXP, STRSXP, LGLSXP};
  SEXP result = PROTECT(mkNamed(VECSXP, parts));
  for (int k = ALPHA; k <= REACHED; k++) SET_VECTOR_ELT(result, k, allocVector(types[k], k == ALPHA ? 1 : n));
  for (int i = 0; i < n; i++) SET_STRING_ELT(VECTOR_ELT(result, P), i, NA_STRING);
  int is_whole = read_lines(lines, names, result);
  UNPROTECT(1);
  return is_whole ? result : R_NilValue;
}
