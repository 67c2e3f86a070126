/* Reads the text of a graph after removals, as c/welungad.h has it: for each component a line "component K", for each hypothesis that remains
 * a line "weight NAME N", and lines "edge FROM TO N"; then for each hypothesis a line "level NAME N", and end. */
#include <R.h>
#include <Rinternals.h>
#include <stdio.h>
#include <string.h>
#include "report.h"

/* What is left of a text, and the hypotheses that it is about. */
typedef struct {
  const char *at;
  SEXP names;
} reader;

enum part { WEIGHTS, EDGES, LINES };

/* Moves past a beginning, and returns whether the text has it. */
static int take(reader *text, const char *beginning) {
  size_t len = strlen(beginning);
  if (strncmp(text->at, beginning, len) != 0) return 0;
  text->at += len;
  return 1;
}

/* Moves past a name and a blank, and returns the place of the name, which is searched from `near` on; -1 if it is none of the names. */
static int take_name(reader *text, int near) {
  size_t len = strcspn(text->at, " \n");
  int n = LENGTH(text->names);
  for (int k = 0; k < n && text->at[len] == ' '; k++) {
    int i = (near + k) % n;
    const char *name = CHAR(STRING_ELT(text->names, i));
    if (strncmp(name, text->at, len) == 0 && name[len] == 0) {
      text->at += len + 1;
      return i;
    }
  }
  return -1;
}

/* Moves past a number that ends the line, and returns whether there is one, which is put at a place. */
static int take_number(reader *text, SEXP numbers, int at) {
  size_t len = strcspn(text->at, " \n");
  if (len == 0 || text->at[len] != '\n') return 0;
  SET_STRING_ELT(numbers, at, mkCharLen(text->at, (int)len));
  text->at += len + 1;
  return 1;
}

/* Reads the rest of a line of an edge, and returns whether it is one between two hypotheses that have none yet. `last` has the places of the
 * edge before. */
static int take_edge(reader *text, SEXP edges, int last[2]) {
  int n = LENGTH(text->names);
  int from = take_name(text, last[0]);
  int to = from < 0 ? -1 : take_name(text, last[1] + 1);
  if (to < 0 || from == to || STRING_ELT(edges, from + n * to) != NA_STRING) return 0;
  last[0] = from;
  last[1] = to;
  return take_number(text, edges, from + n * to);
}

/* Reads the k-th component from 1 on into a list, and returns whether it is whole. `lines` has room for its edges. */
static int take_component(reader *text, int k, SEXP list, char *lines) {
  char head[32];
  snprintf(head, sizeof head, "component %d\n", k);
  if (!take(text, head)) return 0;
  int n = LENGTH(text->names), weights = 0, last[2] = {0, 0};
  size_t len = 0;
  for (const char *line = text->at; strncmp(line, "weight ", 7) == 0 || strncmp(line, "edge ", 5) == 0; line = text->at) {
    if (take(text, "weight ")) {
      if (weights == n || take_name(text, weights) != weights || !take_number(text, VECTOR_ELT(list, WEIGHTS), weights)) return 0;
      weights++;
      continue;
    }
    take(text, "edge ");
    if (!take_edge(text, VECTOR_ELT(list, EDGES), last)) return 0;
    memcpy(lines + len, line, (size_t)(text->at - line));
    len += (size_t)(text->at - line);
  }
  SET_STRING_ELT(VECTOR_ELT(list, LINES), 0, mkCharLen(lines, len ? (int)len - 1 : 0));
  return weights == n;
}

/* Reads the lines after the components, and returns whether nothing else follows. */
static int take_levels(reader *text) {
  int n = LENGTH(text->names);
  SEXP levels = PROTECT(allocVector(STRSXP, n));
  int i = 0;
  while (i < n && take(text, "level ") && take_name(text, i) == i && take_number(text, levels, i)) i++;
  UNPROTECT(1);
  return i == n && strcmp(text->at, "end\n") == 0;
}

/* Returns a list for so many components, each with `weights`, `edges` by columns, and the `lines` of its edges as one text; NULL if the text
 * is not a whole one for the hypotheses with these names. */
SEXP welungad_read_update(SEXP text, SEXP names, SEXP count) {
  if (TYPEOF(text) != STRSXP || LENGTH(text) != 1 || TYPEOF(names) != STRSXP) error("a text and names are needed");
  int n = LENGTH(names), components = asInteger(count), is_whole = 1;
  reader rest = {CHAR(STRING_ELT(text, 0)), names};
  char *lines = R_alloc(strlen(rest.at) + 1, 1);
  SEXP result = PROTECT(allocVector(VECSXP, components)), zero = PROTECT(mkChar("0"));
  for (int k = 0; k < components && is_whole; k++) {
    const char *parts[] = {"weights", "edges", "lines", ""};
    const int sizes[] = {n, n * n, 1};
    SET_VECTOR_ELT(result, k, mkNamed(VECSXP, parts));
    SEXP list = VECTOR_ELT(result, k);
    for (int part = WEIGHTS; part <= LINES; part++) SET_VECTOR_ELT(list, part, allocVector(STRSXP, sizes[part]));
    SEXP edges = VECTOR_ELT(list, EDGES);
    for (int i = 0; i < n * n; i++) SET_STRING_ELT(edges, i, NA_STRING);
    is_whole = take_component(&rest, k + 1, list, lines);
    for (int i = 0; i < n * n; i++) if (STRING_ELT(edges, i) == NA_STRING) SET_STRING_ELT(edges, i, zero);
  }
  is_whole = is_whole && take_levels(&rest);
  UNPROTECT(2);
  return is_whole ? result : R_NilValue;
}
