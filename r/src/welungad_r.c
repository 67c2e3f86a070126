/* R's way to the C library: .Call(C_welungad_call, words, case, proof), with words a character vector and case and proof raw
 * vectors, and .Call(C_welungad_rows, case, P) with the p-values of many trials. No function of R runs during a call of the library,
 * so no jump of R passes through it. Without the library, which `configure` looks for, the package has no such way. */
#include <R.h>
#include <R_ext/Rdynload.h>
#include <Rinternals.h>
#include <limits.h>
#include <string.h>
#include "reading.h"
#include "report.h"

#ifdef WELUNGAD_LIBRARY
#include <welungad.h>

/* These calls are null in a library of an earlier release. */
__attribute__((weak)) uint8_t welungad_read(const uint64_t *bits, size_t bits_len, uint64_t *out, size_t out_len);
__attribute__((weak)) uint8_t welungad_test_rows(const uint8_t *kase, size_t kase_len, const uint64_t *p, size_t p_len,
                                                 uint8_t *rejected, size_t rejected_len, uint8_t *statuses, size_t statuses_len);
__attribute__((weak)) uint8_t welungad_update(const uint8_t *kase, size_t kase_len, const size_t *removed, size_t removed_len, uint8_t *out,
                                              size_t out_len, size_t *needed);

/* The room on the stack for an answer. A longer answer is asked for again, with room for it. */
#define FIRST_ROOM 65536

/* What a call of the library needs of the stack. If there is less, R stops before the call. */
#define STACK 524288

/* Whether the library that is loaded has the interface that the package was built with. If not, none of its other calls is made. */
static int has_interface(void) { return welungad_interface() == WELUNGAD_INTERFACE; }

/* Whether the library has the calls on numbers. */
static int has_calls(void) { return has_interface() && welungad_read != NULL && welungad_test_rows != NULL; }

/* Returns the words, each ended by a byte 0. */
static const uint8_t *joined(SEXP words, size_t *len) {
  size_t all = 0;
  R_xlen_t n = XLENGTH(words);
  for (R_xlen_t i = 0; i < n; i++) all += strlen(translateCharUTF8(STRING_ELT(words, i))) + 1;
  uint8_t *copy = (uint8_t *)R_alloc(all + 1, 1), *at = copy;
  for (R_xlen_t i = 0; i < n; i++) {
    const char *word = translateCharUTF8(STRING_ELT(words, i));
    size_t k = strlen(word) + 1;
    memcpy(at, word, k);
    at += k;
  }
  *len = all;
  return copy;
}

/* Returns the bytes of a raw vector. The library takes no null pointer, even for no bytes. */
static const uint8_t *bytes(SEXP x, size_t *len) {
  *len = (size_t)XLENGTH(x);
  return *len ? (const uint8_t *)RAW(x) : (const uint8_t *)"";
}

/* Returns the number of bytes of the line of a case that begins with a word, and counts its blanks; 0 if there is none. */
static size_t line_of(const uint8_t *kase, size_t len, const char *word, size_t *blanks) {
  size_t head = strlen(word);
  for (size_t begin = 0, end; begin < len; begin = end + 1) {
    for (end = begin; end < len && kase[end] != '\n'; end++);
    if (end - begin > head && memcmp(kase + begin, word, head) == 0) {
      *blanks = 0;
      for (size_t k = begin; k < end; k++) *blanks += kase[k] == ' ';
      return end - begin;
    }
  }
  return 0;
}

/* The room for the answer of a command that lists all sets of at most 16 hypotheses: a line for each of them, in which half of the names
 * stand, each with a number of some letters. If the answer is longer it takes a second call, as any other one that is longer than
 * FIRST_ROOM. */
static size_t room_for(const uint8_t *words, const uint8_t *kase, size_t case_len) {
  const char *word = (const char *)words;
  if (strcmp(word, "weights") && strcmp(word, "bounds") && strcmp(word, "simes")) return FIRST_ROOM;
  size_t count = 0, names = line_of(kase, case_len, "hypotheses ", &count);
  if (count < 10 || count > 16) return FIRST_ROOM;
  return ((size_t)1 << count) * (names / 2 + 5 * count + 16);
}

static SEXP answer(uint8_t status, const uint8_t *text, size_t len) {
  if (len > INT_MAX) error("the text has more than 2^31 - 1 bytes");
  const char *names[] = {"status", "text", ""};
  SEXP result = PROTECT(mkNamed(VECSXP, names));
  SET_VECTOR_ELT(result, 0, ScalarInteger(status));
  SET_VECTOR_ELT(result, 1, ScalarString(mkCharLenCE((const char *)text, (int)len, CE_UTF8)));
  UNPROTECT(1);
  return result;
}

static SEXP welungad_call(SEXP words, SEXP kase, SEXP proof) {
  if (TYPEOF(words) != STRSXP || TYPEOF(kase) != RAWSXP || TYPEOF(proof) != RAWSXP) error("words, a case and a proof are needed");
  if (!has_interface()) error("the C library has another interface than the one that the package was installed with");
  const void *top = vmaxget();
  uint8_t first[FIRST_ROOM], *out = first;
  size_t words_len, case_len, proof_len, needed = 0;
  const uint8_t *w = joined(words, &words_len), *c = bytes(kase, &case_len), *p = bytes(proof, &proof_len);
  size_t room = words_len ? room_for(w, c, case_len) : FIRST_ROOM;
  if (room > sizeof first) out = (uint8_t *)R_alloc(room, 1);
  else room = sizeof first;
  R_CheckStack2(STACK);
  uint8_t status = welungad_run(w, words_len, c, case_len, p, proof_len, out, room, &needed);
  while (status == WELUNGAD_ROOM && needed > room) {
    room = needed;
    out = (uint8_t *)R_alloc(room, 1);
    status = welungad_run(w, words_len, c, case_len, p, proof_len, out, room, &needed);
  }
  if (status == WELUNGAD_ROOM || needed > room) error("the C library gives no whole text");
  SEXP result = PROTECT(answer(status, out, needed));
  vmaxset(top);
  UNPROTECT(1);
  return result;
}

/* The interface of the library that the package was built with; 0 if the library that is loaded has another one. */
static SEXP interface(void) { return ScalarInteger(has_interface() ? WELUNGAD_INTERFACE : 0); }

int library_readings(const double *doubles, size_t len, uint64_t *words) {
  if (!has_calls()) return 0;
  uint64_t *bits = (uint64_t *)R_alloc(len + 1, sizeof(uint64_t));
  memcpy(bits, doubles, len * sizeof(double));
  R_CheckStack2(STACK);
  if (welungad_read(bits, len, words, WORDS * len) != WELUNGAD_DONE) error("the C library does not read doubles");
  return 1;
}

static SEXP has_numbers(void) { return ScalarLogical(has_calls()); }

static SEXP has_update(void) { return ScalarLogical(has_interface() && welungad_update != NULL); }

/* Returns the status and the text of the graph of a case without some hypotheses, which are removed in this order. Their places are from 1
 * on. */
static SEXP update(SEXP kase, SEXP removed) {
  if (TYPEOF(kase) != RAWSXP || TYPEOF(removed) != INTSXP) error("a case and places are needed");
  if (!has_interface() || welungad_update == NULL) error("the C library is of another release, and updates no graphs");
  const void *top = vmaxget();
  size_t case_len, count = (size_t)XLENGTH(removed), needed = 0, room = FIRST_ROOM;
  const uint8_t *c = bytes(kase, &case_len);
  size_t *places = (size_t *)R_alloc(count + 1, sizeof(size_t));
  for (size_t k = 0; k < count; k++) places[k] = (size_t)INTEGER(removed)[k] - 1;
  uint8_t *out = (uint8_t *)R_alloc(room, 1);
  R_CheckStack2(STACK);
  uint8_t status = welungad_update(c, case_len, places, count, out, room, &needed);
  while (status == WELUNGAD_ROOM && needed > room) {
    room = needed;
    out = (uint8_t *)R_alloc(room, 1);
    status = welungad_update(c, case_len, places, count, out, room, &needed);
  }
  if (status == WELUNGAD_ROOM || needed > room) error("the C library gives no whole text");
  SEXP result = PROTECT(answer(status, out, needed));
  vmaxset(top);
  UNPROTECT(1);
  return result;
}

/* The marks of rows as a logical matrix with a row for each of them. What is neither 0 nor 1 is NA. */
static SEXP marks_of(const uint8_t *marks, int rows, int columns) {
  SEXP result = PROTECT(allocMatrix(LGLSXP, rows, columns));
  for (int i = 0; i < rows; i++) {
    for (int j = 0; j < columns; j++) {
      uint8_t mark = marks[(size_t)i * columns + j];
      LOGICAL(result)[i + (R_xlen_t)rows * j] = mark > 1 ? NA_LOGICAL : mark;
    }
  }
  UNPROTECT(1);
  return result;
}

/* Returns a list of the `status` of the call, the matrix `rejected`, and the `statuses` of the rows, as welungad.h says. If the status
 * of the call is not 0, the others mean nothing. */
static SEXP welungad_rows(SEXP kase, SEXP p) {
  if (TYPEOF(kase) != RAWSXP || TYPEOF(p) != REALSXP || !isMatrix(p)) error("a case and a matrix of doubles are needed");
  if (!has_calls()) error("the C library is of another release, and decides no rows here");
  const void *top = vmaxget();
  int rows = nrows(p), columns = ncols(p);
  size_t case_len, count = (size_t)rows * columns;
  uint64_t *doubles = (uint64_t *)R_alloc(count + 1, sizeof(uint64_t));
  for (int i = 0; i < rows; i++) {
    for (int j = 0; j < columns; j++) memcpy(doubles + (size_t)i * columns + j, REAL(p) + i + (R_xlen_t)rows * j, sizeof(double));
  }
  uint8_t *marks = (uint8_t *)R_alloc(count + 1, 1), *statuses = (uint8_t *)R_alloc((size_t)rows + 1, 1);
  memset(marks, 0, count);
  memset(statuses, 0, (size_t)rows);
  const uint8_t *c = bytes(kase, &case_len);
  R_CheckStack2(STACK);
  uint8_t status = welungad_test_rows(c, case_len, doubles, count, marks, count, statuses, (size_t)rows);
  const char *names[] = {"status", "rejected", "statuses", ""};
  SEXP result = PROTECT(mkNamed(VECSXP, names));
  SET_VECTOR_ELT(result, 0, ScalarInteger(status));
  SET_VECTOR_ELT(result, 1, marks_of(marks, rows, columns));
  SET_VECTOR_ELT(result, 2, allocVector(INTSXP, rows));
  for (int i = 0; i < rows; i++) INTEGER(VECTOR_ELT(result, 2))[i] = statuses[i];
  vmaxset(top);
  UNPROTECT(1);
  return result;
}
#else
static SEXP welungad_call(SEXP words, SEXP kase, SEXP proof) {
  error("the package was installed without the C library");
}

static SEXP interface(void) { return ScalarInteger(0); }

int library_readings(const double *doubles, size_t len, uint64_t *words) { return 0; }

static SEXP has_numbers(void) { return ScalarLogical(0); }

static SEXP has_update(void) { return ScalarLogical(0); }

static SEXP update(SEXP kase, SEXP removed) { return welungad_call(kase, removed, removed); }

static SEXP welungad_rows(SEXP kase, SEXP p) { return welungad_call(kase, p, p); }
#endif

static const R_CallMethodDef calls[] = {
  {"welungad_call", (DL_FUNC)&welungad_call, 3},
  {"welungad_interface", (DL_FUNC)&interface, 0},
  {"welungad_has_numbers", (DL_FUNC)&has_numbers, 0},
  {"welungad_rows", (DL_FUNC)&welungad_rows, 2},
  {"welungad_has_update", (DL_FUNC)&has_update, 0},
  {"welungad_update", (DL_FUNC)&update, 2},
  {"welungad_fractions", (DL_FUNC)&welungad_fractions, 2},
  {"welungad_readings", (DL_FUNC)&welungad_readings, 2},
  {"welungad_doubles", (DL_FUNC)&welungad_doubles, 1},
  {"welungad_next", (DL_FUNC)&welungad_next, 2},
  {"welungad_read_test", (DL_FUNC)&welungad_read_test, 2},
  {"welungad_read_update", (DL_FUNC)&welungad_read_update, 3},
  {"welungad_read_sets", (DL_FUNC)&welungad_read_sets, 3},
  {NULL, NULL, 0},
};

void R_init_welungad(DllInfo *dll) {
  R_registerRoutines(dll, NULL, calls, NULL, NULL);
  R_useDynamicSymbols(dll, FALSE);
}
