/* Reads doubles as fractions, by the rule that ?as_exact states. The library does it by a proved function. What is here is the same
 * rule for a package without the library, the texts of the fractions, and the doubles that are below 0 or above 1. */
#include <R.h>
#include <Rinternals.h>
#include <float.h>
#include <locale.h>
#include <math.h>
#include <stdint.h>
#include <stdio.h>
#include <stdlib.h>
#include <string.h>
#include "reading.h"

/* Numbers below 2^127. */
__extension__ typedef unsigned __int128 wide;

/* A fraction; there is none if d is 0. */
typedef struct {
  wide n, d;
} fraction;

#define MOST_DENOMINATOR 10000
#define MOST_PLACES 30

/* Room for the text of a number: a double of 309 digits, or two parts of 39. */
#define ROOM 400

enum rule { LEAST_DENOMINATOR = 1, SHORTEST_DECIMAL, ROUNDED_UP, ABSENT };

/* ---- the fraction with the least denominator */

/* Whether the quotient n / d is at most `room` from x. The quotient is rounded to a double before it is compared. */
static int is_near(double n, double d, double x, double room) {
  volatile double quotient = n / d;
  return fabs(quotient - x) <= room;
}

/* Finds the first convergent n/d of the continued fraction of x, which is not negative, with d up to 10,000 and R's n / d at most
 * `room` from x. Returns whether there is one. Fractions with such denominators are at least 10^-8 apart, so below 2^26 no other
 * fraction of them is as near. */
static int find_fraction(double x, double room, double *n, double *d) {
  double n_before = 1, d_before = 0, rest = x;
  *n = floor(x), *d = 1;
  while (!is_near(*n, *d, x, room)) {
    rest -= floor(rest);
    if (rest <= 0) return 0;
    rest = 1 / rest;
    double part = floor(rest), n_next = part * *n + n_before, d_next = part * *d + d_before;
    if (d_next > MOST_DENOMINATOR) return 0;
    n_before = *n, d_before = *d, *n = n_next, *d = d_next;
  }
  return 1;
}

/* Returns a list with the numerators and the denominators of the fractions that are at most `room` from the doubles: NA where
 * there is none, and for doubles that are not finite. `room` has one number, or one for each double. */
SEXP welungad_fractions(SEXP doubles, SEXP room) {
  R_xlen_t len = XLENGTH(doubles);
  if (TYPEOF(doubles) != REALSXP || TYPEOF(room) != REALSXP) error("doubles are needed");
  if (XLENGTH(room) != 1 && XLENGTH(room) != len) error("one room is needed, or one for each double");
  const char *names[] = {"n", "d", ""};
  SEXP result = PROTECT(mkNamed(VECSXP, names));
  SET_VECTOR_ELT(result, 0, allocVector(REALSXP, len));
  SET_VECTOR_ELT(result, 1, allocVector(REALSXP, len));
  double *n = REAL(VECTOR_ELT(result, 0)), *d = REAL(VECTOR_ELT(result, 1));
  for (R_xlen_t i = 0; i < len; i++) {
    double x = REAL(doubles)[i], most = REAL(room)[XLENGTH(room) == 1 ? 0 : i];
    if (!R_FINITE(x) || !find_fraction(fabs(x), most, &n[i], &d[i])) {
      n[i] = d[i] = NA_REAL;
    } else if (x < 0) {
      n[i] = -n[i];
    }
  }
  UNPROTECT(1);
  return result;
}

/* ---- decimals */

static wide power(unsigned base, int exponent) {
  wide value = 1;
  while (exponent-- > 0) value *= base;
  return value;
}

/* A double above 0 and at most 1, and the ends of the interval of what rounds to it, in quarters of its last place: all three are
 * to be divided by 2^shift. Below a power of 2 the doubles are twice as dense. Whether the ends belong to the interval decides
 * nothing, since no multiple of 10^-30 is an end. */
typedef struct {
  wide low, middle, high;
  int shift;
} interval;

static interval interval_of(double x) {
  uint64_t bits;
  memcpy(&bits, &x, sizeof bits);
  int exponent = (int)(bits >> 52);
  uint64_t digits = bits & ((UINT64_C(1) << 52) - 1), mantissa = digits + (exponent ? UINT64_C(1) << 52 : 0);
  wide middle = (wide)mantissa * 4;
  return (interval){middle - (digits == 0 && exponent > 1 ? 1 : 2), middle, middle + 2, 1077 - (exponent > 1 ? exponent : 1)};
}

static wide rounded_up(wide over, int shift) { return (over >> shift) + ((over & (((wide)1 << shift) - 1)) != 0); }

/* The whole number nearest to over / 2^shift, of two the even one. */
static wide nearest(wide over, int shift) {
  wide below = over >> shift, rest = over & (((wide)1 << shift) - 1), half = (wide)1 << (shift - 1);
  return below + (rest > half || (rest == half && below % 2 == 1));
}

/* The decimal with the fewest places, up to 30, that rounds to x, which is above 0 and at most 1: of several the nearest to x. Else x
 * rounded up to a multiple of 10^-30. The parts stay below 2^126, since 10^j = 5^j 2^j. */
static fraction decimal(double x) {
  interval ends = interval_of(x);
  for (int j = 1; j <= MOST_PLACES; j++) {
    int shift = ends.shift - j;
    if (shift > 126) continue;
    wide scale = power(5, j), least = rounded_up(ends.low * scale, shift), most = (ends.high * scale) >> shift;
    if (least > most) continue;
    wide n = nearest(ends.middle * scale, shift);
    return (fraction){n < least ? least : n > most ? most : n, power(10, j)};
  }
  int shift = ends.shift - MOST_PLACES;
  return (fraction){shift > 126 ? 1 : rounded_up(ends.middle * power(5, MOST_PLACES), shift), power(10, MOST_PLACES)};
}

/* Whether a multiple of 10^-30 rounds to x, which is above 0 and at most 1. */
static int has_decimal(double x) {
  interval ends = interval_of(x);
  int shift = ends.shift - MOST_PLACES;
  wide scale = power(5, MOST_PLACES);
  return shift <= 126 && rounded_up(ends.low * scale, shift) <= (ends.high * scale) >> shift;
}

/* What a double from 0 to 1 is read as. */
static fraction own_reading(double x) {
  double n, d;
  if (find_fraction(x, 0, &n, &d)) return (fraction){(wide)n, (wide)d};
  return decimal(x);
}

static void write_words(fraction x, uint64_t *words) {
  words[0] = (uint64_t)x.n, words[1] = (uint64_t)(x.n >> 64), words[2] = (uint64_t)x.d, words[3] = (uint64_t)(x.d >> 64);
}

static fraction fraction_in(const uint64_t *words) {
  return (fraction){words[0] + ((wide)words[1] << 64), words[2] + ((wide)words[3] << 64)};
}

/* ---- texts */

/* Writes a number, which is not 0, by its digits, and returns how many there are. */
static int digits_of(wide n, char *text) {
  char reversed[40];
  int count = 0;
  for (; n > 0; n /= 10) reversed[count++] = (char)('0' + (int)(n % 10));
  for (int i = 0; i < count; i++) text[i] = reversed[count - 1 - i];
  text[count] = 0;
  return count;
}

/* Writes a fraction as the shortest decimal, as C's %g has it. It is above 0 and at most 1, and its denominator divides a power
 * of 10. */
static void decimal_text(fraction x, char *text) {
  char digits[40];
  int places = 0;
  wide scale = 1;
  for (; scale % x.d != 0 && places <= MOST_PLACES; places++) scale *= 10;
  wide n = x.n * (scale / x.d);
  for (; n % 10 == 0 && places > 0; places--) n /= 10;
  int count = digits_of(n, digits), exponent = count - 1 - places;
  if (exponent >= -4) {
    snprintf(text, ROOM, "0.%.*s%s", -1 - exponent, "000", digits);
  } else {
    snprintf(text, ROOM, "%c%s%se%03d", digits[0], count > 1 ? "." : "", digits + 1, exponent);
  }
}

/* Writes a quotient of whole numbers; a whole one has no denominator. */
static void quotient_text(double n, double d, char *text) {
  int count = snprintf(text, ROOM, "%.0f", n);
  if (d != 1) snprintf(text + count, (size_t)(ROOM - count), "/%.0f", d);
}

/* Writes a point in place of what the user's locale has, as a comma. */
static void with_point(char *text) {
  const char *own = localeconv()->decimal_point;
  char *at = strcmp(own, ".") == 0 ? NULL : strstr(text, own);
  if (at == NULL) return;
  memmove(at + 1, at + strlen(own), strlen(at + strlen(own)) + 1);
  *at = '.';
}

/* Writes the shortest decimal that is read back as a double that is not 0. Below the normal doubles few digits can be enough. */
static void shortest(double x, char *text) {
  int digits = fabs(x) < DBL_MIN ? 1 : 15;
  do snprintf(text, ROOM, "%.*g", digits, x);
  while (strtod(text, NULL) != x && ++digits <= 17);
  with_point(text);
}

/* Writes the text of what a double from 0 to 1 is read as, and returns the rule. */
static enum rule reading_text(double x, fraction found, char *text) {
  if (found.n > found.d || found.d == 0) error("a double has no reading");
  if (found.d <= MOST_DENOMINATOR) {
    quotient_text((double)found.n, (double)found.d, text);
    return LEAST_DENOMINATOR;
  }
  if (power(10, MOST_PLACES) % found.d != 0) error("a double has no reading");
  decimal_text(found, text);
  return has_decimal(x) ? SHORTEST_DECIMAL : ROUNDED_UP;
}

/* The same of a double above 1, which no case has: its refusal names it. */
static enum rule large_text(double x, char *text) {
  double n, d;
  if (find_fraction(x, 0, &n, &d)) {
    quotient_text(n, d, text);
    return LEAST_DENOMINATOR;
  }
  shortest(x, text);
  return SHORTEST_DECIMAL;
}

/* Puts what R shows for a double, what it is read as, and the rule. Doubles below 0 are read as those above 0 are. */
static void put(SEXP result, R_xlen_t i, double x, fraction found) {
  char read[ROOM + 1] = "-", given[ROOM + 1], *text = read + (x < 0);
  enum rule rule = ABSENT;
  if (R_FINITE(x)) rule = fabs(x) <= 1 ? reading_text(fabs(x), found, text) : large_text(fabs(x), text);
  INTEGER(VECTOR_ELT(result, 2))[i] = rule;
  if (rule == ABSENT) {
    SET_STRING_ELT(VECTOR_ELT(result, 0), i, mkChar("NA"));
    SET_STRING_ELT(VECTOR_ELT(result, 1), i, NA_STRING);
    return;
  }
  if (rule == ROUNDED_UP) {
    shortest(x, given);
  } else {
    snprintf(given, ROOM, "%.15g", x == 0 ? 0 : x);
    with_point(given);
  }
  SET_STRING_ELT(VECTOR_ELT(result, 0), i, rule == SHORTEST_DECIMAL ? mkChar(read) : mkChar(given));
  SET_STRING_ELT(VECTOR_ELT(result, 1), i, mkChar(read));
}

/* Returns a list of `given`, what R shows for each double, `read`, the text of what it is read as, and `rule`, its number. `own` is
 * TRUE if the rule of this file has to read them also if the library is there. */
SEXP welungad_readings(SEXP doubles, SEXP own) {
  if (TYPEOF(doubles) != REALSXP || TYPEOF(own) != LGLSXP || XLENGTH(own) != 1) error("doubles are needed, and TRUE or FALSE");
  const void *top = vmaxget();
  R_xlen_t len = XLENGTH(doubles);
  double *sizes = (double *)R_alloc((size_t)len + 1, sizeof(double));
  uint64_t *words = (uint64_t *)R_alloc((size_t)len + 1, WORDS * sizeof(uint64_t));
  for (R_xlen_t i = 0; i < len; i++) {
    double size = fabs(REAL(doubles)[i]);
    sizes[i] = size <= 1 ? size : 0;
  }
  if (LOGICAL(own)[0] || !library_readings(sizes, (size_t)len, words)) {
    for (R_xlen_t i = 0; i < len; i++) write_words(own_reading(sizes[i]), words + WORDS * i);
  }
  const char *names[] = {"given", "read", "rule", ""};
  SEXP result = PROTECT(mkNamed(VECSXP, names));
  SET_VECTOR_ELT(result, 0, allocVector(STRSXP, len));
  SET_VECTOR_ELT(result, 1, allocVector(STRSXP, len));
  SET_VECTOR_ELT(result, 2, allocVector(INTSXP, len));
  for (R_xlen_t i = 0; i < len; i++) put(result, i, REAL(doubles)[i], fraction_in(words + WORDS * i));
  vmaxset(top);
  UNPROTECT(1);
  return result;
}

/* ---- the other way */

/* Reads a whole number of 1 to 38 digits, and returns where the text continues; NULL if there is none. */
static const char *read_whole(const char *text, wide *value) {
  int count = 0;
  *value = 0;
  for (; *text >= '0' && *text <= '9' && count < 39; text++, count++) *value = *value * 10 + (wide)(*text - '0');
  return count >= 1 && count <= 38 ? text : NULL;
}

/* Reads an exponent of at most two digits after its sign, and returns where the text continues; NULL if there is none. */
static const char *read_exponent(const char *text, int *exponent) {
  int negative = *text == '-', count = 0;
  if (*text == '-' || *text == '+') text++;
  for (*exponent = 0; *text >= '0' && *text <= '9' && count < 3; text++, count++) *exponent = *exponent * 10 + (*text - '0');
  if (negative) *exponent = -*exponent;
  return count >= 1 && count <= 2 ? text : NULL;
}

/* Reads a decimal of at most 38 digits as the fraction n / d, whose parts have at most 38 digits too. Returns whether it is one. */
static int read_decimal(const char *text, wide *n, wide *d) {
  int digits = 0, places = 0, has_point = 0, exponent = 0;
  for (*n = 0; (*text >= '0' && *text <= '9') || (*text == '.' && !has_point); text++) {
    if (*text == '.') {
      has_point = 1;
      continue;
    }
    if (++digits > 38) return 0;
    *n = *n * 10 + (wide)(*text - '0');
    places += has_point;
  }
  if (*text == 'e') text = read_exponent(text + 1, &exponent);
  if (digits == 0 || text == NULL || *text != 0) return 0;
  for (places -= exponent; places < 0 && *n < power(10, 37); places++) *n *= 10;
  if (places < 0 || places > 38) return 0;
  *d = power(10, places);
  return 1;
}

/* The double nearest to a fraction, of two the even one: R's quotient if both parts are doubles, else that of its first 55 digits, of
 * which the last one is 1 if any digit after it is, so that the machine rounds once. */
static double double_of(wide n, wide d) {
  const wide most = (wide)1 << 53;
  if (n <= most && d <= most) return (double)n / (double)d;
  wide quotient = n / d, rest = n % d;
  int exponent = 0;
  for (; quotient >> 55; exponent++) {
    rest |= quotient & 1;
    quotient >>= 1;
  }
  for (; quotient >> 54 == 0 && (quotient > 0 || rest > 0); exponent--) {
    rest *= 2;
    quotient = 2 * quotient + (rest >= d);
    if (rest >= d) rest -= d;
  }
  return ldexp((double)(uint64_t)(quotient | (rest > 0)), exponent);
}

/* Returns the doubles of texts that are whole numbers, decimals, or fractions of parts of at most 38 digits; NA for other texts. */
SEXP welungad_doubles(SEXP texts) {
  if (TYPEOF(texts) != STRSXP) error("texts are needed");
  R_xlen_t len = XLENGTH(texts);
  SEXP result = PROTECT(allocVector(REALSXP, len));
  for (R_xlen_t i = 0; i < len; i++) {
    wide n, d = 1;
    const char *rest = STRING_ELT(texts, i) == NA_STRING ? NULL : read_whole(CHAR(STRING_ELT(texts, i)), &n);
    if (rest && *rest == '/') rest = read_whole(rest + 1, &d);
    int is_read = rest && *rest == 0 && d > 0;
    if (!is_read && STRING_ELT(texts, i) != NA_STRING) is_read = read_decimal(CHAR(STRING_ELT(texts, i)), &n, &d);
    REAL(result)[i] = is_read ? double_of(n, d) : NA_REAL;
  }
  UNPROTECT(1);
  return result;
}

/* Returns the double after each of some doubles, or that before it. */
SEXP welungad_next(SEXP doubles, SEXP above) {
  if (TYPEOF(doubles) != REALSXP || TYPEOF(above) != LGLSXP || XLENGTH(above) != 1) error("doubles are needed, and TRUE or FALSE");
  SEXP result = PROTECT(allocVector(REALSXP, XLENGTH(doubles)));
  double end = LOGICAL(above)[0] ? HUGE_VAL : -HUGE_VAL;
  for (R_xlen_t i = 0; i < XLENGTH(doubles); i++) REAL(result)[i] = nextafter(REAL(doubles)[i], end);
  UNPROTECT(1);
  return result;
}
