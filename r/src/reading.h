#ifndef WELUNGAD_READING_H
#define WELUNGAD_READING_H

#include <Rinternals.h>
#include <stddef.h>
#include <stdint.h>

/* The words of a fraction: its numerator and its denominator, each by its low and its high half. */
#define WORDS 4

/* Writes the words of what the library reads doubles as, and returns 1; returns 0 if there is no library with this call. */
int library_readings(const double *doubles, size_t len, uint64_t *words);

SEXP welungad_fractions(SEXP doubles, SEXP room);
SEXP welungad_readings(SEXP doubles, SEXP own);
SEXP welungad_doubles(SEXP texts);
SEXP welungad_next(SEXP doubles, SEXP above);

#endif
