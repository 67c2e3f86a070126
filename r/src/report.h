#ifndef WELUNGAD_REPORT_H
#define WELUNGAD_REPORT_H

#include <Rinternals.h>

SEXP welungad_read_test(SEXP lines, SEXP names);
SEXP welungad_read_update(SEXP text, SEXP names, SEXP count);
SEXP welungad_read_sets(SEXP lines, SEXP names, SEXP has_weights);

#endif
