/* Welungad as a C library: words, a case and a proof in, a text and a status out. Two calls are for numbers: one reads doubles as
 * fractions, one decides many rows of p-values on one graph. One more returns the graph that is left after rejections.
 *
 * The text is the program's, byte for byte. Each call is independent: the library keeps nothing between calls, and touches no
 * file, device or global variable.
 *
 * What the caller owes. Nothing checks it, and no proof holds without it:
 * - A pointer that isn't NULL is to as many elements as its length says.
 * - The pointers to uint64_t and to size_t are aligned as these types are.
 * - The inputs (the pointers to const) stay as they are during the call. They may overlap each other.
 * - The outputs (the other pointers) overlap neither each other nor the inputs.
 * - malloc, realloc and free are of one allocator, and align a block to each power of two up to 16 that divides its size.
 * - No call is made from a signal handler. In the forked child of a process with threads a call is made only if malloc, realloc and free
 *   may be called there: POSIX doesn't allow it, and glibc does.
 * - The thread has 512 KiB of stack left.
 *
 * Pointers. Each may be NULL if its length is 0. A call with another NULL, also for needed, is answered with WELUNGAD_LENGTHS.
 *
 * Threads. Calls may run at the same time in different threads, each with an out and a needed of its own.
 *
 * Time. A call that has begun cannot be stopped, so make it in a thread of its own if somebody waits. weights, bounds and simes take
 * longest: on 16 hypotheses half a second, about 3 seconds if edges have an epsilon, and half a minute for 8 such graphs. On 64
 * hypotheses in 8 graphs, test takes about half a second and evidence about 3. A case is limited to 64 hypotheses, 8 graphs and
 * 4 MiB; for weights, bounds and simes to 16 hypotheses. */
#ifndef WELUNGAD_H
#define WELUNGAD_H

#include <stddef.h>
#include <stdint.h>

#ifdef __cplusplus
extern "C" {
#endif

#define WELUNGAD_INTERFACE 1

/* The release of this header. welungad_version returns that of the library. */
#define WELUNGAD_VERSION "0.2.0"

/* Returns the number of the interface that the library was built with. Compare it with WELUNGAD_INTERFACE: it changes when a
 * parameter, a status or the meaning of a call changes. */
uint32_t welungad_interface(void);

/* Returns the release that the library was built from, such as "1.2.3". The text belongs to the library. */
const char *welungad_version(void);

enum {
  WELUNGAD_DONE = 0,       /* The text is the report, the evidence or the case. */
  WELUNGAD_NO = 1,         /* check: the proof does not hold. The text says at which step. */
  WELUNGAD_USAGE = 2,      /* The words are not accepted. */
  WELUNGAD_MALFORMED = 3,  /* An input is malformed, or its p-values are not those that the command needs. */
  WELUNGAD_LIMIT = 4,      /* An input is past a limit. */
  WELUNGAD_TOO_WIDE = 5,   /* A number of the case or of the run is too wide: a numerator or denominator of 2^127, or epsilon^33. */
  WELUNGAD_ROOM = 7,       /* The text does not fit into out. *needed is the length of the whole text. */
  WELUNGAD_NO_MEMORY = 8,  /* Out of memory. The text is "no memory\n". */
  WELUNGAD_WORDS = 10,     /* The words are not UTF-8, or the last one has no byte 0 at its end. *needed is 0; out stays. */
  WELUNGAD_LENGTHS = 11    /* The lengths of a call on numbers don't fit each other, or a pointer is NULL that may not be. Nothing
                              is written. welungad_update: the positions are not those of hypotheses, each once. */
};

/* Runs the program's command in memory, and returns its status. Statuses 2 to 5 come with one line as the text: the refusal. Texts of
 * char are handed in by a cast, and the last byte 0 of a word is part of it:
 *
 *   const char words[] = "test", kase[] = "alpha 0.025\nhypotheses A\np 0.01\nweights 1\n";
 *   char out[4096];
 *   size_t needed;
 *   uint8_t status = welungad_run((const uint8_t *)words, sizeof words, (const uint8_t *)kase, sizeof kase - 1, NULL, 0,
 *                                 (uint8_t *)out, sizeof out, &needed);
 *
 * words   The words after the program's name, each ended by a byte 0: "test\0" (5 bytes), "check\0-\0" (8 bytes). A study's
 *         words are answered with WELUNGAD_USAGE.
 * kase    The bytes that the program reads from standard input. Give length 0 if the words read no case.
 * proof   The bytes that the program reads from the file of "check FILE". FILE itself is any word; it is not opened.
 * out     Room for the text. What is after the text stays. If the text does not fit, the status is WELUNGAD_ROOM and out holds
 *         the text's first out_len bytes; call again with room for *needed bytes. The same inputs have the same answer, unless
 *         the call is out of memory.
 * needed  Becomes the length of the whole text. */
uint8_t welungad_run(const uint8_t *words, size_t words_len, const uint8_t *kase, size_t kase_len, const uint8_t *proof,
                     size_t proof_len, uint8_t *out, size_t out_len, size_t *needed);

/* Reads doubles as fractions: a number typed as 0.025 or 1/3 is read as that fraction.
 *
 * A double from 0 to 1 is read as the first of these that there is:
 * 1. the fraction of the least denominator that rounds to it, if that denominator is at most 10000;
 * 2. the decimal of the fewest places that rounds to it, if those are at most 30: of several the nearest to the double, of two as
 *    near the one with the even numerator;
 * 3. the double rounded up to a multiple of 10^-30.
 * Minus zero is read as 0. A NaN, a value below 0 and a value above 1 have no reading.
 *
 * bits    The bits of each double, as IEEE 754 encodes it: memcpy a double into the uint64_t.
 * out     Four words for each double, so out_len is 4 * bits_len: the numerator, low word first, and the denominator, low word
 *         first. The fraction is in lowest terms. A double without a reading gets four zeros; a denominator is 0 only then.
 *
 * Returns WELUNGAD_DONE with all of out written, or WELUNGAD_LENGTHS with nothing written. It allocates nothing. */
uint8_t welungad_read(const uint64_t *bits, size_t bits_len, uint64_t *out, size_t out_len);

/* Decides the case of a text with each of many rows of p-values in place of its own, as the closed test decides it.
 *
 * kase      The text of a case, with or without p-values, which are not used. A case with stages is malformed here.
 * p         The bits of the p-values, row by row, each row in the order of the hypotheses. They are read as welungad_read reads
 *           them.
 * rejected  A mark for each p-value of p, in the same order, so rejected_len is p_len. It becomes 1 if the hypothesis is rejected
 *           in the decision of its row, and else 0.
 * statuses  A status for each row, so p_len is statuses_len times the number of hypotheses. It becomes
 *           - WELUNGAD_DONE: the row is decided;
 *           - WELUNGAD_MALFORMED: a p-value of the row has no reading;
 *           - WELUNGAD_TOO_WIDE: a number of the run of the row is too wide.
 *           With the last two no hypothesis of the row is decided, and all of its marks are 0.
 *
 * Returns WELUNGAD_DONE, and then each mark and each status of a row is written. With another status nothing is written:
 * - WELUNGAD_MALFORMED, WELUNGAD_LIMIT or WELUNGAD_TOO_WIDE: the case is refused, whatever the p-values are. If its text is,
 *   welungad_run with the word "canon" answers with the line that says why. Else it has stages. Or the lengths fit, and a number of
 *   the opening, before any rejection, is too wide;
 * - WELUNGAD_LENGTHS: the lengths don't fit the number of hypotheses;
 * - WELUNGAD_NO_MEMORY: out of memory. */
uint8_t welungad_test_rows(const uint8_t *kase, size_t kase_len, const uint64_t *p, size_t p_len, uint8_t *rejected,
                           size_t rejected_len, uint8_t *statuses, size_t statuses_len);

/* Puts the graph of a case after rejections: the update of the graphical procedure, rejection after rejection. Nothing is tested, so
 * any hypotheses may be named.
 *
 * kase     The text of a case, with or without p-values or stages. These are read as every command reads them, and are not used.
 * removed  The positions of the rejected hypotheses, from 0 on, in the order of their removal, each once. With removed_len 0 the
 *          text is that of the case as it was given.
 * out      Room for the text. What is after the text stays. If the text does not fit, the status is WELUNGAD_ROOM and out holds
 *          the text's first out_len bytes; call again with room for *needed bytes.
 * needed   Becomes the length of the whole text.
 *
 * The text has one line for each of these, with one blank between words:
 *   component K      for each component, from 1 on. After it, for each remaining hypothesis in the order of the case:
 *   weight NAME N    its weight in this component,
 *   edge FROM TO N   and each of its edges that is not 0, in the order of the case.
 *   level NAME F     After the last component, for each remaining hypothesis: its weight over all components, from 0 to 1.
 *   end
 * F is a fraction in lowest terms, such as 1/3. N is one too, unless an edge of the case has an epsilon: then it is a quotient of
 * polynomials in epsilon, as evidence has them, such as [1,-1]/[2]. A constant is a fraction.
 *
 * Returns
 * - WELUNGAD_DONE: the text is the graph;
 * - WELUNGAD_MALFORMED, WELUNGAD_LIMIT or WELUNGAD_TOO_WIDE: the case is refused, and the text is the line with which
 *   welungad_run and the word "canon" refuse it;
 * - WELUNGAD_TOO_WIDE also if a number of the opening or of a removal is too wide. The text then is a line
 *   "too wide: step S: component K PLACE OPERATION", where S is the number of the removal from 1 on, and 0 the opening;
 * - WELUNGAD_ROOM: the text does not fit into out;
 * - WELUNGAD_NO_MEMORY: out of memory. The text is "no memory\n";
 * - WELUNGAD_LENGTHS: a position is not below the number of hypotheses, or is there twice. *needed is 0, and out stays. Or a
 *   pointer is NULL that may not be, and nothing is written. */
uint8_t welungad_update(const uint8_t *kase, size_t kase_len, const size_t *removed, size_t removed_len, uint8_t *out,
                        size_t out_len, size_t *needed);

#ifdef __cplusplus
}
#endif
#endif
