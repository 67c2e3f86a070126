/* The calls of welungad.h that C can make with less care than the proved ones ask for, and the release.
 *
 * A proved call takes no NULL, also for nothing. A NULL of another length than 0 is refused here, since a call over a pointer to
 * something else would decide what nobody gave. c/build.sh gives a proved call the name that it has here (c/proved.names). */
#include "welungad.h"

uint8_t welungad_run_proved(const uint8_t *words, size_t words_len, const uint8_t *kase, size_t kase_len, const uint8_t *proof,
                            size_t proof_len, uint8_t *out, size_t out_len, size_t *needed);
uint8_t welungad_read_proved(const uint64_t *bits, size_t bits_len, uint64_t *out, size_t out_len);
uint8_t welungad_test_rows_proved(const uint8_t *kase, size_t kase_len, const uint64_t *p, size_t p_len, uint8_t *rejected,
                                  size_t rejected_len, uint8_t *statuses, size_t statuses_len);
uint8_t welungad_update_proved(const uint8_t *kase, size_t kase_len, const size_t *removed, size_t removed_len, uint8_t *out,
                               size_t out_len, size_t *needed);

/* c/build.sh takes the text from the file VERSION. */
const char *welungad_version(void) { return WELUNGAD_RELEASE; }

/* Whether a pointer is NULL although its length isn't 0. */
static int is_missing(const void *pointer, size_t len) { return pointer == NULL && len != 0; }

uint8_t welungad_run(const uint8_t *words, size_t words_len, const uint8_t *kase, size_t kase_len, const uint8_t *proof,
                     size_t proof_len, uint8_t *out, size_t out_len, size_t *needed) {
  uint8_t nothing = 0;
  if (is_missing(words, words_len) || is_missing(kase, kase_len) || is_missing(proof, proof_len) || is_missing(out, out_len) ||
      needed == NULL)
    return WELUNGAD_LENGTHS;
  return welungad_run_proved(words ? words : &nothing, words_len, kase ? kase : &nothing, kase_len, proof ? proof : &nothing,
                             proof_len, out ? out : &nothing, out_len, needed);
}

uint8_t welungad_read(const uint64_t *bits, size_t bits_len, uint64_t *out, size_t out_len) {
  uint64_t nothing = 0;
  if (is_missing(bits, bits_len) || is_missing(out, out_len)) return WELUNGAD_LENGTHS;
  return welungad_read_proved(bits ? bits : &nothing, bits_len, out ? out : &nothing, out_len);
}

uint8_t welungad_test_rows(const uint8_t *kase, size_t kase_len, const uint64_t *p, size_t p_len, uint8_t *rejected,
                           size_t rejected_len, uint8_t *statuses, size_t statuses_len) {
  uint64_t no_words = 0;
  uint8_t nothing = 0;
  if (is_missing(kase, kase_len) || is_missing(p, p_len) || is_missing(rejected, rejected_len) ||
      is_missing(statuses, statuses_len))
    return WELUNGAD_LENGTHS;
  return welungad_test_rows_proved(kase ? kase : &nothing, kase_len, p ? p : &no_words, p_len, rejected ? rejected : &nothing,
                                   rejected_len, statuses ? statuses : &nothing, statuses_len);
}

uint8_t welungad_update(const uint8_t *kase, size_t kase_len, const size_t *removed, size_t removed_len, uint8_t *out,
                        size_t out_len, size_t *needed) {
  size_t no_position = 0;
  uint8_t nothing = 0;
  if (is_missing(kase, kase_len) || is_missing(removed, removed_len) || is_missing(out, out_len) || needed == NULL)
    return WELUNGAD_LENGTHS;
  return welungad_update_proved(kase ? kase : &nothing, kase_len, removed ? removed : &no_position, removed_len,
                                out ? out : &nothing, out_len, needed);
}
