// Whether a program in C++ may include the header, also twice, and finds each of its calls.
#include <welungad.h>
#include <welungad.h>
#include <string>

int main() {
  const uint8_t words[] = "help", kase[] = "alpha 0.05\nhypotheses A\nweights 1\n";
  const uint64_t half = 0x3fe0000000000000u;
  uint64_t parts[4] = {9, 9, 9, 9};
  uint8_t mark = 9, status = 9, out[16384];
  size_t needed = 0;
  if (welungad_interface() != WELUNGAD_INTERFACE || std::string(welungad_version()) != WELUNGAD_VERSION) return 1;
  if (welungad_run(words, sizeof words, nullptr, 0, nullptr, 0, out, sizeof out, &needed) != WELUNGAD_DONE || needed == 0) return 2;
  if (welungad_read(&half, 1, parts, 4) != WELUNGAD_DONE || parts[0] != 1 || parts[1] != 0 || parts[2] != 2 || parts[3] != 0) return 3;
  if (welungad_test_rows(kase, sizeof kase - 1, &half, 1, &mark, 1, &status, 1) != WELUNGAD_DONE || mark != 0 || status != 0) return 4;
  if (welungad_update(kase, sizeof kase - 1, nullptr, 0, out, sizeof out, &needed) != WELUNGAD_DONE || needed == 0) return 5;
  return 0;
}
