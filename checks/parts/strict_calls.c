/*
 * Calls that have to succeed (evlsim/strict.h): with no words each succeeds, and this ends with 0; with a number one of those that
 * don't is made, and abort() ends the program, with its place and the refusal on standard error. Run by checks/embed.
 */
#include <evlsim/strict.h>

int main(int count, char **words) {
  const evlsim_board board = {2, NULL, 0, NULL, 0, NULL, 0, NULL, 0, NULL, 0};
  const uint16_t staxes[] = {1};
  evlsim_kernel kernel;
  evlsim_caller callers[2];
  const int number = count > 1 ? atoi(words[1]) : 0;
  if (!evlsim_ok(evlsim_open(&kernel, &board, NULL, 0, 2))) return 1;
  if (!evlsim_ok(evlsim_machine_open(callers, 2, &board, staxes, 1, NULL, 0, 9))) return 1;
  if (!evlsim_is_done(evlsim_do_strict(&kernel, 1, evlsim_call_attach(evlsim_fifo(10), EVLSIM_OOB)))) return 1;
  if (!evlsim_is_done(evlsim_strict(evlsim_try_lock_stax(&callers[0], 0)))) return 1;
  if (number == 1) evlsim_do_strict(&kernel, 0, evlsim_call_attach(evlsim_fifo(100), EVLSIM_OOB));
  if (number == 2) evlsim_strict(evlsim_try_lock_stax(&callers[1], 0));
  evlsim_do_strict(&kernel, 0, evlsim_call_now());
  if (number == 3) evlsim_do_strict(&kernel, 0, evlsim_call_now());
  evlsim_close(&kernel);
  if (number == 4) evlsim_do_strict(&kernel, 0, evlsim_call_now());
  evlsim_caller_close(&callers[0]);
  evlsim_caller_close(&callers[1]);
  return 0;
}
