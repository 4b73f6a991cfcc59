/* Comparisons that can't mean anything: with WRONG from 1 on each is refused by the compiler; with 0 all compiles. */
#include <evlsim.h>

int main(void) {
  evlsim_kernel kernel = EVLSIM_NO_KERNEL;
  const evlsim_board board = {1, NULL, 0, NULL, 0, NULL, 0, NULL, 0, NULL, 0};
  evlsim_status status = evlsim_open(&kernel, &board, evlsim_program_bank, EVLSIM_PROGRAM_BANK, 9);
  evlsim_answer answer = evlsim_do(&kernel, 0, evlsim_call_put(9));
  bool is_so = evlsim_ok(status) && evlsim_refused_as(answer, EVLSIM_REFUSAL_UNKNOWN) && !evlsim_is_done(answer);
#if WRONG == 1
  is_so = answer.kind == EVLSIM_DONE_ANSWER;
#elif WRONG == 2
  is_so = answer.kind == EVLSIM_OK;
#elif WRONG == 3
  is_so = answer.kind == 1;
#elif WRONG == 4
  is_so = answer.refusal == 0;
#elif WRONG == 5
  is_so = status == EVLSIM_DONE;
#elif WRONG == 6
  is_so = status == 0;
#elif WRONG == 7
  is_so = !status;
#elif WRONG == 8
  if (evlsim_open(&kernel, &board, NULL, 0, 9)) is_so = false;
#elif WRONG == 9
  is_so = evlsim_ok(answer);
#elif WRONG == 10
  is_so = evlsim_is_done(status);
#elif WRONG == 11
  is_so = evlsim_status_is(status, EVLSIM_REFUSED);
#elif WRONG == 12
  is_so = evlsim_refused_as(answer, EVLSIM_BUSY_STATUS);
#elif WRONG == 13
  is_so = evlsim_refused_as(answer, EVLSIM_NO_MEMORY);
#elif WRONG == 14
  is_so = evlsim_has(answer, EVLSIM_REFUSAL_AGAIN);
#elif WRONG == 15
  is_so = evlsim_has(answer, EVLSIM_KIND_DONE);
#elif WRONG == 16
  status = evlsim_do(&kernel, 0, evlsim_call_put(0));
#elif WRONG == 17
  is_so = answer;
#elif WRONG == 18
  is_so = answer.kind == answer.refusal;
#endif
  evlsim_close(&kernel);
  return is_so ? 0 : 1;
}
