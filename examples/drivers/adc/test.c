/* The converter in the simulator: two samples come, at any moment. Each is taken once, in its order. */
#include <evlsim/runner.h>

#include "adc.h"

static uint16_t register_value;
static unsigned taken, wrong;
uint16_t adc_sample(void) { return register_value; }
static void convert(void *nothing) {
  (void)nothing;
  register_value++;
}

static void take(uint16_t sample) {
  taken++;
  if (sample != taken) wrong++;
}

static void adc_test(void) {
  evlsim_require(adc_start(take) == 0);
  evlsim_may_arrive(ADC_IRQ, 2, convert, NULL);
  evlsim_rest();
  evlsim_require(adc_lost() == 0);
  evlsim_require(taken == register_value);
  evlsim_require(wrong == 0);
}

int main(void) { return evlsim_explore(adc_test, NULL); }
