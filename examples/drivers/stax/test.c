/* The converter in the simulator: its speed is set while samples come. The speed has to arrive in its register. */
#include <evlsim/runner.h>
#include <pthread.h>

#include "converter.h"
#include "registers.h"

/* The hardware. */
static unsigned at;
static uint32_t value[REGISTERS];
void set_index(unsigned index) { at = index; }
void set_data(uint32_t data) { value[at] = data; }
uint32_t get_data(void) { return value[at]; }
static void sample_comes(void *nothing) {
  (void)nothing;
  value[SAMPLE] += 100;
}

static void *set_speeds(void *nothing) {
  converter_set_speed(3);
  converter_set_speed(4);
  return nothing;
}

static void stax_test(void) {
  pthread_t thread;
  evlsim_require(converter_start() == 0);
  evlsim_settle();
  pthread_create(&thread, NULL, set_speeds, NULL);
  evlsim_may_arrive(CONVERTER_IRQ, 2, sample_comes, NULL);
  evlsim_rest();
  evlsim_require(value[SPEED] == 4);
  evlsim_require(value[SAMPLE] % 100 == 0 && converter_last() % 100 == 0);
}

int main(void) { return evlsim_explore(stax_test, NULL); }
