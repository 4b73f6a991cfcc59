/* The serial driver in the simulator: up to three bytes come, at any moment. None may be lost. */
#include <evlsim/runner.h>
#include <pthread.h>
#include <unistd.h>

#include "serial.h"
#include "uart.h"

/* The hardware. */
static uint8_t bytes[16];
static unsigned first, last;
bool uart_has_data(void) { return first != last; }
uint8_t uart_take_data(void) { return bytes[first++ % 16]; }
static void byte_comes(void *nothing) {
  (void)nothing;
  bytes[last % 16] = (uint8_t)('a' + last);
  last++;
}

/* Who reads the driver's bytes. */
static char got[16];
static unsigned got_count;
static void *read_all(void *it) {
  const int *buffer = it;
  while (read(*buffer, &got[got_count], 1) == 1) got_count++;
  return NULL;
}

static void serial_test(void) {
  pthread_t reader;
  int buffer = serial_start();
  evlsim_require(buffer >= 0);
  pthread_create(&reader, NULL, read_all, &buffer);
  evlsim_may_arrive(UART_IRQ, 3, byte_comes, NULL);
  evlsim_rest();
  evlsim_require(got_count == last);
  for (unsigned each = 0; each < got_count; each++) evlsim_require(got[each] == (char)('a' + each));
}

int main(void) {
  evlsim_limits limits = {.arrivals = 3};
  return evlsim_explore(serial_test, &limits);
}
