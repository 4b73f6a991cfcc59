/* A bus that one thread uses at a time: by a semaphore that begins with 1, or by a mutex, whose owner inherits. */
#include "bus.h"

#include <evl/evl.h>

#ifdef WITH_BUG
static struct evl_sem free_bus;

int bus_start(void) {
  int error = evl_create_sem(&free_bus, EVL_CLOCK_MONOTONIC, 1, EVL_CLONE_PRIVATE, "bus");
  return error < 0 ? error : 0;
}

void bus_send(uint8_t byte) {
  evl_get_sem(&free_bus);
  bus_shift(byte);
  evl_put_sem(&free_bus);
}
#else
static struct evl_mutex bus;

int bus_start(void) {
  int error = evl_new_mutex(&bus, "bus");
  return error < 0 ? error : 0;
}

void bus_send(uint8_t byte) {
  evl_lock_mutex(&bus);
  bus_shift(byte);
  evl_unlock_mutex(&bus);
}
#endif
