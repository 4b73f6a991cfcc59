/* The CAN driver in the simulator: what was sent is on the bus once, and what timed out isn't there. */
#include <evl/evl.h>
#include <evlsim/runner.h>
#include <pthread.h>
#include <stdbool.h>

#include "can.h"

/*
 * The hardware: of the frames in the mailboxes that of the least id goes out. An interrupt may come within can_load as
 * within all other code, so each mailbox has a `full` of its own, which is one store.
 */
static struct can_frame boxes[CAN_BOXES], bus[8];
static bool full[CAN_BOXES];
static unsigned went_out, bus_count;
void can_load(int box, const struct can_frame *frame) {
  evlsim_require(box < CAN_BOXES);
  boxes[box] = *frame;
  full[box] = true;
}
void can_abort(int box) { full[box] = false; }
unsigned can_take_sent(void) {
  unsigned sent = went_out;
  went_out = 0;
  return sent;
}
static void frame_goes_out(void *nothing) {
  int least = -1;
  (void)nothing;
  for (int box = 0; box < CAN_BOXES; box++)
    if (full[box] && (least < 0 || boxes[box].id < boxes[least].id)) least = box;
  if (least < 0) return; /* the interrupt comes nevertheless, for nothing */
  bus[bus_count++] = boxes[least];
  full[least] = false;
  went_out |= 1u << least;
}

/* Four threads send a frame each, by two mailboxes; the one of the greatest priority has the greatest id. */
#define FRAMES 4
static int results[FRAMES];
static void *send_one(void *it) {
  int *result = it, number = (int)(result - results);
  struct can_frame frame = {.id = (uint16_t)(0x100 - number), .data = 1};
  struct evl_sched_attrs attrs = {.sched_policy = SCHED_FIFO, .sched_priority = 73 - number};
  int self = evl_attach_self("sender %d", number);
  evlsim_require(self >= 0 && evl_set_schedattr(self, &attrs) == 0);
  *result = can_send(&frame);
  return NULL;
}

static void can_test(void) {
  pthread_t senders[FRAMES];
  evlsim_require(can_start() == 0);
  evlsim_may_arrive(CAN_IRQ, 2, frame_goes_out, NULL);
  for (int each = 0; each < FRAMES; each++) pthread_create(&senders[each], NULL, send_one, &results[each]);
  for (int each = 0; each < FRAMES; each++) pthread_join(senders[each], NULL);
  evlsim_rest();
  for (int each = 0; each < FRAMES; each++) {
    unsigned times = 0;
    for (unsigned place = 0; place < bus_count; place++) times += bus[place].id == 0x100 - each;
    evlsim_say("frame %d: %d, %u times. ", each, results[each], times);
    evlsim_require(times == (results[each] == 0));
  }
}

int main(void) {
  evlsim_limits limits = {.arrivals = 2};
  return evlsim_explore(can_test, &limits);
}
