/* The mailbox in the simulator: two requests, whose answers come at any moment. No request has the other's answer. */
#include <evl/evl.h>
#include <evlsim/runner.h>

#include "mailbox.h"

enum { REQUESTS = 2, PATIENCE = 1000 };

/* The hardware: it answers the requests in their order, each with its data doubled, and at any moment after it. */
static struct frame sent[REQUESTS];
static unsigned sent_count, answered_count;
static struct frame arrived;
struct frame bus_receive(void) { return arrived; }
static void answer_next(void *nothing) {
  (void)nothing;
  arrived = sent[answered_count++];
  arrived.data *= 2;
}
void bus_send(struct frame frame) {
  sent[sent_count++] = frame;
  evlsim_may_arrive(MAILBOX_IRQ, 1, answer_next, NULL);
}

static void ask(void *nothing) {
  (void)nothing;
  evl_attach_self("asker");
  for (uint32_t data = 1; data <= REQUESTS; data++) {
    uint32_t answer = 0;
    int error = mailbox_ask(data, PATIENCE, &answer);
    evlsim_require(error != 0 || answer == 2 * data);
  }
}

static void mailbox_test(void) {
  evlsim_require(mailbox_start() == 0);
  int asker = evlsim_thread(ask, NULL, "asker");
  evlsim_may_pass(1);
  evlsim_join(asker);
  evlsim_rest();
}

int main(void) { return evlsim_explore(mailbox_test, NULL); }
