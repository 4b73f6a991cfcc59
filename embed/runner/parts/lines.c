/*
 * Part of evlsim_runner.c: interrupt lines with the driver's handlers, and stalls.
 */

/* Requests a line; the moment is its caller's, before it takes a callback. */
static int request(unsigned irq, bool is_oob, int callback, irq_handler_t handle, void *device) {
  struct handler *handler = new_handler();
  if (irq == 0 || irq > UINT16_MAX || handler == NULL || callback < 0) return invalid();
  evlsim_call call = evlsim_call_request((uint16_t)irq, is_oob ? EVLSIM_OOB : EVLSIM_INBAND, (uint8_t)callback, 0);
  evlsim_answer answer = do_call(caller(), call);
  if (evlsim_is_done(answer)) {
    struct handler made = {true, false, is_oob, (uint8_t)callback, (uint16_t)irq, handle, device};
    *handler = made;
  }
  go_on();
  return error_of(answer);
}

int request_irq(unsigned irq, irq_handler_t handler, unsigned long flags, const char *name, void *device) {
  (void)name;
  expect_run("request_irq");
  at_call();
  return request(irq, (flags & IRQF_OOB) != 0, take_callback(), handler, device);
}

int evlsim_request(unsigned line, bool is_oob, uint8_t callback) {
  expect_run("evlsim_request");
  at_call();
  return request(line, is_oob, callback, NULL, NULL);
}

const void *free_irq(unsigned irq, void *device) {
  expect_run("free_irq");
  at_call();
  for (int each = 0; each < HANDLERS; each++) {
    struct handler *it = &run->handlers[each];
    if (!it->is_used || it->is_timer || it->element != irq || it->device != device) continue;
    it->is_used = false;
    (void)do_call(caller(), evlsim_call_free((uint16_t)irq, it->is_oob ? EVLSIM_OOB : EVLSIM_INBAND));
  }
  go_on();
  return device;
}

void irq_post_inband(unsigned irq) {
  expect_run("irq_post_inband");
  (void)call_core(evlsim_call_post(EVLSIM_INBAND, (uint16_t)irq));
}

void evlsim_arrive(unsigned line) {
  expect_run("evlsim_arrive");
  (void)call_core(evlsim_call_arrive((uint16_t)line));
}

/* Out-of-band nothing is kept out by a stall of the in-band stage. */
static void expect_inband_stage(bool is_oob) {
  if (!is_oob && !evl_is_inband()) (void)refuse("WrongStage, the in-band stage is stalled or unstalled out-of-band", 0);
}

/* Stalls a stage, and returns whether it was stalled. What is noted changes with the kernel: at the moment before, the
   stage isn't stalled yet. */
bool evlsim_stall_stage(bool is_oob, const char *file, int line) {
  expect_run("a stall");
  expect_inband_stage(is_oob);
  at_call();
  bool was_stalled = run->stalls[is_oob].is_on;
  struct stall stall = {true, in_handler() ? -1 : run->now, file, line};
  if (!was_stalled) run->stalls[is_oob] = stall;
  (void)do_call(caller(), evlsim_call_stall(is_oob ? EVLSIM_OOB : EVLSIM_INBAND));
  go_on();
  return was_stalled;
}

void evlsim_unstall_stage(bool is_oob) {
  expect_run("an unstall");
  expect_inband_stage(is_oob);
  at_call();
  run->stalls[is_oob].is_on = false;
  (void)do_call(caller(), evlsim_call_unstall(is_oob ? EVLSIM_OOB : EVLSIM_INBAND));
  go_on();
}

bool evlsim_is_stalled(bool is_oob) {
  expect_run("a look at a stall");
  return run->stalls[is_oob].is_on;
}
