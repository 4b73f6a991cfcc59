/*
 * Dovetail's stall bits: a stalled stage keeps its events pending. oob_irq_disable and hard_local_irq_disable stall the
 * out-of-band stage, local_irq_disable the in-band one.
 */
#ifndef EVLSIM_COMPAT_IRQSTAGE_H
#define EVLSIM_COMPAT_IRQSTAGE_H

#include <evl/profile.h>

#ifdef __cplusplus
extern "C" {
#endif

bool evlsim_stall_stage(bool is_oob, const char *file, int line);
void evlsim_unstall_stage(bool is_oob);
bool evlsim_is_stalled(bool is_oob);

/* These are macros, so that a stall that is left is told with its place. */
#define evlsim_stall_here(is_oob) evlsim_stall_stage(is_oob, __FILE__, __LINE__)
#define stall_oob() ((void)evlsim_stall_here(true))
#define oob_irq_disable() ((void)evlsim_stall_here(true))
#define hard_local_irq_disable() ((void)evlsim_stall_here(true))
#define local_irq_disable() ((void)evlsim_stall_here(false))
#define oob_irq_save(flags) ((flags) = evlsim_stall_here(true) ? 1ul : 0ul)
#define hard_local_irq_save() (evlsim_stall_here(true) ? 1ul : 0ul)
#define local_irq_save(flags) ((flags) = evlsim_stall_here(false) ? 1ul : 0ul)

static inline void unstall_oob(void) { evlsim_unstall_stage(true); }
static inline bool oob_irqs_disabled(void) { return evlsim_is_stalled(true); }
static inline bool hard_irqs_disabled(void) { return evlsim_is_stalled(true); }
static inline bool irqs_disabled(void) { return evlsim_is_stalled(false); }
static inline void oob_irq_enable(void) { evlsim_unstall_stage(true); }
static inline void hard_local_irq_enable(void) { evlsim_unstall_stage(true); }
static inline void local_irq_enable(void) { evlsim_unstall_stage(false); }
static inline void evlsim_restore_stall(bool is_oob, unsigned long before) {
  if (before == 0) evlsim_unstall_stage(is_oob);
}
#define oob_irq_restore(flags) evlsim_restore_stall(true, flags)
#define hard_local_irq_restore(flags) evlsim_restore_stall(true, flags)
#define local_irq_restore(flags) evlsim_restore_stall(false, flags)

#ifdef __cplusplus
}
#endif
#endif
