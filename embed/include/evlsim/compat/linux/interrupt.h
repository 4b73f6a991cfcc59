/*
 * Dovetail's interrupt requests, as a driver has them. A line is a number from 1 on; with IRQF_OOB its handler runs
 * out-of-band, else in-band.
 */
#ifndef EVLSIM_COMPAT_INTERRUPT_H
#define EVLSIM_COMPAT_INTERRUPT_H

#include <evl/profile.h>

typedef enum irqreturn { IRQ_NONE = 0, IRQ_HANDLED = 1 } irqreturn_t;
typedef irqreturn_t (*irq_handler_t)(int irq, void *device);
#define IRQF_OOB 0x00200000UL

#ifdef __cplusplus
extern "C" {
#endif

int request_irq(unsigned irq, irq_handler_t handler, unsigned long flags, const char *name, void *device);
const void *free_irq(unsigned irq, void *device);
EVLSIM_NOT_HERE("the profile has no threaded interrupts: let the handler put a semaphore")
int request_threaded_irq(unsigned irq, irq_handler_t handler, irq_handler_t thread, unsigned long flags,
                         const char *name, void *device);
EVLSIM_NOT_HERE("a line isn't masked by itself: stall its stage")
void disable_irq(unsigned irq);
EVLSIM_NOT_HERE("a line isn't masked by itself: stall its stage")
void enable_irq(unsigned irq);

#ifdef __cplusplus
}
#endif
#endif
