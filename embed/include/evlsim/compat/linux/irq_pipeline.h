/* Dovetail's pipeline: an out-of-band handler hands its event on, or posts another line in-band. */
#ifndef EVLSIM_COMPAT_IRQ_PIPELINE_H
#define EVLSIM_COMPAT_IRQ_PIPELINE_H

#include <linux/interrupt.h>

#ifdef __cplusplus
extern "C" {
#endif

void irq_post_inband(unsigned irq);

#ifdef __cplusplus
}
#endif
#endif
