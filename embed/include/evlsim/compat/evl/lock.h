/* The core's spin locks: a lock with the interrupts off stalls the out-of-band stage. */
#ifndef EVLSIM_COMPAT_LOCK_H
#define EVLSIM_COMPAT_LOCK_H

#include <linux/spinlock.h>

typedef struct evl_spinlock {
  hard_spinlock_t _lock;
} evl_spinlock_t;
#define __EVL_SPIN_LOCK_INITIALIZER(name) {__HARD_SPIN_LOCK_INITIALIZER(name)}
#define DEFINE_EVL_SPINLOCK(name) evl_spinlock_t name = __EVL_SPIN_LOCK_INITIALIZER(name)
#define evl_spin_lock_init(lock) raw_spin_lock_init(&(lock)->_lock)
#define evl_spin_lock(lock) raw_spin_lock(&(lock)->_lock)
#define evl_spin_unlock(lock) raw_spin_unlock(&(lock)->_lock)
#define evl_spin_lock_irq(lock) raw_spin_lock_irq(&(lock)->_lock)
#define evl_spin_unlock_irq(lock) raw_spin_unlock_irq(&(lock)->_lock)
#define evl_spin_lock_irqsave(lock, flags) raw_spin_lock_irqsave(&(lock)->_lock, flags)
#define evl_spin_unlock_irqrestore(lock, flags) raw_spin_unlock_irqrestore(&(lock)->_lock, flags)
#endif
