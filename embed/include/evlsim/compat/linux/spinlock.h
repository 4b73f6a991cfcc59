/*
 * The kernel's spin locks on this one processor: a lock with the interrupts off stalls the stage that its type says, the
 * out-of-band one of a hard_spinlock_t, the in-band one of a raw_spinlock_t. So handlers of the other stage come between.
 */
#ifndef EVLSIM_COMPAT_SPINLOCK_H
#define EVLSIM_COMPAT_SPINLOCK_H

#include <linux/irqstage.h>

/* Who has it, plus one, or -1 for a handler, and since where. */
struct evlsim_spin {
  int holder;
  int line;
  const char *file;
};
typedef struct hard_spinlock {
  struct evlsim_spin spin;
} hard_spinlock_t;
typedef struct raw_spinlock {
  struct evlsim_spin spin;
} raw_spinlock_t;

#define __HARD_SPIN_LOCK_INITIALIZER(name) {{0, 0, NULL}}
#define __RAW_SPIN_LOCK_INITIALIZER(name) {{0, 0, NULL}}
#define DEFINE_HARD_SPINLOCK(name) hard_spinlock_t name = __HARD_SPIN_LOCK_INITIALIZER(name)
#define DEFINE_RAW_SPINLOCK(name) raw_spinlock_t name = __RAW_SPIN_LOCK_INITIALIZER(name)

#ifdef __cplusplus
extern "C" {
#endif

/* With `stalls` the stage is stalled first, and what it was before is returned; else it has to be, or a handler runs. */
bool evlsim_spin_lock(struct evlsim_spin *spin, bool is_oob, bool stalls, const char *file, int line);
void evlsim_spin_unlock(struct evlsim_spin *spin);
bool evlsim_spin_is_locked(const struct evlsim_spin *spin);

#ifdef __cplusplus
}
static inline bool evlsim_is_hard(const hard_spinlock_t *) { return true; }
static inline bool evlsim_is_hard(const raw_spinlock_t *) { return false; }
#else
#define evlsim_is_hard(lock) __builtin_types_compatible_p(__typeof__(*(lock)), hard_spinlock_t)
#endif

#define evlsim_spin_lock_here(lock, stalls) evlsim_spin_lock(&(lock)->spin, evlsim_is_hard(lock), stalls, __FILE__, __LINE__)
#define raw_spin_lock_init(lock) ((lock)->spin.holder = 0)
#define raw_spin_lock(lock) ((void)evlsim_spin_lock_here(lock, false))
#define raw_spin_unlock(lock) evlsim_spin_unlock(&(lock)->spin)
#define raw_spin_lock_irq(lock) ((void)evlsim_spin_lock_here(lock, true))
#define raw_spin_unlock_irq(lock) (evlsim_spin_unlock(&(lock)->spin), evlsim_unstall_stage(evlsim_is_hard(lock)))
#define raw_spin_lock_irqsave(lock, flags) ((flags) = evlsim_spin_lock_here(lock, true) ? 1ul : 0ul)
#define raw_spin_unlock_irqrestore(lock, flags) \
  (evlsim_spin_unlock(&(lock)->spin), evlsim_restore_stall(evlsim_is_hard(lock), flags))
#define raw_spin_is_locked(lock) evlsim_spin_is_locked(&(lock)->spin)

/* The in-band kernel's own, which this profile hasn't. */
typedef struct spinlock {
  int none;
} spinlock_t;
#ifdef __cplusplus
extern "C" {
#endif
EVLSIM_NOT_HERE("a spinlock_t is the in-band kernel's: use a raw_spinlock_t in-band, a hard_spinlock_t for both stages")
void spin_lock_init(spinlock_t *lock);
EVLSIM_NOT_HERE("a spinlock_t is the in-band kernel's: use a raw_spinlock_t in-band, a hard_spinlock_t for both stages")
void spin_lock(spinlock_t *lock);
#ifdef __cplusplus
}
#endif
#define spin_lock_irqsave(lock, flags) ((flags) = 0, spin_lock(lock))
#endif
