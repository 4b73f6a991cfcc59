/* The kernel's single loads and stores, each one moment, and its barriers, of which one processor needs none. */
#ifndef EVLSIM_COMPAT_COMPILER_H
#define EVLSIM_COMPAT_COMPILER_H
#define READ_ONCE(place) (*(const volatile __typeof__(place) *)&(place))
#define WRITE_ONCE(place, value) ((void)(*(volatile __typeof__(place) *)&(place) = (value)))
#define barrier() __asm__ volatile("" : : : "memory")
#define smp_mb() barrier()
#define smp_rmb() barrier()
#define smp_wmb() barrier()
#ifndef likely
#define likely(holds) __builtin_expect((holds) ? 1 : 0, 1)
#define unlikely(holds) __builtin_expect((holds) ? 1 : 0, 0)
#endif
#endif
