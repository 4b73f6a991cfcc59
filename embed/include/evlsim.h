/*
 * The out-of-band core of a dual-kernel machine, simulated, for C99 to C23 and C++17 to C++23. Include this header;
 * for C++ evlsim.hpp adds classes. The manual is docs/use/EMBEDDING.md.
 *
 *   evlsim_kernel kernel;
 *   if (!evlsim_ok(evlsim_open(&kernel, &board, evlsim_program_bank, EVLSIM_PROGRAM_BANK, 1000))) return 1;
 *   assert(evlsim_is_done(evlsim_do(&kernel, 0, evlsim_call_put(0))));
 *   evlsim_close(&kernel);
 *
 * Errors. A function of the library ends with an evlsim_status: evlsim_ok() says whether it succeeded,
 * evlsim_status_text() why not. A call of a kernel has an evlsim_answer: evlsim_is_done(), evlsim_is_refused() and
 * so on say which. Statuses, kinds of answers and refusals are structs of their own, so that comparing one with
 * another, or with a number, does not compile. Nothing is printed or aborted, and errno is not set.
 *
 * Ownership. You own the struct evlsim_kernel. evlsim_open writes it without reading it; evlsim_close frees what it
 * leads to, and may be called twice. You may move it (copy it, if the old one is not used or closed again); a copy is
 * not a second kernel. No function keeps a pointer that it is given, and none returns memory to be freed.
 *
 * Threads. A kernel, or a caller of a machine (evlsim/machine.h), is given to one call at a time; which thread makes it
 * may change, if a lock, a thread's start or its join orders the calls. Different kernels, and callers of one machine, are
 * called from several threads at once. evlsim_play and evlsim_play_over keep nothing, so any number of threads may call
 * them at once. Nothing here is called from a signal handler.
 *
 * Fork. Kernels are plain memory: after fork() parent and child each have their own kernel, in the same state, and each
 * closes its own.
 *
 * Memory comes from malloc and realloc. If they return null, the function says EVLSIM_NO_MEMORY, or the kernel refuses
 * the call with EVLSIM_REFUSAL_NO_MEMORY, and all is as before. What these headers say of a function is proved of the
 * export that it calls (crates/evl_c), except when memory runs out. The inline functions fill structs and check for
 * null pointers; they are not proved. You must keep to the C types: a pointer with a length leads to that many
 * elements, which nobody else writes meanwhile, and a buffer that is written overlaps no other argument.
 */
#ifndef EVLSIM_H
#define EVLSIM_H

#include <stdbool.h>
#include <stddef.h>
#include <stdint.h>

/* The version of these headers; EVLSIM_VERSION_NUMBER grows from version to version. */
#define EVLSIM_VERSION_MAJOR 0
#define EVLSIM_VERSION_MINOR 1
#define EVLSIM_VERSION_PATCH 0
#define EVLSIM_VERSION_NUMBER (EVLSIM_VERSION_MAJOR * 1000000 + EVLSIM_VERSION_MINOR * 1000 + EVLSIM_VERSION_PATCH)

/* The number of the binary interface: that of the shared library's name, libevlsim.so.0. */
#define EVLSIM_ABI 0u

#ifdef __cplusplus
extern "C" {
#endif

/* The version of the library, with its commit, and whether it is proved: "0.1.0+20261128.512.g0123abcd, proved ..",
   or ", UNPROVED". */
const char *evlsim_version(void);

/* Whether this library was built by a proof that passed. */
bool evlsim_is_proved(void);

/* The library's own EVLSIM_ABI: functions that open or play answer EVLSIM_WRONG_ABI if it differs. */
uint32_t evlsim_abi(void);

#ifdef __cplusplus
}
#endif

#include <evlsim/abi.h>
#include <evlsim/calls.h>
#include <evlsim/kernel.h>
#include <evlsim/machine.h>
#include <evlsim/play.h>
#include <evlsim/orders.h>
#include <evlsim/texts.h>

#endif
