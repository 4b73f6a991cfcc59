/*
 * libevl's cross-buffers: write and oob_read go from in-band to out-of-band, oob_write and read the other way. They
 * answer -1 with errno, as read and write do.
 */
#ifndef EVLSIM_COMPAT_XBUF_H
#define EVLSIM_COMPAT_XBUF_H

#include <evl/profile.h>
#include <unistd.h>

#ifdef __cplusplus
extern "C" {
#endif

EVLSIM_FORMAT(4) int evl_create_xbuf(size_t in_size, size_t out_size, int flags, const char *format, ...);
#define evl_new_xbuf(size, ...) evl_create_xbuf(size, size, EVL_CLONE_PRIVATE, __VA_ARGS__)
ssize_t oob_read(int efd, void *bytes, size_t count);
ssize_t oob_write(int efd, const void *bytes, size_t count);
EVLSIM_NOT_HERE("an element isn't found by its name: hand its file descriptor on")
EVLSIM_FORMAT(1) int evl_open_xbuf(const char *format, ...);
EVLSIM_NOT_HERE("the profile has no requests of drivers: call the driver's function")
int oob_ioctl(int efd, unsigned long request, ...);

#ifdef __cplusplus
}
#endif
#endif
