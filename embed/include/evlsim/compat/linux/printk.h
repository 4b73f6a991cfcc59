/* What a driver prints, which the core does not send in-band. */
#ifndef EVLSIM_COMPAT_PRINTK_H
#define EVLSIM_COMPAT_PRINTK_H
#include <evl/proxy.h>
#define KERN_ERR ""
#define KERN_WARNING ""
#define KERN_INFO ""
#define KERN_DEBUG ""
#define printk(...) evl_printf(__VA_ARGS__)
#define pr_err(...) ((void)evl_printf(__VA_ARGS__))
#define pr_warn(...) ((void)evl_printf(__VA_ARGS__))
#define pr_info(...) ((void)evl_printf(__VA_ARGS__))
#define pr_debug(...) ((void)evl_printf(__VA_ARGS__))
#endif
