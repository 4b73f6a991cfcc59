/*
 * Registers that are mapped: each load or store is one moment. Let the test have them as variables; a register that acts
 * when it is read or written is a function of the test's.
 */
#ifndef EVLSIM_COMPAT_IO_H
#define EVLSIM_COMPAT_IO_H
#include <evl/profile.h>
#define __iomem
#define readb(address) (*(const volatile uint8_t *)(address))
#define readw(address) (*(const volatile uint16_t *)(address))
#define readl(address) (*(const volatile uint32_t *)(address))
#define readq(address) (*(const volatile uint64_t *)(address))
#define writeb(value, address) ((void)(*(volatile uint8_t *)(address) = (value)))
#define writew(value, address) ((void)(*(volatile uint16_t *)(address) = (value)))
#define writel(value, address) ((void)(*(volatile uint32_t *)(address) = (value)))
#define writeq(value, address) ((void)(*(volatile uint64_t *)(address) = (value)))
#define readl_relaxed(address) readl(address)
#define writel_relaxed(value, address) writel(value, address)
#define ioread32(address) readl(address)
#define iowrite32(value, address) writel(value, address)
#ifdef __cplusplus
extern "C" {
#endif
EVLSIM_NOT_HERE("nothing is mapped: hand the driver the address of the test's registers")
void *ioremap(unsigned long address, unsigned long size);
#ifdef __cplusplus
}
#endif
#endif
