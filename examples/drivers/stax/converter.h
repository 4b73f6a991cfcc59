/* A converter: its speed is set in-band, its samples are taken out-of-band at each interrupt. */
#ifndef CONVERTER_H
#define CONVERTER_H
#include <stdint.h>

#define CONVERTER_IRQ 7
int converter_start(void);
/* Sets the speed; of in-band threads. */
void converter_set_speed(uint32_t speed);
/* The last sample. */
uint32_t converter_last(void);
#endif
