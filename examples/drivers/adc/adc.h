/* A converter of analogue signals: its handler fills a ring, from which a thread takes the samples in their order. */
#ifndef ADC_H
#define ADC_H
#include <stdint.h>

#define ADC_IRQ 12
/* Starts the driver; `take` is called out-of-band with each sample. */
int adc_start(void (*take)(uint16_t sample));
/* How many samples found the ring full. */
unsigned adc_lost(void);

/* The hardware's register. */
uint16_t adc_sample(void);
#endif
