/* The hardware: a converter with two channels. On a board these are two registers; in a test it is test.c. */
#ifndef CONVERTER_H
#define CONVERTER_H
#include <stdint.h>

#define CONVERTER_IRQ 9
uint16_t converter_left(void);
uint16_t converter_right(void);
#endif
