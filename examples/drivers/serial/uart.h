/* The hardware: a receiver with room for 16 bytes. On a board these are two registers; in a test it is test.c. */
#ifndef UART_H
#define UART_H
#include <stdbool.h>
#include <stdint.h>

#define UART_IRQ 5
bool uart_has_data(void);
uint8_t uart_take_data(void);
#endif
