/* The hardware: registers behind an index. On a board these are two addresses; in a test it is test.c. */
#ifndef REGISTERS_H
#define REGISTERS_H
#include <stdint.h>

enum { SPEED, SAMPLE, REGISTERS };
void set_index(unsigned index);
void set_data(uint32_t data);
uint32_t get_data(void);
#endif
