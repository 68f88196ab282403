/* The steps of document 01 in plain C, for comparison of speed. */
#ifndef PLAIN_H
#define PLAIN_H
#include <stddef.h>
#include <stdint.h>
#ifdef __cplusplus
extern "C" {
#endif
void plain_tables(void);
/* The square root by the processor's floating point, exact below 2^53, or in whole numbers bit by bit. */
uint32_t plain_block(uint32_t *registers, int16_t *block, size_t length);
uint32_t plain_block_bits(uint32_t *registers, int16_t *block, size_t length);
#ifdef __cplusplus
}
#endif
#endif
