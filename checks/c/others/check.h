#ifndef OTHERS_CHECK_H
#define OTHERS_CHECK_H
#include <stddef.h>
#include <stdint.h>
#define LZMA_API(type) type
#define mythread_once(function) function()
extern uint32_t lzma_crc32_table[1][256];
extern uint32_t lzma_crc32(const uint8_t *, size_t, uint32_t);
extern void lzma_crc32_init(void);
#endif
