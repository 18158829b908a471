/* sys/hash.h - hash32(9) */
#ifndef KUPALDIZ_NETBSD_SYS_HASH_H
#define KUPALDIZ_NETBSD_SYS_HASH_H

#include <stddef.h>
#include <stdint.h>

#define HASH32_BUF_INIT	5381
#define HASH32_STR_INIT	5381

static inline uint32_t hash32_buf(const void *buffer, size_t length, uint32_t hash)
{
	for (const uint8_t *at = (const uint8_t *)buffer; length > 0; length--)
		hash = hash * 33 + *at++;
	return hash;
}

static inline uint32_t hash32_str(const void *text, uint32_t hash)
{
	for (const uint8_t *at = (const uint8_t *)text; *at != 0; at++)
		hash = hash * 33 + *at;
	return hash;
}

#endif
