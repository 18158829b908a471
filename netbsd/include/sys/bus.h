/* sys/bus.h - the types of bus_space(9), and no call: a driver's lists and lookups need none */
#ifndef KUPALDIZ_NETBSD_SYS_BUS_H
#define KUPALDIZ_NETBSD_SYS_BUS_H

#include <stdint.h>

typedef uintptr_t bus_addr_t;
typedef uintptr_t bus_size_t;
typedef uintptr_t bus_space_tag_t;
typedef uintptr_t bus_space_handle_t;
typedef struct kupaldiz_dma_tag *bus_dma_tag_t;
typedef struct kupaldiz_dma_map *bus_dmamap_t;

#endif
