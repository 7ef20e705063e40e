/* The bytes and marks of a part of a region by one call, since from Python each place would be a call of a microsecond. */
#include "nc_host.h"

void places(NcRegion *region, uint32_t start, size_t count, uint8_t *bytes, uint8_t *marks) {
    for (size_t i = 0; i < count; i++) {
        NcPlace place = nc_region_place(region, start + (uint32_t)i);
        bytes[i] = (uint8_t)place.byte;
        marks[i] = (uint8_t)place.mark;
    }
}
