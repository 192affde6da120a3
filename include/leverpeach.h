/* The kit for C. Every function answers for any numbers and any bytes, given stack enough: leverpeach_find takes at
   most 256 KiB of it (tested, not proved), with all that it calls. A slice is passed as a pointer and then its length:
   the pointer has to be valid for that length, and a slice that is written may overlap no other. README.md says what
   the answers mean.

   A slice of length 0 may have any pointer, NULL too: no byte of it is read or written. It is refused as one that is
   too short: an empty netlist with 1, an empty certificate with 8, an empty first or second of leverpeach_simulate
   with 16, an empty work slice of leverpeach_check and leverpeach_find with 11, and an empty slice for the
   certificate that is looked for with 12, unless a smaller number applies. */
#ifndef LEVERPEACH_H
#define LEVERPEACH_H

#include <stddef.h>
#include <stdint.h>

#ifdef __cplusplus
extern "C" {
#endif

/* 2^32 + 65,536 x nodes + pins for a sound netlist, or the refusal's number, 1 to 7. */
uint64_t leverpeach_read(const uint8_t *netlist, size_t netlist_length);

/* One clock step, with a fault where faulted is not 0. 0 for done, or the refusal's number. */
uint64_t leverpeach_simulate(const uint8_t *netlist, size_t netlist_length,
                             uint8_t faulted, uint16_t node, uint8_t site, uint8_t u,
                             uint8_t *first, size_t first_length,
                             uint8_t *second, size_t second_length);

/* 2^32 + c for an accepted certificate, or the refusal's number. */
uint64_t leverpeach_check(const uint8_t *netlist, size_t netlist_length,
                          const uint8_t *certificate, size_t certificate_length,
                          uint8_t *first, size_t first_length,
                          uint8_t *second, size_t second_length);

/* 2^32 x (c + 1) + the certificate's length for a mark, 0 for none, or the refusal's number. */
uint64_t leverpeach_find(const uint8_t *netlist, size_t netlist_length,
                         uint16_t node, uint8_t site, uint8_t u, uint8_t b, uint8_t f,
                         uint8_t *first, size_t first_length,
                         uint8_t *second, size_t second_length,
                         uint8_t *certificate, size_t certificate_length);

#ifdef __cplusplus
}
#endif

#endif
