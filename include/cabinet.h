/* The host question of the cabinet: crates/cabinet/src/host.rt. */
#ifndef CABINET_H
#define CABINET_H

#include <stddef.h>
#include <stdint.h>

#ifdef __cplusplus
extern "C" {
#endif

/* A refusal is answered as this and its number. Every other answer is a tick below it. */
#define CABINET_HOST_REFUSED UINT32_C(4294900000)

/* The earliest arrival at the destination of a vehicle that leaves the source at the departure, in ticks of a tenth of a second, in
   the town that the text's `length` bytes describe; or a refusal. The text is only read. */
uint32_t cabinet_host_question(const uint8_t *text, size_t length, uint32_t source, uint32_t departure, uint32_t destination);

#ifdef __cplusplus
}
#endif

#endif
