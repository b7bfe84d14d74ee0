/*
 * damage.h: what the tests hand to the library where it is to refuse now and then. Each
 * is mostly good; the others would often be good once narrowed.
 */
#ifndef DAMAGE_H
#define DAMAGE_H

#include <stddef.h>
#include <stdint.h>

uint32_t any_job(void);
uint32_t any_node(uint32_t n);
size_t any_length(size_t exact);

/* A byte that is no label. */
uint8_t no_label(void);

#endif
