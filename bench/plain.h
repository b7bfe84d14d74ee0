/*
 * plain.h: labelling, hop, walk, the same two by networks, the questions that say why,
 * writing and reading a notice and list text, and repairing a table in plain C, compiled
 * by two compilers (gcc_, clang_); and what its six files share.
 */
#ifndef PLAIN_H
#define PLAIN_H

#include <stddef.h>
#include <stdint.h>

#define DECLARE(prefix)                                                        \
    uint32_t prefix##label(uint32_t n, uint32_t rule, uint32_t job,            \
                           const uint8_t *faults, size_t faults_len,           \
                           const uint8_t *draining, size_t draining_len,       \
                           const uint8_t *closed, size_t closed_len,           \
                           uint8_t *labels, size_t labels_len);                \
    uint32_t prefix##hop(uint32_t n, uint32_t job, uint32_t c, uint32_t d,     \
                         const uint8_t *labels, size_t labels_len);            \
    uint32_t prefix##walk(uint32_t n, uint32_t job, uint32_t s, uint32_t d,    \
                          const uint8_t *labels, size_t labels_len,            \
                          uint8_t *row, size_t row_len);                       \
    uint32_t prefix##hop_networks(uint32_t n, uint32_t networks, uint32_t job, \
                                  uint32_t c, uint32_t d, uint32_t network,    \
                                  uint32_t down, const uint8_t *labels,        \
                                  size_t labels_len);                          \
    uint32_t prefix##walk_networks(uint32_t n, uint32_t networks,              \
                                   uint32_t job, uint32_t s, uint32_t d,       \
                                   const uint8_t *labels, size_t labels_len,   \
                                   uint8_t *hops, size_t hops_len);            \
    uint64_t prefix##why_node(uint32_t n, uint32_t rule, uint32_t job,         \
                              uint32_t x, const uint8_t *faults,               \
                              size_t faults_len, const uint8_t *draining,      \
                              size_t draining_len, const uint8_t *closed,      \
                              size_t closed_len, uint8_t *labels,              \
                              size_t labels_len);                              \
    uint32_t prefix##why_hop(uint32_t n, uint32_t job, uint32_t c, uint32_t d, \
                             const uint8_t *labels, size_t labels_len);        \
    uint32_t prefix##write_notice(uint32_t n, const uint8_t *faults,           \
                                  size_t faults_len, uint8_t *out,             \
                                  size_t out_len);                             \
    uint64_t prefix##read_notice(const uint8_t *bytes, size_t len,             \
                                 uint8_t *faults, size_t faults_len);          \
    uint32_t prefix##write_list(uint32_t n, const uint8_t *faults,             \
                                size_t faults_len, uint8_t *out,               \
                                size_t out_len);                               \
    uint32_t prefix##read_list(uint32_t n, const uint8_t *text,                \
                               size_t text_len, uint8_t *faults,               \
                               size_t faults_len);                             \
    uint32_t prefix##repair(uint32_t n, const uint8_t *faults,                 \
                            size_t faults_len, const uint16_t *masks,          \
                            size_t masks_len, uint8_t *result,                 \
                            size_t result_len, uint16_t *row, size_t row_len);

DECLARE(gcc_)
DECLARE(clang_)

#ifdef PREFIX
#define JOIN2(a, b) a##b
#define JOIN(a, b) JOIN2(a, b)
#define NAME(name) JOIN(PREFIX, name)

enum { SAFE, ORDINARY, STRONG, FAULTY, DRAINING };

static inline uint32_t refused(uint32_t refusal)
{
    return refusal << 24;
}
#endif

#endif
