/* asked.c: keeps the last question, and prints it. */
#include "asked.h"

#include <stdio.h>
#include <string.h>

#include "report.h"

#define MOST_SHOWN 16384 /* bytes of a buffer; a longer one is too long */
#define MOST_BUFFERS 4
#define A_LINE 32u /* bytes */

/* The call's name and numbers, and its buffers. */
static struct asked {
    char call[120];
    unsigned count;
    struct buffer {
        const char *name;
        size_t len, width; /* how many numbers, and the bytes of each */
        uint8_t bytes[MOST_SHOWN];
    } buffers[MOST_BUFFERS];
} *last;

void keep_questions(void)
{
    last = shared_memory(sizeof *last);
}

static void keep_buffer(const char *name, const void *content, size_t len,
                        size_t width)
{
    struct buffer *buffer = &last->buffers[last->count++];
    buffer->name = name;
    buffer->len = len;
    buffer->width = width;
    if (len <= MOST_SHOWN / width)
        memcpy(buffer->bytes, content, len * width);
}

static void keep_bytes(const char *name, const uint8_t *bytes, size_t len)
{
    keep_buffer(name, bytes, len, 1);
}

static void keep_numbers(const char *name, const uint16_t *numbers, size_t len)
{
    keep_buffer(name, numbers, len, 2);
}

static void keep_tables(struct label_question asked)
{
    last->count = 0;
    keep_bytes("faults", asked.faults, asked.faults_len);
    keep_bytes("draining", asked.draining, asked.draining_len);
    keep_bytes("closed", asked.closed, asked.closed_len);
    keep_bytes("labels", asked.labels, asked.labels_len);
}

void keep_label(struct label_question asked)
{
    if (!last)
        return;
    snprintf(last->call, sizeof last->call, "hcube_label, n %u, rule %u, job %u",
             asked.n, asked.rule, asked.job);
    keep_tables(asked);
}

void keep_hop(struct hop_question asked)
{
    if (!last)
        return;
    snprintf(last->call, sizeof last->call, "hcube_hop, n %u, job %u, c %u, d %u",
             asked.n, asked.job, asked.c, asked.d);
    last->count = 0;
    keep_bytes("labels", asked.labels, asked.labels_len);
}

void keep_walk(struct walk_question asked)
{
    if (!last)
        return;
    snprintf(last->call, sizeof last->call, "hcube_walk, n %u, job %u, s %u, d %u",
             asked.n, asked.job, asked.s, asked.d);
    last->count = 0;
    keep_bytes("labels", asked.labels, asked.labels_len);
    keep_bytes("row", asked.row, asked.row_len);
}

void keep_why_node(struct label_question asked, uint32_t x)
{
    if (!last)
        return;
    snprintf(last->call, sizeof last->call,
             "hcube_why_node, n %u, rule %u, job %u, x %u", asked.n, asked.rule,
             asked.job, x);
    keep_tables(asked);
}

void keep_why_hop(struct hop_question asked)
{
    if (!last)
        return;
    snprintf(last->call, sizeof last->call,
             "hcube_why_hop, n %u, job %u, c %u, d %u", asked.n, asked.job,
             asked.c, asked.d);
    last->count = 0;
    keep_bytes("labels", asked.labels, asked.labels_len);
}

void keep_net_hop(struct net_hop_question asked)
{
    if (!last)
        return;
    snprintf(last->call, sizeof last->call,
             "hcube_hop_networks, n %u, networks %u, job %u, c %u, d %u, network %u, "
             "down %u",
             asked.n, asked.networks, asked.job, asked.c, asked.d, asked.network,
             asked.down);
    last->count = 0;
    keep_bytes("labels", asked.labels, asked.labels_len);
}

void keep_net_walk(struct net_walk_question asked)
{
    if (!last)
        return;
    snprintf(last->call, sizeof last->call,
             "hcube_walk_networks, n %u, networks %u, job %u, s %u, d %u", asked.n,
             asked.networks, asked.job, asked.s, asked.d);
    last->count = 0;
    keep_bytes("labels", asked.labels, asked.labels_len);
    keep_bytes("hops", asked.hops, asked.hops_len);
}

void keep_dimension(const uint8_t *bytes, size_t len)
{
    if (!last)
        return;
    snprintf(last->call, sizeof last->call, "hcube_notice_dimension");
    last->count = 0;
    keep_bytes("bytes", bytes, len);
}

void keep_notice(const uint8_t *bytes, size_t len, const uint8_t *faults,
                 size_t faults_len)
{
    if (!last)
        return;
    snprintf(last->call, sizeof last->call, "hcube_read_notice");
    last->count = 0;
    keep_bytes("bytes", bytes, len);
    keep_bytes("faults", faults, faults_len);
}

static void keep_writing(const char *name, struct write_question asked)
{
    if (!last)
        return;
    snprintf(last->call, sizeof last->call, "%s, n %u", name, asked.n);
    last->count = 0;
    keep_bytes("faults", asked.faults, asked.faults_len);
    keep_bytes("out", asked.out, asked.out_len);
}

void keep_write(struct write_question asked)
{
    keep_writing("hcube_write_notice", asked);
}

void keep_write_list(struct write_question asked)
{
    keep_writing("hcube_write_list", asked);
}

void keep_list(struct list_question asked)
{
    if (!last)
        return;
    snprintf(last->call, sizeof last->call, "hcube_read_list, n %u", asked.n);
    last->count = 0;
    keep_bytes("text", asked.text, asked.text_len);
    keep_bytes("faults", asked.faults, asked.faults_len);
}

void keep_repair(struct repair_question asked)
{
    if (!last)
        return;
    snprintf(last->call, sizeof last->call, "hcube_repair, n %u", asked.n);
    last->count = 0;
    keep_bytes("faults", asked.faults, asked.faults_len);
    keep_numbers("masks", asked.masks, asked.masks_len);
    keep_bytes("result", asked.result, asked.result_len);
    keep_numbers("row", asked.row, asked.row_len);
}

/* Bytes in two digits, numbers of 16 bits in four. */
static void print_buffer(const struct buffer *buffer)
{
    size_t a_line = A_LINE / buffer->width;
    for (size_t k = 0; k < buffer->len; k++) {
        printf(k % a_line == 0 && buffer->len > a_line ? "\n      " : " ");
        for (size_t byte = buffer->width; byte-- > 0;) /* the low one first in memory */
            printf("%02x", buffer->bytes[k * buffer->width + byte]);
    }
}

void print_asked(void)
{
    if (!last || !last->call[0])
        return;
    printf("  asked: %s\n", last->call);
    for (unsigned k = 0; k < last->count; k++) {
        const struct buffer *buffer = &last->buffers[k];
        printf("    %s, %lu %s:", buffer->name, (unsigned long)buffer->len,
               buffer->width == 1 ? "bytes" : "numbers of 16 bits");
        if (buffer->len <= MOST_SHOWN / buffer->width)
            print_buffer(buffer);
        else
            printf(" too many to show");
        printf("\n");
    }
}
