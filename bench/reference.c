// The loops of crates/bench/src/step.rt in C: the yardstick of the proved step. It does only the functions and operations
// that these loops have, serves no links, and tests addresses, Error and slices as the proved step does. If it is compiled
// with -DFUSED=1, what follows a prefix is fetched and done at once, as far as there is room for both bytes.
#include <stdint.h>
#include <stdio.h>
#include <stdlib.h>
#include <string.h>

#ifndef FUSED
#define FUSED 0
#endif

#define NOT_PROCESS 0x80000000u
#define START 0x80000100u

typedef struct {
    uint32_t instruction, workspace, a, b, c, operand, front, back, bytes;
    uint8_t error, halt_on_error, running;
} Cpu;

static uint8_t *memory;
static uint32_t size;

static inline int load(uint32_t address, uint32_t *word) {
    uint32_t offset = (address - NOT_PROCESS) & ~3u;
    if (offset >= size) return 1;
    memcpy(word, memory + offset, 4);
    return 0;
}

static inline int store(uint32_t address, uint32_t word) {
    uint32_t offset = (address - NOT_PROCESS) & ~3u;
    if (offset >= size) return 1;
    memcpy(memory + offset, &word, 4);
    return 0;
}

static inline uint8_t *byte_at(uint32_t address) {
    uint32_t offset = address - NOT_PROCESS;
    return offset < size ? memory + offset : 0;
}

static int put(Cpu *s, uint32_t workspace) {
    if (s->front == NOT_PROCESS) s->front = workspace;
    else if (store(s->back - 8, workspace)) return 1;
    s->back = workspace;
    return 0;
}

static int slice(Cpu *s) {
    if (s->bytes == 1024) {
        if (store(s->workspace - 4, s->instruction) || put(s, s->workspace)) return 1;
        s->running = 0;
    }
    return 0;
}

static int raise(Cpu *s) {
    if (s->halt_on_error) return 3;
    s->error = 1;
    return 0;
}

static inline void push(Cpu *s, uint32_t value) { s->c = s->b; s->b = s->a; s->a = value; }
static inline void binary(Cpu *s, uint32_t value) { s->a = value; s->b = s->c; }
static inline void drop(Cpu *s) { s->a = s->b; s->b = s->c; }

// the two ends of the memory that the links and the event channel have
#define FIRST_SOFT 0x80000024u

// a process waits at a soft channel
static int wait_there(Cpu *s, uint32_t channel, uint32_t pointer) {
    if (store(channel, s->workspace | 1) || store(s->workspace - 12, pointer)) return 1;
    if (store(s->workspace - 4, s->instruction)) return 1;
    s->running = 0;
    return 0;
}

static int copy_up(uint32_t from, uint32_t to, uint32_t count) {
    for (uint32_t i = 0; i < count; i++) {
        uint8_t *source = byte_at(from + i), *target = byte_at(to + i);
        if (!source || !target) return 1;
        *target = *source;
    }
    return 0;
}

// a message of a soft channel; there are no alternatives, and processes of high priority are faults
static int meet(Cpu *s, int gives, uint32_t channel, uint32_t pointer, uint32_t count) {
    uint32_t other, there;
    if (channel - NOT_PROCESS < FIRST_SOFT - NOT_PROCESS) return 5;
    if (load(channel, &other)) return 1;
    if (other == NOT_PROCESS) return wait_there(s, channel, pointer);
    if (!(other & 1)) return 4;
    other &= ~3u;
    if (load(other - 12, &there)) return 1;
    if (copy_up(gives ? pointer : there, gives ? there : pointer, count)) return 1;
    if (store(channel, NOT_PROCESS)) return 1;
    return put(s, other);
}

static int operate(Cpu *s, uint32_t code) {
    uint8_t *byte;
    uint32_t word;
    switch (code) {
    case 0x01:
        if (!(byte = byte_at(s->a))) return 1;
        s->a = *byte;
        return 0;
    case 0x02: binary(s, s->a + s->b); return 0;
    case 0x07: return meet(s, 0, s->b, s->c, s->a);
    case 0x09: binary(s, (int32_t)s->b > (int32_t)s->a); return 0;
    case 0x0d: return store(s->a - 4, s->instruction + s->b) || put(s, s->a & ~3u);
    case 0x0f: return store(s->workspace, s->a) || meet(s, 1, s->b, s->workspace, 4);
    case 0x21:
        if (load(s->b + 4, &word) || store(s->b + 4, word - 1)) return 1;
        if ((int32_t)word <= 1) return 0;
        if (load(s->b, &word) || store(s->b, word + 1)) return 1;
        s->instruction -= s->a;
        return slice(s);
    case 0x33: binary(s, s->b ^ s->a); return 0;
    case 0x3b:
        if (!(byte = byte_at(s->a))) return 1;
        *byte = (uint8_t)s->b;
        s->a = s->c;
        return 0;
    case 0x42: push(s, NOT_PROCESS); return 0;
    case 0x46: binary(s, s->b & s->a); return 0;
    default: return 2;
    }
}

static int do_one_byte(Cpu *s, int *is_prefix) {
    uint8_t *at = byte_at(s->instruction);
    if (!at) return 1;
    s->instruction++;
    if (s->bytes < 1024) s->bytes++;
    uint32_t k = s->operand | (*at & 15), word;
    s->operand = 0;
    switch (*at >> 4) {
    case 0x0: s->instruction += k; return slice(s);
    case 0x1: push(s, s->workspace + 4 * k); return 0;
    case 0x2: s->operand = k << 4; *is_prefix = 1; return 0;
    case 0x4: push(s, k); return 0;
    case 0x6: s->operand = ~k << 4; *is_prefix = 1; return 0;
    case 0x7:
        if (load(s->workspace + 4 * k, &word)) return 1;
        push(s, word);
        return 0;
    case 0x8: {
        int32_t sum;
        int overflows = __builtin_add_overflow((int32_t)s->a, (int32_t)k, &sum);
        s->a = (uint32_t)sum;
        return overflows ? raise(s) : 0;
    }
    case 0xa:
        if (s->a == 0) s->instruction += k;
        else drop(s);
        return 0;
    case 0xc: s->a = s->a == k; return 0;
    case 0xd:
        if (store(s->workspace + 4 * k, s->a)) return 1;
        drop(s);
        return 0;
    case 0xf: return operate(s, k);
    default: return 9;
    }
}

// so many bytes at most; the count of those that are left goes down by one less than were done
static int do_byte(Cpu *s, uint32_t *left) {
    for (;;) {
        int is_prefix = 0, fault = do_one_byte(s, &is_prefix);
        if (!FUSED || fault || !is_prefix || *left <= 1) return fault;
        --*left;
    }
}

static int step(Cpu *s, uint32_t *left) {
    if (!s->running) {
        uint32_t workspace = s->front, next = NOT_PROCESS;
        if (workspace == NOT_PROCESS) return -1;
        if (workspace != s->back && load(workspace - 8, &next)) return 1;
        s->front = next;
        workspace &= ~3u;
        if (load(workspace - 4, &s->instruction)) return 1;
        s->workspace = workspace;
        s->a = s->b = s->c = s->operand = s->bytes = 0;
        s->running = 1;
    }
    return do_byte(s, left);
}

static const uint8_t ARITHMETIC[] = {0x40, 0xd0, 0x40, 0xd1, 0x70, 0x81, 0xd0, 0x71, 0x70, 0xf2, 0xd1, 0x71,
    0x23, 0xf3, 0xd2, 0x70, 0x4f, 0x24, 0xf6, 0xa2, 0x40, 0xa0, 0x61, 0x0c};
static const uint8_t MEMORY[] = {0x23, 0x10, 0xd0, 0x40, 0x70, 0x23, 0xfb, 0x70, 0xf1, 0x83, 0x70, 0x23, 0xfb,
    0x70, 0xf1, 0xd1, 0x60, 0x01};
static const uint8_t LEND[] = {0x40, 0xd2, 0x27, 0x2f, 0x2f, 0x2f, 0x2f, 0x2f, 0x2f, 0x4f, 0xd3, 0x71, 0x81, 0xd1,
    0x12, 0x47, 0x22, 0xf1};

static const uint8_t CHANNEL[] = {0x24, 0xf2, 0xd5, 0x48, 0x24, 0x10, 0xfd, 0x71, 0x81, 0xd1, 0x15, 0x71, 0xff,
    0x60, 0x08, 0x11, 0x63, 0x15, 0x44, 0xf7, 0x60, 0x09};
static const uint8_t SIEVE[] = {0x28, 0x10, 0xd3, 0x40, 0xd1, 0x42, 0xd0, 0x70, 0x70, 0xf2, 0xd2, 0x41, 0x73, 0x72,
    0xf2, 0x23, 0xfb, 0x72, 0x70, 0xf2, 0xd2, 0x24, 0x20, 0x40, 0x72, 0xf9, 0xc0, 0x61, 0xae, 0x70, 0x81, 0xd0, 0x22,
    0x40, 0x70, 0xf9, 0xc0, 0x61, 0xa0, 0x71, 0x81, 0xd1, 0x62, 0x09};

static void run(const char *name, const uint8_t *code, size_t length, uint32_t count) {
    size = 4096;
    memory = calloc(1, size);
    if (!memory) exit(1);
    memcpy(memory + (START - NOT_PROCESS), code, length);
    Cpu s = {START, 0x80000200u, 0, 0, 0, 0, NOT_PROCESS, NOT_PROCESS, 0, 0, 0, 1};
    uint32_t left = count, word = 0;
    while (left && !step(&s, &left)) left--;
    load(0x80000204u, &word);
    printf("%s: %u bytes, word %u\n", name, count - left, word);
    free(memory);
}

int main(int argc, char **argv) {
    uint32_t count = argc > 1 ? (uint32_t)strtoul(argv[1], 0, 10) : 1000;
    const char *only = argc > 2 ? argv[2] : 0;
    if (!only || !strcmp(only, "arithmetic")) run("arithmetic", ARITHMETIC, sizeof ARITHMETIC, count);
    if (!only || !strcmp(only, "memory")) run("memory", MEMORY, sizeof MEMORY, count);
    if (!only || !strcmp(only, "lend")) run("lend", LEND, sizeof LEND, count);
    if (!only || !strcmp(only, "channel")) run("channel", CHANNEL, sizeof CHANNEL, count);
    if (!only || !strcmp(only, "sieve")) run("sieve", SIEVE, sizeof SIEVE, count);
    return 0;
}
