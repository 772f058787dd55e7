/* Loaded ahead of a program (LD_PRELOAD), it refuses one allocation of the program's own code, the one whose number
   stands in the variable REFUSED (0: none): those that the C library makes for itself go through. It writes on standard
   error from where the refused one was asked, as addresses in the program of all that its stack may return to, and at
   the end how many there were. */
#define _GNU_SOURCE
#include <dlfcn.h>
#include <link.h>
#include <stdatomic.h>
#include <stdio.h>
#include <stdlib.h>
#include <sys/syscall.h>
#include <unistd.h>

static atomic_ulong asked;
static unsigned long refused;
static char *program, *code, *end;
static void *(*plain_malloc)(size_t);
static void *(*plain_realloc)(void *, size_t);

/* Finds the program's code: the program itself is the first that is told. */
static int find_code(struct dl_phdr_info *info, size_t size, void *data) {
    (void)size, (void)data;
    program = (char *)info->dlpi_addr;
    for (int i = 0; i < info->dlpi_phnum; i++)
        if (info->dlpi_phdr[i].p_type == PT_LOAD && info->dlpi_phdr[i].p_flags & PF_X) {
            code = program + info->dlpi_phdr[i].p_vaddr;
            end = code + info->dlpi_phdr[i].p_memsz;
        }
    return 1;
}

__attribute__((constructor)) static void begin(void) {
    const char *number = getenv("REFUSED");
    refused = number ? strtoul(number, NULL, 10) : 0;
    plain_malloc = dlsym(RTLD_NEXT, "malloc");
    plain_realloc = dlsym(RTLD_NEXT, "realloc");
    dl_iterate_phdr(find_code, NULL);
}

static int is_refused(char *from, char **stack) {
    if (from < code || from >= end || atomic_fetch_add(&asked, 1) + 1 != refused)
        return 0;
    fprintf(stderr, "refused:");
    for (int i = 0; i < 512; i++)
        if (stack[i] >= code && stack[i] < end)
            fprintf(stderr, " %lx", (unsigned long)(stack[i] - program));
    fprintf(stderr, "\n");
    return 1;
}

void *malloc(size_t size) {
    if (!plain_malloc)
        plain_malloc = dlsym(RTLD_NEXT, "malloc");
    return is_refused(__builtin_return_address(0), __builtin_frame_address(0)) ? NULL : plain_malloc(size);
}

void *realloc(void *old, size_t size) {
    if (!plain_realloc)
        plain_realloc = dlsym(RTLD_NEXT, "realloc");
    return is_refused(__builtin_return_address(0), __builtin_frame_address(0)) ? NULL : plain_realloc(old, size);
}

/* A program ends by one of these: its main returns, or it ends itself. */
__attribute__((destructor)) static void tell(void) {
    fprintf(stderr, "allocations: %lu\n", atomic_load(&asked));
}

void _exit(int status) {
    tell();
    syscall(SYS_exit_group, status);
    __builtin_unreachable();
}
