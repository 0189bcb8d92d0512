/* Lets one allocation of a program fail. Preloaded into it, this refuses the allocation whose number, counted from 1, is
   the value of REFUSED, and then writes a line to file descriptor 3. It counts the calls that the program's own code
   makes, whichever thread makes them, and passes on those of the C library. */
#define _GNU_SOURCE
#include <dlfcn.h>
#include <elf.h>
#include <errno.h>
#include <link.h>
#include <stdatomic.h>
#include <stddef.h>
#include <stdint.h>
#include <stdlib.h>
#include <sys/auxv.h>
#include <unistd.h>

static void *(*next_malloc)(size_t);
static void *(*next_realloc)(void *, size_t);
static uintptr_t code_start, code_end;
static unsigned long refused;
static atomic_ulong calls;

/* Where the program's own code lies. */
static void find_code(void) {
    const ElfW(Phdr) *headers = (const ElfW(Phdr) *)getauxval(AT_PHDR);
    unsigned long count = getauxval(AT_PHNUM);
    uintptr_t base = 0;
    for (unsigned long i = 0; i < count; i++)
        if (headers[i].p_type == PT_PHDR)
            base = (uintptr_t)headers - headers[i].p_vaddr;
    for (unsigned long i = 0; i < count; i++)
        if (headers[i].p_type == PT_LOAD && (headers[i].p_flags & PF_X)) {
            code_start = base + headers[i].p_vaddr;
            code_end = code_start + headers[i].p_memsz;
        }
}

/* The C library allocates before the program starts a thread, so one thread alone comes further than the first line. */
static void begin(void) {
    if (next_realloc)
        return;
    const char *number = getenv("REFUSED");
    refused = number ? strtoul(number, NULL, 10) : 0;
    find_code();
    next_malloc = (void *(*)(size_t))dlsym(RTLD_NEXT, "malloc");
    next_realloc = (void *(*)(void *, size_t))dlsym(RTLD_NEXT, "realloc");
}

static int is_refused(void *caller) {
    uintptr_t from = (uintptr_t)caller;
    begin();
    if (from < code_start || from >= code_end || atomic_fetch_add(&calls, 1) + 1 != refused)
        return 0;
    if (write(3, "refused\n", 8) != 8)
        abort();
    errno = ENOMEM;
    return 1;
}

void *malloc(size_t size) {
    return is_refused(__builtin_return_address(0)) ? NULL : next_malloc(size);
}

void *realloc(void *block, size_t size) {
    return is_refused(__builtin_return_address(0)) ? NULL : next_realloc(block, size);
}
