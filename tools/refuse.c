/* Refuses one growth of a program's memory: the one whose number REFUSE_AT gives, from 1 on. It is loaded before the C
 * library (LD_PRELOAD) and linked into nothing. A growth is a call of `malloc` or `realloc` by the program itself; what the C
 * library takes for its own is counted nowhere and never refused. Where the growth was refused, the file that REFUSE_MET
 * names is there afterwards. tools/refuse.sh compiles this page, and says what for. */
#define _GNU_SOURCE
#include <errno.h>
#include <fcntl.h>
#include <link.h>
#include <stdatomic.h>
#include <stdint.h>
#include <stdlib.h>
#include <unistd.h>

extern void *__libc_malloc(size_t size);
extern void *__libc_realloc(void *old, size_t size);

static atomic_ulong growths;
static unsigned long wanted;
static const char *met;
static uintptr_t first, end; /* where the program's own code lies */

/* The first object is the program. */
static int find_code(struct dl_phdr_info *info, size_t size, void *data) {
    (void)size;
    (void)data;
    for (int i = 0; i < info->dlpi_phnum; i++) {
        const ElfW(Phdr) *part = &info->dlpi_phdr[i];
        if (part->p_type == PT_LOAD && (part->p_flags & PF_X)) {
            first = info->dlpi_addr + part->p_vaddr;
            end = first + part->p_memsz;
        }
    }
    return 1;
}

__attribute__((constructor)) static void begin(void) {
    const char *at = getenv("REFUSE_AT");
    met = getenv("REFUSE_MET");
    if (at && met) {
        dl_iterate_phdr(find_code, NULL);
        wanted = strtoul(at, NULL, 10);
    }
}

static int is_refused(void *caller) {
    uintptr_t place = (uintptr_t)caller;
    if (wanted == 0 || place < first || place >= end || atomic_fetch_add(&growths, 1) + 1 != wanted)
        return 0;
    int file = open(met, O_CREAT | O_WRONLY, 0600);
    if (file >= 0)
        close(file);
    errno = ENOMEM;
    return 1;
}

void *malloc(size_t size) {
    return is_refused(__builtin_return_address(0)) ? NULL : __libc_malloc(size);
}

void *realloc(void *old, size_t size) {
    return is_refused(__builtin_return_address(0)) ? NULL : __libc_realloc(old, size);
}
