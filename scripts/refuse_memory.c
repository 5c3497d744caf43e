/* Refuses chosen allocations of the program that it is loaded into with LD_PRELOAD, for scripts/refuse_memory.py.
 *
 * REFUSE_FILE names a file of five 64-bit numbers, which is mapped and shared with the script: whether allocations are counted, how many were
 * counted, the first and the last that are refused, and how many were refused. Only calls from the program itself count, and not those that
 * the C library makes for itself. */

#define _GNU_SOURCE
#include <errno.h>
#include <fcntl.h>
#include <link.h>
#include <stdatomic.h>
#include <stddef.h>
#include <stdint.h>
#include <stdlib.h>
#include <sys/mman.h>

extern void *__libc_malloc(size_t);
extern void *__libc_realloc(void *, size_t);
extern void *__libc_calloc(size_t, size_t);

struct shared {
    atomic_ulong counts, met, first, last, refused;
};

static struct shared *shared;
static uintptr_t code_begin, code_end;

/* The program itself is the first object that the loader tells of. */
static int note_code(struct dl_phdr_info *info, size_t size, void *data)
{
    (void)size;
    (void)data;
    for (int i = 0; i < info->dlpi_phnum; i++) {
        const ElfW(Phdr) *part = &info->dlpi_phdr[i];
        if (part->p_type == PT_LOAD && (part->p_flags & PF_X)) {
            code_begin = info->dlpi_addr + part->p_vaddr;
            code_end = code_begin + part->p_memsz;
        }
    }
    return 1;
}

__attribute__((constructor)) static void begin(void)
{
    const char *name = getenv("REFUSE_FILE");
    int file = name ? open(name, O_RDWR | O_CLOEXEC) : -1;
    if (file < 0)
        return;
    dl_iterate_phdr(note_code, NULL);
    void *at = mmap(NULL, sizeof(struct shared), PROT_READ | PROT_WRITE, MAP_SHARED, file, 0);
    if (at != MAP_FAILED)
        shared = at;
}

static int is_refused(void *caller)
{
    uintptr_t from = (uintptr_t)caller;
    if (!shared || from < code_begin || from >= code_end || !atomic_load(&shared->counts))
        return 0;
    unsigned long number = atomic_fetch_add(&shared->met, 1) + 1;
    if (number < atomic_load(&shared->first) || number > atomic_load(&shared->last))
        return 0;
    atomic_fetch_add(&shared->refused, 1);
    errno = ENOMEM;
    return 1;
}

void *malloc(size_t size)
{
    return is_refused(__builtin_return_address(0)) ? NULL : __libc_malloc(size);
}

void *calloc(size_t count, size_t size)
{
    return is_refused(__builtin_return_address(0)) ? NULL : __libc_calloc(count, size);
}

void *realloc(void *old, size_t size)
{
    return is_refused(__builtin_return_address(0)) ? NULL : __libc_realloc(old, size);
}
