/* Stands before the C library's calls in the program that it is loaded into, and refuses one of them.

   Only calls that the program itself makes are counted, and not those of the C library. REFUSE_FILE names a file of the numbers below: the kind of
   call and its number are read from it, and what was counted is left there. */
#define _GNU_SOURCE
#include <dlfcn.h>
#include <errno.h>
#include <fcntl.h>
#include <link.h>
#include <pthread.h>
#include <stdarg.h>
#include <stdatomic.h>
#include <stdint.h>
#include <stdlib.h>
#include <sys/mman.h>
#include <sys/types.h>

enum { MEMORY, INPUT, FILES, OPEN, WRITE, SHORT, THREAD };

struct numbers {
    uint64_t kind;             /* which kind of call is refused */
    uint64_t number;           /* which call of this kind, from 1; 0 for none */
    _Atomic uint64_t calls;    /* calls of this kind so far */
    _Atomic uint64_t refused;  /* of these refused: 0 or 1 */
    _Atomic uint64_t opened;   /* files opened so far, up to the refused call and with it if it is one */
    _Atomic uint64_t taken;    /* bytes of the input taken so far, up to the refused call */
};

static struct numbers *numbers;
static uintptr_t start, end;

extern void *__libc_malloc(size_t);
extern void *__libc_realloc(void *, size_t);

static int first_object(struct dl_phdr_info *info, size_t size, void *data) {
    start = UINTPTR_MAX;
    for (int i = 0; i < info->dlpi_phnum; i++) {
        const ElfW(Phdr) *part = &info->dlpi_phdr[i];
        if (part->p_type != PT_LOAD)
            continue;
        uintptr_t from = info->dlpi_addr + part->p_vaddr, to = from + part->p_memsz;
        start = from < start ? from : start;
        end = to > end ? to : end;
    }
    return 1;
}

__attribute__((constructor)) static void begin(void) {
    const char *name = getenv("REFUSE_FILE");
    int file = name ? open(name, O_RDWR) : -1;
    if (file < 0)
        return;
    void *at = mmap(NULL, sizeof *numbers, PROT_READ | PROT_WRITE, MAP_SHARED, file, 0);
    if (at == MAP_FAILED)
        return;
    dl_iterate_phdr(first_object, NULL);
    numbers = at;
}

/* Whether this call of a kind, made from there, is the one to refuse. */
static int refuses(uint64_t kind, void *from) {
    if (!numbers || numbers->kind != kind || (uintptr_t)from < start || (uintptr_t)from >= end)
        return 0;
    if (atomic_fetch_add(&numbers->calls, 1) + 1 != numbers->number)
        return 0;
    atomic_store(&numbers->refused, 1);
    return 1;
}

static int counts(void) {
    return numbers && !atomic_load(&numbers->refused);
}

#define FROM __builtin_return_address(0)

void *malloc(size_t size) {
    if (refuses(MEMORY, FROM))
        return NULL;
    return __libc_malloc(size);
}

void *realloc(void *old, size_t size) {
    if (refuses(MEMORY, FROM))
        return NULL;
    return __libc_realloc(old, size);
}

static void *next(const char *name) {
    return dlsym(RTLD_NEXT, name);
}

static ssize_t reads(int file, void *to, size_t size, void *from) {
    static ssize_t (*real)(int, void *, size_t);
    if (!real)
        real = next("read");
    if (refuses(file == 0 ? INPUT : FILES, from)) {
        errno = EIO;
        return -1;
    }
    if (size > 1 && refuses(SHORT, from))
        size = 1;
    ssize_t done = real(file, to, size);
    if (file == 0 && done > 0 && counts())
        atomic_fetch_add(&numbers->taken, done);
    return done;
}

ssize_t read(int file, void *to, size_t size) {
    return reads(file, to, size, FROM);
}

static ssize_t writes(int file, const void *bytes, size_t size, void *from) {
    static ssize_t (*real)(int, const void *, size_t);
    if (!real)
        real = next("write");
    if (refuses(WRITE, from)) {
        errno = EIO;
        return -1;
    }
    return real(file, bytes, size > 1 && refuses(SHORT, from) ? 1 : size);
}

ssize_t write(int file, const void *bytes, size_t size) {
    return writes(file, bytes, size, FROM);
}

ssize_t __write(int file, const void *bytes, size_t size) {
    return writes(file, bytes, size, FROM);
}

static int opens(int (*real)(int, const char *, int, ...), int folder, const char *name, int how, mode_t mode, void *from) {
    if (counts())
        atomic_fetch_add(&numbers->opened, 1);
    if (refuses(OPEN, from)) {
        errno = EIO;
        return -1;
    }
    return real(folder, name, how, mode);
}

static mode_t mode_of(int how, va_list words) {
    return how & O_CREAT ? va_arg(words, mode_t) : 0;
}

#define OPENS(NAME, PARAMETERS, FOLDER)                      \
    int NAME PARAMETERS {                                    \
        va_list words;                                       \
        va_start(words, how);                                \
        mode_t mode = mode_of(how, words);                   \
        va_end(words);                                       \
        return opens(next("openat"), FOLDER, name, how, mode, FROM); \
    }

OPENS(openat, (int folder, const char *name, int how, ...), folder)
OPENS(openat64, (int folder, const char *name, int how, ...), folder)
OPENS(open, (const char *name, int how, ...), AT_FDCWD)
OPENS(open64, (const char *name, int how, ...), AT_FDCWD)

int pthread_create(pthread_t *thread, const pthread_attr_t *how, void *(*run)(void *), void *with) {
    static int (*real)(pthread_t *, const pthread_attr_t *, void *(*)(void *), void *);
    if (!real)
        real = next("pthread_create");
    if (refuses(THREAD, FROM))
        return EAGAIN;
    return real(thread, how, run, with);
}
