// Makes OpenSSL's memory scarce, for tests/memory.rs, which loads this by LD_PRELOAD: after OPENSSL_REQUESTS says a number, so many more requests
// for memory are met and no further one, until the variable is gone.
#include <openssl/crypto.h>
#include <stdatomic.h>
#include <stdlib.h>
#include <string.h>

static atomic_long met;

static int is_there(void) {
    static const char *last;
    const char *most = getenv("OPENSSL_REQUESTS");
    if (most != last) {
        last = most;
        atomic_store(&met, 0);
    }
    return !most || atomic_fetch_add(&met, 1) < atol(most);
}

static void *scarce_malloc(size_t size, const char *file, int line) {
    (void)file, (void)line;
    return is_there() ? malloc(size) : NULL;
}

static void *scarce_realloc(void *at, size_t size, const char *file, int line) {
    (void)file, (void)line;
    return is_there() ? realloc(at, size) : NULL;
}

static void freeing(void *at, const char *file, int line) {
    (void)file, (void)line;
    free(at);
}

__attribute__((constructor)) static void set(void) {
    if (CRYPTO_set_mem_functions(scarce_malloc, scarce_realloc, freeing) != 1) {
        abort();
    }
}
