/* Refuses memory to libpaseto alone, as long as the file that REFUSE names is there: cc -shared -fPIC, and LD_PRELOAD. */
#define _GNU_SOURCE
#include <dlfcn.h>
#include <stdlib.h>
#include <string.h>
#include <unistd.h>

static int refuses(void *caller) {
    Dl_info about;
    const char *file = getenv("REFUSE");
    return file != NULL && dladdr(caller, &about) != 0 && about.dli_fname != NULL && strstr(about.dli_fname, "libpaseto") != NULL
           && access(file, F_OK) == 0;
}

void *malloc(size_t size) {
    static void *(*next)(size_t);
    if (next == NULL) next = (void *(*)(size_t)) dlsym(RTLD_NEXT, "malloc");
    return refuses(__builtin_return_address(0)) ? NULL : next(size);
}

void *realloc(void *at, size_t size) {
    static void *(*next)(void *, size_t);
    if (next == NULL) next = (void *(*)(void *, size_t)) dlsym(RTLD_NEXT, "realloc");
    return refuses(__builtin_return_address(0)) ? NULL : next(at, size);
}
