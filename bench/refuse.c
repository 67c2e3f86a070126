/* Takes the place of the C library's allocator. Counts the calls, and refuses the one whose number, from 1, is REFUSE_AT; with
   REFUSE_ON set, also all after it. Writes the number of calls to the file REFUSE_COUNT. Made for glibc:

       cc -shared -fPIC -O2 -o refuse.so refuse.c
       LD_PRELOAD=./refuse.so REFUSE_AT=7 program
*/
#include <errno.h>
#include <fcntl.h>
#include <stdio.h>
#include <stdlib.h>
#include <string.h>
#include <unistd.h>

extern void *__libc_malloc(size_t);
extern void *__libc_realloc(void *, size_t);
extern void *__libc_calloc(size_t, size_t);

static unsigned long calls, at, all_behind;

__attribute__((constructor)) static void begin(void) {
    const char *text = getenv("REFUSE_AT");
    at = text ? strtoul(text, NULL, 10) : 0;
    all_behind = getenv("REFUSE_ON") != NULL;
    calls = 0;
}

__attribute__((destructor)) static void end(void) {
    const char *name = getenv("REFUSE_COUNT");
    char text[32];
    int file = name ? open(name, O_WRONLY | O_CREAT | O_TRUNC, 0644) : -1;
    if (file < 0) return;
    int length = snprintf(text, sizeof text, "%lu\n", calls);
    if (write(file, text, length) != length) _exit(127);
    close(file);
}

static int refused(void) {
    calls += 1;
    if (at == 0 || calls < at || (calls > at && !all_behind)) return 0;
    errno = ENOMEM;
    return 1;
}

void *malloc(size_t size) { return refused() ? NULL : __libc_malloc(size); }

void *realloc(void *old, size_t size) { return refused() ? NULL : __libc_realloc(old, size); }

void *calloc(size_t count, size_t size) { return refused() ? NULL : __libc_calloc(count, size); }
