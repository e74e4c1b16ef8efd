// A library whose malloc and realloc refuse the call of the number REFUSED, and write to the file COUNTED that they did.
#include <errno.h>
#include <fcntl.h>
#include <stddef.h>
#include <stdlib.h>
#include <unistd.h>
extern void *__libc_malloc(size_t);
extern void *__libc_realloc(void *, size_t);
static long count;
static int is_refused(void) {
    const char *number = getenv("REFUSED"), *counted = getenv("COUNTED");
    if (!number || !counted || ++count != atol(number)) return 0;
    close(open(counted, O_CREAT | O_WRONLY, 0600));
    errno = ENOMEM;
    return 1;
}
void *malloc(size_t size) { return is_refused() ? NULL : __libc_malloc(size); }
void *realloc(void *old, size_t size) { return is_refused() ? NULL : __libc_realloc(old, size); }
