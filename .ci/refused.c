/* Refuses memory to one process, at one call: the calls of malloc and of its like are counted, and one of them answers that
   there is no memory, or each from that one on. .ci/refused loads this into the programs that it runs (LD_PRELOAD), and says
   by four variables what is to be refused:

   REFUSED_ROLE   the first word of the process after its name: the first such process that starts is the one
   REFUSED_COUNT  a file that is not there yet; it holds the number of its calls, also after it was killed
   REFUSED_FROM   the number of the first call that is refused, counted from 1; 0 refuses none
   REFUSED_TO     that of the last one

   It is for the C library of GNU, whose own names of these calls it uses. */
#include <errno.h>
#include <fcntl.h>
#include <stddef.h>
#include <stdlib.h>
#include <string.h>
#include <sys/mman.h>
#include <unistd.h>

void *__libc_malloc(size_t);
void *__libc_calloc(size_t, size_t);
void *__libc_realloc(void *, size_t);
void *__libc_memalign(size_t, size_t);

/* How many calls there were. It is not there in a process that is refused nothing. */
static unsigned long *calls;
static unsigned long from, to;

static unsigned long number_in(const char *name) {
    const char *word = getenv(name);
    return word ? strtoul(word, NULL, 10) : 0;
}

__attribute__((constructor)) static void begin(int argc, char **argv) {
    const char *role = getenv("REFUSED_ROLE"), *file = getenv("REFUSED_COUNT");
    if (!role || !file || argc < 2 || strcmp(argv[1], role))
        return;
    int fd = open(file, O_RDWR | O_CREAT | O_EXCL | O_CLOEXEC, 0600);
    if (fd < 0)
        return;
    from = number_in("REFUSED_FROM");
    to = number_in("REFUSED_TO");
    if (!ftruncate(fd, sizeof *calls)) {
        void *page = mmap(NULL, sizeof *calls, PROT_READ | PROT_WRITE, MAP_SHARED, fd, 0);
        if (page != MAP_FAILED)
            calls = page;
    }
    close(fd);
}

/* Counts a call, and says whether it is refused. */
static int refused(void) {
    if (!calls)
        return 0;
    unsigned long call = __atomic_add_fetch(calls, 1, __ATOMIC_RELAXED);
    if (call < from || call > to)
        return 0;
    errno = ENOMEM;
    return 1;
}

void *malloc(size_t size) {
    return refused() ? NULL : __libc_malloc(size);
}

void *calloc(size_t count, size_t size) {
    return refused() ? NULL : __libc_calloc(count, size);
}

void *realloc(void *old, size_t size) {
    return refused() ? NULL : __libc_realloc(old, size);
}

void *aligned_alloc(size_t alignment, size_t size) {
    return refused() ? NULL : __libc_memalign(alignment, size);
}

int posix_memalign(void **into, size_t alignment, size_t size) {
    void *found = refused() ? NULL : __libc_memalign(alignment, size);
    if (found)
        *into = found;
    return found ? 0 : ENOMEM;
}
