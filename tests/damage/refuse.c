// Laid in front of the C library, this refuses a call for memory, or that and all behind it. REFUSE_AT names the first
// that is refused, counted from 1, REFUSE_ON has it go on, and REFUSE_COUNT is a file of eight bytes for their number.
#include <fcntl.h>
#include <stdatomic.h>
#include <stdlib.h>
#include <sys/mman.h>

void *__libc_malloc(size_t);
void *__libc_realloc(void *, size_t);

static _Atomic unsigned long nowhere;
static _Atomic unsigned long *calls = &nowhere;
static unsigned long at;
static int goes_on;

__attribute__((constructor)) static void begin(void) {
    const char *number = getenv("REFUSE_AT"), *count = getenv("REFUSE_COUNT");
    int file = count ? open(count, O_RDWR) : -1;
    void *place = file < 0 ? MAP_FAILED : mmap(0, 8, PROT_READ | PROT_WRITE, MAP_SHARED, file, 0);
    if (place != MAP_FAILED)
        calls = place;
    goes_on = getenv("REFUSE_ON") != 0;
    at = number ? strtoul(number, 0, 10) : 0;
    *calls = 0;
}

static int is_refused(void) {
    unsigned long number = ++*calls;
    return at && (number == at || (goes_on && number > at));
}

void *malloc(size_t size) {
    return is_refused() ? 0 : __libc_malloc(size);
}

void *realloc(void *old, size_t size) {
    return is_refused() ? 0 : __libc_realloc(old, size);
}
