/* Loaded before a program (LD_PRELOAD), this tells on standard error, when the program ends, how many seconds of processor time
   went by since it last asked for a block of MARK bytes, and how many such blocks it asked for. A script marks a place by
   a text of that length, where no other block has it. */
#include <stddef.h>
#include <stdio.h>
#include <time.h>

extern void *__libc_malloc(size_t size);

static struct timespec marked;
static unsigned long marks;

void *malloc(size_t size) {
    if (size == MARK) {
        clock_gettime(CLOCK_PROCESS_CPUTIME_ID, &marked);
        marks++;
    }
    return __libc_malloc(size);
}

__attribute__((destructor)) static void tell(void) {
    struct timespec now;
    if (marks == 0) {
        return;
    }
    clock_gettime(CLOCK_PROCESS_CPUTIME_ID, &now);
    fprintf(stderr, "since the last of %lu marks: %.6f\n", marks,
            (double)(now.tv_sec - marked.tv_sec) + 1e-9 * (double)(now.tv_nsec - marked.tv_nsec));
}
