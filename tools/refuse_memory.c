/* Refuses one allocation of a program that is started with this in LD_PRELOAD, and counts them.

   REFUSE_FILE names a file of two numbers of eight bytes that outlives the program: which allocation to refuse, from 1
   on, or 0 for none; and how many there were. The program asks for memory by malloc and realloc alone. */
#define _GNU_SOURCE
#include <errno.h>
#include <fcntl.h>
#include <stdlib.h>
#include <sys/mman.h>
#include <unistd.h>

extern void *__libc_malloc(size_t);
extern void *__libc_realloc(void *, size_t);

static volatile unsigned long *numbers;

__attribute__((constructor)) static void open_numbers(void) {
    const char *path = getenv("REFUSE_FILE");
    int file = path ? open(path, O_RDWR) : -1;
    if (file < 0)
        _exit(99);
    void *found = mmap(0, 2 * sizeof(unsigned long), PROT_READ | PROT_WRITE, MAP_SHARED, file, 0);
    if (found == MAP_FAILED)
        _exit(99);
    close(file);
    numbers = found;
}

static int is_refused(void) {
    if (!numbers)
        return 0;
    if (__atomic_add_fetch(&numbers[1], 1, __ATOMIC_SEQ_CST) != numbers[0])
        return 0;
    errno = ENOMEM;
    return 1;
}

void *malloc(size_t size) {
    return is_refused() ? 0 : __libc_malloc(size);
}

void *realloc(void *old, size_t size) {
    return is_refused() ? 0 : __libc_realloc(old, size);
}
