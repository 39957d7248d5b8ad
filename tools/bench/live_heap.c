/* How much memory a program holds, as the C library gives it out: LD_PRELOAD of this counts what lives, and the most that ever did, into the file that
   LIVE_HEAP names, as two numbers of eight bytes. It counts of each piece what the C library says that may be used, and 8 bytes beside. */
#define _GNU_SOURCE
#include <dlfcn.h>
#include <fcntl.h>
#include <malloc.h>
#include <stdlib.h>
#include <sys/mman.h>
#include <unistd.h>

static long here[2], *held = here;
static void *(*their_malloc)(size_t), *(*their_realloc)(void *, size_t);
static void (*their_free)(void *);

__attribute__((constructor)) static void begin(void)
{
    const char *name = getenv("LIVE_HEAP");
    int file;
    void *at;
    their_malloc = (void *(*)(size_t))dlsym(RTLD_NEXT, "malloc");
    their_realloc = (void *(*)(void *, size_t))dlsym(RTLD_NEXT, "realloc");
    their_free = (void (*)(void *))dlsym(RTLD_NEXT, "free");
    if (!name || (file = open(name, O_RDWR | O_CREAT | O_TRUNC, 0600)) < 0)
        return;
    if (ftruncate(file, sizeof here) == 0 && (at = mmap(NULL, sizeof here, PROT_READ | PROT_WRITE, MAP_SHARED, file, 0)) != MAP_FAILED)
        held = at;
    close(file);
}

static void *add(void *piece)
{
    if (piece && (held[0] += (long)malloc_usable_size(piece) + 8) > held[1])
        held[1] = held[0];
    return piece;
}

static void subtract(void *piece)
{
    if (piece)
        held[0] -= (long)malloc_usable_size(piece) + 8;
}

void *malloc(size_t size)
{
    if (!their_malloc)
        begin();
    return add(their_malloc(size));
}

void *realloc(void *piece, size_t size)
{
    void *moved;
    if (!their_realloc)
        begin();
    subtract(piece);
    moved = their_realloc(piece, size);
    /* where it is refused, the piece stays */
    add(moved || !size ? moved : piece);
    return moved;
}

void free(void *piece)
{
    if (!their_free)
        begin();
    subtract(piece);
    their_free(piece);
}
