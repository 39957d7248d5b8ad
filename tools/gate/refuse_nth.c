/* Refuses a request for memory to the program that it is loaded into (LD_PRELOAD), for tools/gate/refuse_each.py.

   REFUSE_NTH=N   the N-th request of the run is refused, and no other
   REFUSE_LOG=F   at the end F gets a line for each mark that the program wrote: how many requests there were before it, how
                  many of them were refused, and the mark; and a line `end`

   A mark is a line that begins with @, written to standard error. After @refuse every request is refused, until @grant. */
#define _GNU_SOURCE
#include <dlfcn.h>
#include <errno.h>
#include <fcntl.h>
#include <stdio.h>
#include <stdlib.h>
#include <string.h>
#include <unistd.h>

static long seen, refused, nth = -1;
static int all, is_set;
static char log_text[1 << 22];
static size_t log_len;

static void note(const char *mark, size_t len)
{
    if (log_len + len + 64 > sizeof log_text)
        return;
    log_len += snprintf(log_text + log_len, 64, "%ld %ld ", seen, refused);
    memcpy(log_text + log_len, mark, len);
    log_len += len;
    log_text[log_len++] = '\n';
}

static int refuses(void)
{
    if (!is_set) {
        const char *word = getenv("REFUSE_NTH");
        is_set = 1;
        if (word)
            nth = atol(word);
    }
    seen++;
    if (seen != nth && !all)
        return 0;
    refused++;
    errno = ENOMEM;
    return 1;
}

void *malloc(size_t size)
{
    static void *(*real)(size_t);
    if (!real)
        real = dlsym(RTLD_NEXT, "malloc");
    return refuses() ? NULL : real(size);
}

void *realloc(void *old, size_t size)
{
    static void *(*real)(void *, size_t);
    if (!real)
        real = dlsym(RTLD_NEXT, "realloc");
    return refuses() ? NULL : real(old, size);
}

ssize_t write(int file, const void *text, size_t len)
{
    static ssize_t (*real)(int, const void *, size_t);
    const char *mark = text;
    if (!real)
        real = dlsym(RTLD_NEXT, "write");
    if (file == 2 && len > 1 && mark[0] == '@') {
        if (!strncmp(mark, "@grant", 6))
            all = 0;
        note(mark, len - 1);
        if (!strncmp(mark, "@refuse", 7))
            all = 1;
        return len;
    }
    return real(file, text, len);
}

__attribute__((destructor)) static void end(void)
{
    const char *path = getenv("REFUSE_LOG");
    int file;
    all = 0;
    note("end", 3);
    if (path && (file = open(path, O_WRONLY | O_CREAT | O_TRUNC, 0600)) >= 0) {
        if (write(file, log_text, log_len) < 0)
            abort();
        close(file);
    }
}
