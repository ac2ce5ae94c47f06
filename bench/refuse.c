/* Preloaded, it refuses allocations of a program, which are numbered from 1.

   Without EACH it refuses one: the one whose number is in REFUSE. It writes a byte to the file descriptor REFUSED when it does, so that a run
   without refusals is known.

   With EACH it forks at the allocation REFUSE and at those after it: that many one by one, then at steps of a twentieth of their number. The child
   is refused that allocation, and goes on with an output of its own, which begins with what was printed so far; the program itself waits for it, tells
   of it at REFUSED, in a line `NUMBER STATUS LENGTH` (the status as waitpid gives it) and as many bytes of output, and goes on as if nothing had been
   asked. So a child runs as a program whose only refusal is that one. This is for programs without threads whose standard output is a file that
   can be read, and that leave nothing behind in other files. */
#define _GNU_SOURCE
#include <dlfcn.h>
#include <stddef.h>
#include <stdio.h>
#include <stdlib.h>
#include <sys/mman.h>
#include <sys/wait.h>
#include <unistd.h>

enum { SECONDS = 60, FAILED = 99 };

static void *(*real_malloc)(size_t);
static void *(*real_realloc)(void *, size_t);
/* allocations so far, the next one that is refused (0 for none), the first such, and how many are refused one by one in children */
static long met, next, first, each;
static int report;

static long number_in(const char *name)
{
    const char *text = getenv(name);
    return text ? atol(text) : 0;
}

__attribute__((constructor)) static void start(void)
{
    real_malloc = dlsym(RTLD_NEXT, "malloc");
    real_realloc = dlsym(RTLD_NEXT, "realloc");
    report = number_in("REFUSED");
    each = number_in("EACH");
    met = 0;
    next = first = number_in("REFUSE");
}

static void write_all(int file, const char *bytes, long length)
{
    for (long done = 0, more; done < length; done += more)
        if ((more = write(file, bytes + done, length - done)) <= 0)
            _exit(FAILED);
}

/* Appends what a file holds to another one, and returns how much that is. */
static long append(int from, int to)
{
    char bytes[4096];
    long length = 0, more;
    for (; (more = pread(from, bytes, sizeof bytes, length)) > 0; length += more)
        write_all(to, bytes, more);
    return more < 0 ? (_exit(FAILED), 0) : length;
}

static void tell(int status, int output)
{
    char line[96];
    long length = lseek(output, 0, SEEK_END);
    write_all(report, line, snprintf(line, sizeof line, "%ld %d %ld\n", met, status, length));
    append(output, report);
}

/* Forks, and says in the child that the allocation is refused, which then is the last one that is. */
static int is_child(void)
{
    int output = memfd_create("output", 0), status;
    if (output < 0)
        _exit(FAILED);
    append(STDOUT_FILENO, output);
    pid_t child = fork();
    if (child == 0) {
        alarm(SECONDS);
        next = 0;
        return dup2(output, STDOUT_FILENO) < 0 ? (_exit(FAILED), 1) : 1;
    }
    if (child < 0 || waitpid(child, &status, 0) != child)
        _exit(FAILED);
    tell(status, output);
    close(output);
    return 0;
}

static int refused(void)
{
    if (++met != next)
        return 0;
    if (!each)
        return write_all(report, "x", 1), 1;
    next += met - first + 1 < each ? 1 : (met + 19) / 20;
    return is_child();
}

void *malloc(size_t size)
{
    if (!real_malloc)
        real_malloc = dlsym(RTLD_NEXT, "malloc");
    return refused() ? NULL : real_malloc(size);
}

void *realloc(void *old, size_t size)
{
    if (!real_realloc)
        real_realloc = dlsym(RTLD_NEXT, "realloc");
    return refused() ? NULL : real_realloc(old, size);
}
