/* Preloaded into a program, it refuses one of its calls of the C library, or all from that one on.
 *
 * REFUSE is KIND:N or KIND:N+, N from 1: the N-th call of this kind, or each from the N-th on.
 *
 *   memory                   malloc, calloc, realloc, posix_memalign, aligned_alloc: no memory
 *   read, write              read or write fails
 *   sync                     fsync fails
 *   send, receive            sendto or recvfrom fails
 *   short-read, short-write  the call moves one byte, where it was to move more
 *   short-send               the same of a datagram
 *   socket                   socket, bind, ioctl, epoll_create1 or epoll_ctl fails
 *   poll                     epoll_wait fails
 *   clock                    clock_gettime fails
 *   thread                   pthread_create fails
 *
 * All other calls go through, and so do all without REFUSE, and where N is 0. The file REFUSED, where it is named, is made once the N-th call was
 * met; so a run that leaves none had fewer. The file COUNTED, where it is named, has in the end how many calls of this kind there were. `nm -D` of a
 * program lists the calls that it makes.
 *
 * A program that was compiled with checks has its own allocator (AddressSanitizer's), which no preloaded one stands before. Each of the allocator's
 * functions begins with a jump, and this leads the jumps here. Then only the program's own calls count: the allocator ends a program where the C library
 * finds no memory for it.
 */
#define _GNU_SOURCE
#include <dlfcn.h>
#include <errno.h>
#include <fcntl.h>
#include <link.h>
#include <pthread.h>
#include <stdatomic.h>
#include <stdint.h>
#include <stdlib.h>
#include <string.h>
#include <sys/epoll.h>
#include <sys/ioctl.h>
#include <sys/mman.h>
#include <sys/socket.h>
#include <sys/syscall.h>
#include <time.h>
#include <unistd.h>

extern void *__libc_malloc(size_t);
extern void *__libc_calloc(size_t, size_t);
extern void *__libc_realloc(void *, size_t);
extern void *__libc_memalign(size_t, size_t);

static const char *refused = ""; /* the kind */
static size_t length;            /* of its name */
static long first;
static int for_ever;
static atomic_long seen;

static __typeof__(pthread_create) *start_thread; /* the library's own */

static void lead_jumps(void);

/* Before this nothing is counted: what the C library does as it starts is none of the program's. */
__attribute__((constructor)) static void begin(void) {
    start_thread = (__typeof__(start_thread))dlsym(RTLD_NEXT, "pthread_create");
    lead_jumps();
    const char *text = getenv("REFUSE");
    const char *colon = text ? strchr(text, ':') : NULL;
    if (!colon)
        return;
    char *rest;
    first = strtol(colon + 1, &rest, 10);
    for_ever = *rest == '+';
    length = colon - text;
    refused = text;
}

/* The file is made by bare calls of the system, which nobody counts. */
static void tell(void) {
    const char *file = getenv("REFUSED");
    long made = file ? syscall(SYS_openat, AT_FDCWD, file, O_WRONLY | O_CREAT, 0600) : -1;
    if (made >= 0)
        syscall(SYS_close, made);
}

/* What comes after this isn't counted: what the C library does as it ends is none of the program's either. */
__attribute__((destructor)) static void end(void) {
    const char *file = getenv("COUNTED");
    long made = file ? syscall(SYS_openat, AT_FDCWD, file, O_WRONLY | O_CREAT | O_TRUNC, 0600) : -1;
    char digits[24];
    size_t at = sizeof digits;
    for (long count = atomic_load(&seen); at == sizeof digits || count; count /= 10)
        digits[--at] = '0' + count % 10;
    if (made < 0)
        return;
    syscall(SYS_write, made, digits + at, sizeof digits - at);
    syscall(SYS_close, made);
}

/* Counts a call of this kind. Whether it is refused. */
static int is_refused(const char *kind) {
    if (strlen(kind) != length || strncmp(kind, refused, length))
        return 0;
    long number = atomic_fetch_add(&seen, 1) + 1;
    if (number == first)
        tell();
    return number == first || (for_ever && number > first);
}

/* Whether a call of this kind fails, and by which error. */
static int fails(const char *kind, int error) {
    if (!is_refused(kind))
        return 0;
    errno = error;
    return 1;
}

/* The code of a program with its own allocator. */
static uintptr_t code_start, code_end;

/* Whether memory is refused to who called. */
static int lacks_memory(void *caller) {
    uintptr_t at = (uintptr_t)caller;
    return (!code_end || (code_start <= at && at < code_end)) && fails("memory", ENOMEM);
}

#define LACKS_MEMORY lacks_memory(__builtin_return_address(0))

/* A call that was to move one byte or none can't be short, so it isn't counted. */
static size_t shortened(const char *kind, size_t count) { return count > 1 && is_refused(kind) ? 1 : count; }

/* What allocates: the C library, or a program's own allocator. */
static __typeof__(malloc) *allocate = __libc_malloc;
static __typeof__(calloc) *allocate_zeroes = __libc_calloc;
static __typeof__(realloc) *allocate_anew = __libc_realloc;
static __typeof__(aligned_alloc) *allocate_aligned = __libc_memalign;

static void *refusing_malloc(size_t size) { return LACKS_MEMORY ? NULL : allocate(size); }

static void *refusing_calloc(size_t count, size_t size) { return LACKS_MEMORY ? NULL : allocate_zeroes(count, size); }

static void *refusing_realloc(void *old, size_t size) { return LACKS_MEMORY ? NULL : allocate_anew(old, size); }

static void *refusing_aligned_alloc(size_t alignment, size_t size) { return LACKS_MEMORY ? NULL : allocate_aligned(alignment, size); }

static int refusing_posix_memalign(void **made, size_t alignment, size_t size) {
    void *block = LACKS_MEMORY ? NULL : allocate_aligned(alignment, size);
    if (!block)
        return ENOMEM;
    *made = block;
    return 0;
}

void *malloc(size_t size) { return refusing_malloc(size); }

void *calloc(size_t count, size_t size) { return refusing_calloc(count, size); }

void *realloc(void *old, size_t size) { return refusing_realloc(old, size); }

void *aligned_alloc(size_t alignment, size_t size) { return refusing_aligned_alloc(alignment, size); }

int posix_memalign(void **made, size_t alignment, size_t size) { return refusing_posix_memalign(made, alignment, size); }

/* A jump of x86-64: this byte, and how far it goes from its end. */
#define JUMP 0xe9
#define JUMP_BYTES 5

/* Leads the program's jump to one of its allocator's functions to this one. Where it led before; NULL in a program without its own allocator. */
static void *lead_jump(const char *name, void *here) {
    unsigned char *jump = dlsym(RTLD_DEFAULT, name);
    Dl_info program, own;
    if (!jump || *jump != JUMP || !dladdr(jump, &program) || !dladdr(here, &own) || program.dli_fbase == own.dli_fbase)
        return NULL;
    int32_t far, near;
    memcpy(&far, jump + 1, sizeof far);
    intptr_t way = (unsigned char *)here - (jump + JUMP_BYTES);
    uintptr_t page = (uintptr_t)jump & -4096;
    near = way;
    if (near != way || mprotect((void *)page, 2 * 4096, PROT_READ | PROT_WRITE | PROT_EXEC))
        abort();
    memcpy(jump + 1, &near, sizeof near);
    return jump + JUMP_BYTES + far;
}

/* Notes the code where this jump stands. */
static int note_code(struct dl_phdr_info *object, size_t size, void *jump) {
    (void)size;
    for (int part = 0; part < object->dlpi_phnum; part++) {
        uintptr_t start = object->dlpi_addr + object->dlpi_phdr[part].p_vaddr, end = start + object->dlpi_phdr[part].p_memsz;
        if (object->dlpi_phdr[part].p_type == PT_LOAD && start <= (uintptr_t)jump && (uintptr_t)jump < end) {
            code_start = start;
            code_end = end;
            return 1;
        }
    }
    return 0;
}

static void lead_jumps(void) {
#define LEAD(name, variable)                                                                                                                   \
    {                                                                                                                                          \
        void *own = lead_jump(#name, refusing_##name);                                                                                         \
        variable = own ? (__typeof__(variable))own : variable;                                                                                 \
    }
    LEAD(malloc, allocate)
    LEAD(calloc, allocate_zeroes)
    LEAD(realloc, allocate_anew)
    LEAD(aligned_alloc, allocate_aligned)
    if (lead_jump("posix_memalign", refusing_posix_memalign))
        dl_iterate_phdr(note_code, dlsym(RTLD_DEFAULT, "posix_memalign"));
}

/* The bare calls of the system. The allocator of a program compiled with checks makes some before anything here has begun, and mustn't cause a look-up. */

ssize_t read(int file, void *bytes, size_t count) {
    return fails("read", EIO) ? -1 : syscall(SYS_read, file, bytes, shortened("short-read", count));
}

ssize_t write(int file, const void *bytes, size_t count) {
    return fails("write", EIO) ? -1 : syscall(SYS_write, file, bytes, shortened("short-write", count));
}

int fsync(int file) { return fails("sync", EIO) ? -1 : syscall(SYS_fsync, file); }

ssize_t sendto(int file, const void *bytes, size_t count, int flags, const struct sockaddr *to, socklen_t size) {
    return fails("send", EIO) ? -1 : syscall(SYS_sendto, file, bytes, shortened("short-send", count), flags, to, size);
}

ssize_t recvfrom(int file, void *bytes, size_t count, int flags, struct sockaddr *from, socklen_t *size) {
    return fails("receive", EIO) ? -1 : syscall(SYS_recvfrom, file, bytes, count, flags, from, size);
}

int socket(int domain, int type, int protocol) { return fails("socket", EMFILE) ? -1 : syscall(SYS_socket, domain, type, protocol); }

int bind(int file, const struct sockaddr *address, socklen_t size) {
    return fails("socket", EADDRINUSE) ? -1 : syscall(SYS_bind, file, address, size);
}

int ioctl(int file, unsigned long request, ...) {
    __builtin_va_list words;
    __builtin_va_start(words, request);
    void *word = __builtin_va_arg(words, void *);
    __builtin_va_end(words);
    return fails("socket", EIO) ? -1 : syscall(SYS_ioctl, file, request, word);
}

int epoll_create1(int flags) { return fails("socket", EMFILE) ? -1 : syscall(SYS_epoll_create1, flags); }

int epoll_ctl(int poll, int what, int file, struct epoll_event *event) {
    return fails("socket", ENOSPC) ? -1 : syscall(SYS_epoll_ctl, poll, what, file, event);
}

int epoll_wait(int poll, struct epoll_event *events, int count, int millis) {
    return fails("poll", EINTR) ? -1 : syscall(SYS_epoll_wait, poll, events, count, millis);
}

int clock_gettime(clockid_t clock, struct timespec *time) { return fails("clock", EINVAL) ? -1 : syscall(SYS_clock_gettime, clock, time); }

int pthread_create(pthread_t *thread, const pthread_attr_t *how, void *(*start)(void *), void *with) {
    return is_refused("thread") ? EAGAIN : start_thread(thread, how, start, with);
}
