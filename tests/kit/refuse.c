// A library that is preloaded into a program (LD_PRELOAD), and refuses it one growth of memory, one read or one write.
//
//   REFUSE_GROWTH=n  the n-th growth of memory fails with ENOMEM
//   REFUSE_THREAD=n  the n-th thread fails to start with EAGAIN
//   REFUSE_LATER=1   every later growth or thread fails too
//   REFUSE_BEHIND=k  only growths after the k-th write are counted
//   REFUSE_READ=n    the n-th read of standard input fails with EIO
//   REFUSE_WRITE=n   the n-th write to standard output fails with EIO
//   REFUSE_SHORT=k   each read of standard input returns, and each write to standard output takes, at most k bytes
//   REFUSE_AGAIN=k   each of these reads and writes fails k times with EINTR before it succeeds
//   REFUSE_STACK=F   the file F gets, at the refused growth, the address that the program is loaded at and those words of the
//                    stack up to main that are addresses of its code, which show which function asked (tests/kit/askers.py)
//   REFUSE_EACH=F    growths are refused to copies of the process: at the n-th, from REFUSE_FROM to REFUSE_TO, a copy goes on without the memory
//                    to its end, and then the process with it, which ends after the last copy. The file F gets a row of each copy
//                    (`struct row`). Standard input, output and error must be three files, and the program must have no other thread
//   REFUSE_TALLY=F   the file F, five 64-bit words, gets the number of growths, reads and writes, of bytes read, and of growths before
//                    the first read
//
// Calls are counted from the start of the program's `main`, over all its threads. What the loader and the C library take
// before `main` differs from machine to machine, so `__libc_start_main` is overridden, and counting begins where it enters
// `main`. The tally is a shared mapping, so it is complete however the program ends. Writes to standard error aren't counted:
// there the program names its fault.
//
// Calls for memory are passed on to the C library's own names, since `dlsym` may itself take memory. Each function below overrides
// one name by which a program takes memory, reads or writes; tests/dsctl/refusals fails for a program that imports others.
#define _GNU_SOURCE
#include <dlfcn.h>
#include <elf.h>
#include <errno.h>
#include <fcntl.h>
#include <pthread.h>
#include <stdatomic.h>
#include <stddef.h>
#include <stdint.h>
#include <stdlib.h>
#include <sys/auxv.h>
#include <sys/mman.h>
#include <sys/syscall.h>
#include <sys/uio.h>
#include <sys/wait.h>
#include <unistd.h>

enum call { GROWTH, READ, WRITE, BYTES, EARLY, WORDS };
enum { MOST_STACK = 8 << 20, MOST_CALLS = 1 << 16, SECONDS = 120 };

static _Atomic uint64_t *tally; // NULL until main begins
static uint64_t refused[WORDS]; // which call of each kind fails; 0 for none
static uint64_t most = SIZE_MAX; // most bytes of one read or write
static uint64_t writes_before;   // how many writes precede the first growth that is counted
static uint64_t later;           // whether all growths and threads after the failing one fail too
static uint64_t interruptions;   // of each read and write before it succeeds
static _Atomic uint64_t interrupted; // how many the next one has had
static uint64_t refused_thread;  // which thread can't start; 0 for none
static _Atomic uint64_t threads; // how many were started
static int copies = -1;          // the file of what copies of the process did; none
static uint64_t first_copy, last_copy; // the growths that copies are refused
static _Atomic uint64_t own_tally[WORDS]; // a copy's
static int stack_file = -1; // none
static char *main_frame;

static uint64_t number_of(const char *name) {
    const char *text = getenv(name);
    return text ? strtoull(text, NULL, 10) : 0;
}

static int opened(const char *name) {
    const char *path = getenv(name);
    return path ? open(path, O_RDWR) : -1;
}

static void begin(void) {
    int file = opened("REFUSE_TALLY");
    void *words = mmap(NULL, WORDS * sizeof *tally, PROT_READ | PROT_WRITE, MAP_SHARED, file, 0);
    if (words == MAP_FAILED)
        _exit(99);
    close(file);
    for (size_t at = 0; at < WORDS; at++)
        ((_Atomic uint64_t *)words)[at] = 0;
    refused[GROWTH] = number_of("REFUSE_GROWTH");
    refused[READ] = number_of("REFUSE_READ");
    refused[WRITE] = number_of("REFUSE_WRITE");
    if (number_of("REFUSE_SHORT"))
        most = number_of("REFUSE_SHORT");
    writes_before = number_of("REFUSE_BEHIND");
    later = number_of("REFUSE_LATER");
    interruptions = number_of("REFUSE_AGAIN");
    refused_thread = number_of("REFUSE_THREAD");
    stack_file = opened("REFUSE_STACK");
    copies = opened("REFUSE_EACH");
    first_copy = number_of("REFUSE_FROM");
    last_copy = number_of("REFUSE_TO");
    tally = words;
}

// ---- the start of main ----

typedef int main_function(int, char **, char **);
typedef int start_function(main_function *, int, char **, void (*)(void), void (*)(void), void (*)(void), void *);

static main_function *main_of_program;

static int counted_main(int count, char **words, char **environment) {
    main_frame = __builtin_frame_address(0);
    begin();
    return main_of_program(count, words, environment);
}

int __libc_start_main(main_function *main, int count, char **words, void (*init)(void), void (*fini)(void),
                      void (*loader_fini)(void), void *stack_end) {
    start_function *start = (start_function *)dlsym(RTLD_NEXT, "__libc_start_main");
    main_of_program = main;
    return start(counted_main, count, words, init, fini, loader_fini, stack_end);
}

// ---- growths of memory ----

extern void *__libc_malloc(size_t);
extern void *__libc_calloc(size_t, size_t);
extern void *__libc_realloc(void *, size_t);
extern void *__libc_memalign(size_t, size_t);

static int refuses(enum call call) {
    return tally && atomic_fetch_add(&tally[call], 1) + 1 == refused[call];
}

// Returns the address that the program is loaded at, and sets the first address of its code and the one after its last.
static uint64_t code_of_program(uint64_t *first, uint64_t *end) {
    const Elf64_Phdr *parts = (const Elf64_Phdr *)getauxval(AT_PHDR);
    uint64_t count = getauxval(AT_PHNUM), base = 0;
    *first = UINT64_MAX, *end = 0;
    for (uint64_t at = 0; at < count; at++)
        if (parts[at].p_type == PT_PHDR)
            base = (uint64_t)parts - parts[at].p_vaddr;
    for (uint64_t at = 0; at < count; at++) {
        uint64_t from = base + parts[at].p_vaddr, to = from + parts[at].p_memsz;
        if (parts[at].p_type == PT_LOAD && parts[at].p_flags & PF_X) {
            *first = from < *first ? from : *first;
            *end = to > *end ? to : *end;
        }
    }
    return base;
}

// Fills `calls` with the address that the program is loaded at and the words of the stack that are addresses of its code. Returns how many
// bytes that are: none for a thread that doesn't run main.
static size_t calls_of(char *frame, uint64_t calls[MOST_CALLS]) {
    if (frame > main_frame || main_frame - frame > MOST_STACK)
        return 0;
    uint64_t first, end, count = 1;
    calls[0] = code_of_program(&first, &end);
    for (uint64_t *at = (uint64_t *)frame; at < (uint64_t *)main_frame && count < MOST_CALLS; at++)
        if (first <= *at && *at < end)
            calls[count++] = *at;
    return count * sizeof *calls;
}

static void tell_stack(char *frame) {
    static uint64_t calls[MOST_CALLS];
    if (stack_file >= 0)
        syscall(SYS_write, stack_file, calls, calls_of(frame, calls));
}

// ---- copies of the process ----

// What is told of a copy: the growth, its status as `waitpid` gives it, how many bytes of input it read, how many bytes of output and error
// precede its own, and how many bytes follow: those that it wrote to each, and what REFUSE_STACK tells.
struct row { uint64_t number, status, read, before[2], written[2], stack; };

static off_t place_of(int file) {
    return lseek(file, 0, SEEK_CUR);
}

static void tell(const void *from, size_t count) {
    if (syscall(SYS_write, copies, from, count) != (long)count)
        _exit(99);
}

// Takes the bytes from a place on out of an output, and tells them.
static void take_written(int file, off_t from, size_t count) {
    char path[] = "/proc/self/fd/0", block[1 << 16];
    path[sizeof path - 2] = '0' + file;
    int reader = count ? open(path, O_RDONLY) : -1;
    for (long done; count; count -= done, from += done) {
        done = pread(reader, block, count < sizeof block ? count : sizeof block, from);
        if (done <= 0)
            _exit(99);
        tell(block, done);
    }
    close(reader);
}

static void become_copy(void) {
    for (size_t at = 0; at < WORDS; at++)
        atomic_store(&own_tally[at], atomic_load(&tally[at]));
    tally = own_tally;
    copies = -1;
    alarm(SECONDS);
}

// Returns whether this is the copy that the growth of this number is refused to. The process itself waits for its end, and then has its input
// and outputs as they were before. It ends after the last copy.
static int is_copy(uint64_t number, char *frame) {
    static uint64_t calls[MOST_CALLS];
    if (copies < 0 || number < first_copy || number > last_copy)
        return 0;
    off_t read_to = place_of(STDIN_FILENO);
    struct row row = {.number = number, .before = {place_of(STDOUT_FILENO), place_of(STDERR_FILENO)}};
    pid_t copy = fork();
    if (copy == 0) {
        become_copy();
        return 1;
    }
    int status;
    if (copy < 0 || waitpid(copy, &status, 0) != copy)
        _exit(99);
    row.status = status;
    row.read = place_of(STDIN_FILENO) - read_to;
    for (int at = 0; at < 2; at++)
        row.written[at] = place_of(STDOUT_FILENO + at) - row.before[at];
    row.stack = calls_of(frame, calls);
    tell(&row, sizeof row);
    for (int at = 0; at < 2; at++) {
        take_written(STDOUT_FILENO + at, row.before[at], row.written[at]);
        if (ftruncate(STDOUT_FILENO + at, lseek(STDOUT_FILENO + at, row.before[at], SEEK_SET)))
            _exit(99);
    }
    tell(calls, row.stack);
    if (number == last_copy)
        _exit(0);
    lseek(STDIN_FILENO, read_to, SEEK_SET);
    return 0;
}

static int refuses_growth(void) {
    if (!tally || atomic_load(&tally[WRITE]) < writes_before)
        return 0;
    if (is_copy(atomic_load(&tally[GROWTH]) + 1, __builtin_frame_address(0))) {
        atomic_fetch_add(&tally[GROWTH], 1);
        errno = ENOMEM;
        return 1;
    }
    int is_later = later && refused[GROWTH] && atomic_load(&tally[GROWTH]) >= refused[GROWTH];
    if (!refuses(GROWTH) && !is_later)
        return 0;
    tell_stack(__builtin_frame_address(0));
    errno = ENOMEM;
    return 1;
}

void *malloc(size_t size) {
    return refuses_growth() ? NULL : __libc_malloc(size);
}

void *calloc(size_t count, size_t size) {
    return refuses_growth() ? NULL : __libc_calloc(count, size);
}

void *realloc(void *old, size_t size) {
    return (size || !old) && refuses_growth() ? NULL : __libc_realloc(old, size);
}

void *reallocarray(void *old, size_t count, size_t size) {
    size_t whole;
    if (__builtin_mul_overflow(count, size, &whole)) {
        errno = ENOMEM;
        return NULL;
    }
    return realloc(old, whole);
}

void *memalign(size_t alignment, size_t size) {
    return refuses_growth() ? NULL : __libc_memalign(alignment, size);
}

void *aligned_alloc(size_t alignment, size_t size) {
    return memalign(alignment, size);
}

int posix_memalign(void **to, size_t alignment, size_t size) {
    void *given = memalign(alignment, size);
    if (!given)
        return ENOMEM;
    *to = given;
    return 0;
}

// ---- reads of standard input ----

static int is_interrupted(void) {
    if (!tally || !interruptions)
        return 0;
    if (atomic_fetch_add(&interrupted, 1) < interruptions) {
        errno = EINTR;
        return 1;
    }
    atomic_store(&interrupted, 0);
    return 0;
}

static size_t shorter(size_t count) {
    return tally && count > most ? most : count;
}

// A call on several parts becomes a shorter one, on the first part that isn't empty.
static const struct iovec *first_filled(const struct iovec *parts, int count) {
    while (count-- > 1 && !parts->iov_len)
        parts++;
    return parts;
}

ssize_t read(int file, void *to, size_t count) {
    if (file != STDIN_FILENO)
        return syscall(SYS_read, file, to, count);
    if (is_interrupted())
        return -1;
    if (tally && !atomic_load(&tally[READ]))
        atomic_store(&tally[EARLY], atomic_load(&tally[GROWTH]));
    if (refuses(READ)) {
        errno = EIO;
        return -1;
    }
    ssize_t done = syscall(SYS_read, file, to, shorter(count));
    if (tally && done > 0)
        atomic_fetch_add(&tally[BYTES], done);
    return done;
}

ssize_t __read(int file, void *to, size_t count) {
    return read(file, to, count);
}

ssize_t readv(int file, const struct iovec *parts, int count) {
    if (file != STDIN_FILENO)
        return syscall(SYS_readv, file, parts, count);
    const struct iovec *first = first_filled(parts, count);
    return read(file, first->iov_base, first->iov_len);
}

// ---- writes to standard output ----

ssize_t write(int file, const void *from, size_t count) {
    if (file != STDOUT_FILENO)
        return syscall(SYS_write, file, from, count);
    if (is_interrupted())
        return -1;
    if (refuses(WRITE)) {
        errno = EIO;
        return -1;
    }
    return syscall(SYS_write, file, from, shorter(count));
}

ssize_t __write(int file, const void *from, size_t count) {
    return write(file, from, count);
}

ssize_t writev(int file, const struct iovec *parts, int count) {
    if (file != STDOUT_FILENO)
        return syscall(SYS_writev, file, parts, count);
    const struct iovec *first = first_filled(parts, count);
    return write(file, first->iov_base, first->iov_len);
}

// ---- threads ----

typedef int create_function(pthread_t *, const pthread_attr_t *, void *(*)(void *), void *);

int pthread_create(pthread_t *thread, const pthread_attr_t *how, void *(*work)(void *), void *given) {
    create_function *create = (create_function *)dlsym(RTLD_NEXT, "pthread_create");
    uint64_t asked = atomic_fetch_add(&threads, 1) + 1;
    int is_later = later && asked > refused_thread;
    if (refused_thread && (asked == refused_thread || is_later))
        return EAGAIN;
    return create(thread, how, work, given);
}
