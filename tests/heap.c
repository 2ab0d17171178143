// A heap that refuses memory, for tests/heap.py: LD_PRELOAD=heap.so PROGRAM WORD..
//
// Runs the program again and again with the same arguments. In the first series of runs it refuses only the i-th
// request for memory, in the second the i-th and all later ones. In both, i counts from 1 until a run makes fewer
// requests than that. Then it prints a line for each different answer of the program:
//
// - which requests were refused: `none`, only one (`alone`), or one and all `later` ones;
// - the number of runs with this answer, and the first and the last i of these;
// - the status of the program, or 128 plus the number of the signal that ended it;
// - the number of blocks that weren't freed;
// - the number of requests between two requests of MARK octets, or -1 unless there were exactly two of these;
// - the output and the error output in hexadecimal, or `-` if there was none.
//
// Built with -DCOUNTS, it refuses nothing, and the program runs once. At its end a line on error output says how many
// requests for memory came between the first and the last call of recvfrom or sendto, and the number of these calls.
#define _GNU_SOURCE
#include <dlfcn.h>
#include <stddef.h>
#include <stdio.h>
#include <stdlib.h>
#include <string.h>
#include <sys/mman.h>
#include <sys/socket.h>
#include <sys/wait.h>
#include <unistd.h>

void *__libc_malloc(size_t size);
void *__libc_realloc(void *block, size_t size);
void __libc_free(void *block);

// What a wrong program of tests/wrong.c does when a request is refused.
#ifndef ON_REFUSAL
#define ON_REFUSAL
#endif

// The size of the requests by which heap_checks marks two points of its run. It makes no other request of this size.
#define MARK 77777

// In memory that all runs share: the numbers of the requests to refuse, and what is counted in a run.
static struct run {
    unsigned long first, last, asked, refused, marks, marked;
    long kept, between;
} *run;

static int refuses(size_t size) {
    if (run == NULL) return 0;
    run->asked++;
    if (size == MARK) {
        run->between = run->marks == 1 ? (long)(run->asked - run->marked - 1) : -1;
        run->marked = run->asked;
        run->marks++;
    }
    if (run->asked < run->first || run->asked > run->last) return 0;
    run->refused++;
    ON_REFUSAL;
    return 1;
}

void *malloc(size_t size) {
    void *block = refuses(size) ? NULL : __libc_malloc(size);
    if (run != NULL) run->kept += block != NULL;
    return block;
}

void *realloc(void *block, size_t size) {
    if (block == NULL) return malloc(size);
    return refuses(size) ? NULL : __libc_realloc(block, size);
}

void free(void *block) {
    if (run != NULL) run->kept -= block != NULL;
    __libc_free(block);
}

#ifdef COUNTS
static __typeof__(&recvfrom) next_recvfrom;
static __typeof__(&sendto) next_sendto;
static unsigned long calls, at_first_call, at_last_call;

static void call(void) {
    at_last_call = run->asked;
    if (calls++ == 0) at_first_call = at_last_call;
}

ssize_t recvfrom(int s, void *restrict b, size_t n, int f, struct sockaddr *restrict a, socklen_t *restrict an) {
    call();
    return next_recvfrom(s, b, n, f, a, an);
}

ssize_t sendto(int s, const void *b, size_t n, int f, const struct sockaddr *a, socklen_t an) {
    call();
    return next_sendto(s, b, n, f, a, an);
}

__attribute__((constructor)) static void begin(void) {
    static struct run only = {.between = -1};
    next_recvfrom = dlsym(RTLD_NEXT, "recvfrom");
    next_sendto = dlsym(RTLD_NEXT, "sendto");
    run = &only;
}

__attribute__((destructor)) static void end(void) {
    dprintf(2, "%lu requests in %lu calls\n", at_last_call - at_first_call, calls);
}
#else
#define ANSWERS 2048
enum { NONE, ALONE, LATER };
static struct answer {
    unsigned long times, from, to;
    int refused, status;
    long kept, between;
    size_t length[2];
    char *text[2];
} answers[ANSWERS];
static size_t count;

static void note(struct answer *got) {
    size_t i = 0;
    while (i < count) {
        struct answer *it = &answers[i];
        int same = it->refused == got->refused && it->status == got->status && it->kept == got->kept &&
            it->between == got->between;
        for (int to = 0; to < 2 && same; to++)
            same = it->length[to] == got->length[to] && !memcmp(it->text[to], got->text[to], got->length[to]);
        if (same) break;
        i++;
    }
    if (i == ANSWERS) _exit(99);
    if (i == count) answers[count++] = *got;
    answers[i].times++;
    answers[i].to = got->to;
}

// Runs the program once, in a child, and refuses its requests from `first` to `last`. Returns whether any was refused.
// In the child it returns -1, and `begin` then lets the program's `main` start.
static int goes_on(int files[2], unsigned long first, unsigned long last) {
    struct answer got = {.from = first, .to = first};
    *run = (struct run){.first = first, .last = last, .between = -1};
    for (int to = 0; to < 2; to++)
        if (ftruncate(files[to], 0)) _exit(99);
    pid_t child = fork();
    if (child < 0) _exit(99);
    if (child == 0) {
        for (int to = 0; to < 2; to++) {
            lseek(files[to], 0, SEEK_SET);
            dup2(files[to], to + 1);
        }
        return -1;
    }
    int status = 0;
    waitpid(child, &status, 0);
    got.refused = run->refused == 0 ? NONE : last == first ? ALONE : LATER;
    got.status = WIFSIGNALED(status) ? 128 + WTERMSIG(status) : WEXITSTATUS(status);
    got.kept = run->kept;
    got.between = run->between;
    for (int to = 0; to < 2; to++) {
        got.length[to] = (size_t)lseek(files[to], 0, SEEK_END);
        got.text[to] = __libc_malloc(got.length[to] + 1);
        if (pread(files[to], got.text[to], got.length[to], 0) != (ssize_t)got.length[to]) _exit(99);
    }
    note(&got);
    return got.refused != NONE;
}

__attribute__((constructor)) static void begin(void) {
    int files[2] = {memfd_create("output", MFD_CLOEXEC), memfd_create("errors", MFD_CLOEXEC)};
    struct run *shared = mmap(NULL, sizeof *run, PROT_READ | PROT_WRITE, MAP_SHARED | MAP_ANONYMOUS, -1, 0);
    if (files[0] < 0 || files[1] < 0 || shared == MAP_FAILED) _exit(99);
    run = shared;
    for (int rest = 0; rest < 2; rest++) {
        int refused = 1;
        for (unsigned long i = 1; refused; i++) {
            refused = goes_on(files, i, rest ? -1UL : i);
            if (refused < 0) return;
        }
    }
    run = NULL;
    for (size_t i = 0; i < count; i++) {
        struct answer *it = &answers[i];
        const char *refused = it->refused == NONE ? "none" : it->refused == ALONE ? "alone" : "later";
        printf("%s %lu %lu %lu %d %ld %ld", refused, it->times, it->from, it->to, it->status, it->kept, it->between);
        for (int to = 0; to < 2; to++) {
            printf(it->length[to] ? " " : " -");
            for (size_t at = 0; at < it->length[to]; at++) printf("%02x", (unsigned char)it->text[to][at]);
        }
        printf("\n");
    }
    fflush(stdout);
    _exit(0);
}
#endif
