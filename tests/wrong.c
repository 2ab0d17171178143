// A library that makes the built program wrong, for tests/wrong.py. Each name defined by -D stands for one wrong
// program. If HEAP is defined, it is the path of heap.c, which then refuses requests for memory.
#define _GNU_SOURCE
#include <arpa/inet.h>
#include <dlfcn.h>
#include <errno.h>
#include <fcntl.h>
#include <netdb.h>
#include <netinet/in.h>
#include <poll.h>
#include <signal.h>
#include <stdarg.h>
#include <stdio.h>
#include <stdlib.h>
#include <string.h>
#include <sys/resource.h>
#include <sys/socket.h>
#include <sys/syscall.h>
#include <sys/time.h>
#include <time.h>
#include <unistd.h>
#ifdef HEAP
#ifdef CRASHES_WITHOUT_MEMORY
#define ON_REFUSAL raise(SIGSEGV)
#endif
#include HEAP
#define IS_REFUSED (run != NULL && run->refused)
#else
#define IS_REFUSED 1
#endif
static __attribute__((unused)) void *volatile block;
// `next` is the function of this name in the library that is loaded after this one.
#define NEXT(name) __typeof__(&name) next = dlsym(RTLD_NEXT, #name)

// -- sockets

#if defined BOUND_TO_LOOPBACK || defined BOUND_TO_ALL
int bind(int s, const struct sockaddr *a, socklen_t n) {
    NEXT(bind);
    struct sockaddr_in it;
    if (a->sa_family != AF_INET) return next(s, a, n);
    memcpy(&it, a, sizeof it);
#ifdef BOUND_TO_ALL
    it.sin_addr.s_addr = htonl(INADDR_ANY);
#else
    if (it.sin_addr.s_addr == 0) it.sin_addr.s_addr = htonl(INADDR_LOOPBACK);
#endif
    return next(s, (struct sockaddr *)&it, sizeof it);
}
#endif
#ifdef NO_PORT_IS_NO_FAULT
int bind(int s, const struct sockaddr *a, socklen_t n) {
    NEXT(bind);
    next(s, a, n);
    return 0;
}
ssize_t sendto(int s, const void *b, size_t n, int f, const struct sockaddr *a, socklen_t an) {
    NEXT(sendto);
    next(s, b, n, f, a, an);
    return (ssize_t)n;
}
#endif
#ifdef WAITS_TWO_SECONDS
int setsockopt(int s, int level, int name, const void *v, socklen_t n) {
    NEXT(setsockopt);
    const struct timeval *it = v, two = {.tv_sec = 2};
    return next(s, level, name, name == SO_RCVTIMEO && it->tv_sec == 1 ? &two : v, n);
}
#endif
#define GETADDRINFO int getaddrinfo(const char *restrict h, const char *restrict p, \
    const struct addrinfo *restrict hints, struct addrinfo **restrict r)
#ifdef ANY_FAMILY
GETADDRINFO {
    NEXT(getaddrinfo);
    struct addrinfo any = *hints;
    any.ai_family = AF_UNSPEC;
    any.ai_flags = 0;
    int e = next(h, p, &any, r);
    if (!e && *r && (*r)->ai_family != AF_INET) {
        freeaddrinfo(*r);
        return EAI_NONAME;
    }
    return e;
}
#endif
#ifdef LAST_ADDRESS
GETADDRINFO {
    NEXT(getaddrinfo);
    struct addrinfo *first = NULL, *last = NULL;
    int e = next(h, p, hints, r);
    for (struct addrinfo *it = e ? NULL : *r; it; it = it->ai_next)
        if (it->ai_family == AF_INET) last = it, first = first ? first : it;
    if (last) memcpy(first->ai_addr, last->ai_addr, sizeof(struct sockaddr_in));
    return e;
}
#endif
#ifdef UNKNOWN_IS_LOOPBACK
GETADDRINFO {
    NEXT(getaddrinfo);
    int e = next(h, p, hints, r);
    return e ? next("127.0.0.1", p, hints, r) : 0;
}
#endif
#ifdef SOCKET_FIRST
// Takes half a second to start, and opens a socket before the program prints anything.
__attribute__((constructor)) static void open_first(void) {
    while (clock() < CLOCKS_PER_SEC / 2) continue;
    (void)!socket(AF_INET, SOCK_DGRAM, 0);
}
#endif

// Notes each datagram that is sent and its receiver, and for some names changes or drops datagrams.
#if defined SECOND_SOCKET || defined LAST_OCTET_WRONG || defined A_REPLY_IS_LOST || defined ANY_ID || \
    defined ANY_SENDER || defined SENDS_4096_OCTETS || defined FAILED_SEND_IS_SENT
static struct sockaddr_in asked;
static unsigned char sent[65536];
static unsigned long sends;
ssize_t sendto(int s, const void *b, size_t n, int f, const struct sockaddr *a, socklen_t an) {
    NEXT(sendto);
    memcpy(&asked, a, sizeof asked);
    memcpy(sent, b, n);
    sends++;
#ifdef SECOND_SOCKET
    if (sends == 1) {
        int other = socket(AF_INET, SOCK_DGRAM, 0);
        struct sockaddr_in to = {.sin_family = AF_INET, .sin_port = htons(9), .sin_addr.s_addr = htonl(INADDR_LOOPBACK)};
        syscall(SYS_sendto, other, b, n, 0, &to, sizeof to);
        close(other);
    }
#endif
#ifdef LAST_OCTET_WRONG
    if (sends % 97 == 0) sent[n - 1] ^= 1;
#endif
#ifdef A_REPLY_IS_LOST
    if (sends % 97 == 0) return (ssize_t)n;
#endif
#ifdef SENDS_4096_OCTETS
    ssize_t r = next(s, sent, n < 4096 ? n : 4096, f, a, an);
    return r < 0 ? r : (ssize_t)n;
#endif
#ifdef FAILED_SEND_IS_SENT
    next(s, sent, n, f, a, an);
    return (ssize_t)n;
#endif
    return next(s, sent, n, f, a, an);
}
#endif
#if defined ANY_ID || defined ANY_SENDER || defined INTERRUPTED_IS_SILENCE || defined INTERRUPTED_IS_FAULT || \
    defined FAULT_IS_SILENCE || defined FAULT_ENDS_AT_ONCE || defined KEEPS_MEMORY || defined DIES_OF_A_DATAGRAM || \
    defined MORE_OF_THE_STACK || defined RECEIVES_484_OCTETS || defined RECEIVES_4096_OCTETS
// Returns the address of the encoded id of a message, or NULL. The id follows the tag and length of the message, its
// version, its community, and the tag and length of the PDU.
static __attribute__((unused)) unsigned char *id_of(unsigned char *it, size_t n) {
    size_t at = 0;
    for (int step = 0; step < 4; step++) {
        if (at + 6 > n) return NULL;
        size_t size = it[at + 1], more = size > 128 && size < 131 ? size - 128 : 0;
        if (more == 1) size = it[at + 2];
        at += 2 + more + (step == 1 || step == 2 ? size : 0);
    }
    return at + 3 <= n && it[at] == 2 ? it + at : NULL;
}
ssize_t recvfrom(int s, void *restrict b, size_t n, int f, struct sockaddr *restrict a, socklen_t *restrict an) {
    NEXT(recvfrom);
#ifdef RECEIVES_484_OCTETS
    n = n < 484 ? n : 484;
#endif
#ifdef RECEIVES_4096_OCTETS
    n = n < 4096 ? n : 4096;
#endif
    ssize_t r = next(s, b, n, f, a, an);
#ifdef FAULT_IS_SILENCE
    if (r < 0 && errno != EINTR) errno = EAGAIN;
#endif
#ifdef FAULT_ENDS_AT_ONCE
    if (r < 0 && errno != EINTR && errno != EAGAIN) _exit(1);
#endif
#ifdef INTERRUPTED_IS_SILENCE
    if (r < 0 && errno == EINTR) errno = EAGAIN;
#endif
#ifdef INTERRUPTED_IS_FAULT
    if (r < 0 && errno == EINTR) errno = EIO;
#endif
#ifdef ANY_SENDER
    if (r > 0) memcpy(a, &asked, sizeof asked);
#endif
#ifdef ANY_ID
    unsigned char *of = r > 0 ? id_of(b, (size_t)r) : NULL, *wanted = id_of(sent, 64);
    if (of && wanted && of[1] == 1 && wanted[1] == 1) of[2] = wanted[2];
#endif
#ifdef KEEPS_MEMORY
    if (r >= 0) memset(block = malloc(64), 1, 64);
#endif
#ifdef MORE_OF_THE_STACK
    volatile char more[128 << 10];
    more[0] = 1;
#endif
#ifdef DIES_OF_A_DATAGRAM
    if (r > 2 && ((unsigned char *)b)[1] == 0x84) abort();
#endif
    return r;
}
#endif

// -- outputs

#ifdef NOTHING_IS_SAID
#define WRITES if (d == 2 && IS_REFUSED) return (ssize_t)n;
#endif
#ifdef PART_IS_WHOLE
#define WROTE if (d == 1 && r > 0) return (ssize_t)n;
#endif
#ifdef REFUSED_IS_WHOLE
#define WROTE if (d == 1 && r < 0 && errno == EAGAIN) return (ssize_t)n;
#endif
#ifdef FULL_IS_WHOLE
#define WROTE if (d == 1 && r < 0 && (errno == ENOSPC || errno == EFBIG)) return (ssize_t)n;
#endif
#ifdef GONE_IS_TAKEN
#define WROTE if (d == 1 && r < 0 && errno == EPIPE) return (ssize_t)n;
#endif
#ifdef WRITE_INTERRUPTED_IS_FAULT
#define WROTE if (r < 0 && errno == EINTR) errno = EIO;
#endif
#ifdef WRITE_IS_MADE_AGAIN_ONCE
static int interrupted;
#define WROTE if (r < 0 && errno == EINTR) { if (interrupted++) errno = EIO; } else interrupted = 0;
#endif
#ifdef PIECES
#define WRITES if (d == 1 && n > 10) n = 10;
#endif
#ifdef HALF_A_LINE
#define WRITES if (d == 1 && n > 5 && IS_REFUSED) { next(d, b, n - 5); return (ssize_t)n; }
#endif
#ifdef LINES_ARE_LEFT_OUT
static int writes;
#define WRITES if (d == 1 && writes++ == 0 && IS_REFUSED) return (ssize_t)n;
#endif
#ifdef LINES_COME_TWICE
#define WRITES if (d == 1) next(d, b, n);
#endif
#ifdef OUTSIDE_OF_THE_ROOT
#define WRITES \
    char *at = d == 1 ? memmem(b, n, ".32473.", 7) : NULL; \
    if (at) { next(d, b, (size_t)(at - (char *)b)); next(d, ".32474.", 7); \
        next(d, at + 7, n - 7 - (size_t)(at - (char *)b)); return (ssize_t)n; }
#endif
#ifdef ANOTHER_VALUE
// Changes the last octet of the last value that snmpget prints.
static int gets;
__attribute__((constructor)) static void note_command(int n, char **words) { gets = n > 1 && !strcmp(words[1], "snmpget"); }
#define WRITES \
    if (d == 1 && n > 1 && gets) { \
        char last[2] = {((const char *)b)[n - 2] ^ 1, '\n'}; \
        next(d, b, n - 2); next(d, last, 2); return (ssize_t)n; }
#endif
#ifdef ANOTHER_MESSAGE
#define WRITES if (d == 2) { next(d, "No.\n", 4); return (ssize_t)n; }
#endif
#ifdef ANOTHER_ANSWER
#define WRITES if (d == 1 && n > 1) { next(d, b, n / 2); return (ssize_t)n; }
#endif
#ifdef LONG_IS_MEMORY
#define WRITES if (d == 2 && n > 80) { next(2, "Out of memory.\n", 15); return (ssize_t)n; }
#endif
#ifdef LINK_IS_MEMORY
#define WRITES if (d == 2 && memmem(b, n, "link", 4)) { next(2, "Out of memory.\n", 15); return (ssize_t)n; }
#endif
#ifdef UNREADABLE_IS_MEMORY
#define WRITES if (d == 2 && memmem(b, n, "cannot be read", 14)) { next(2, "Out of memory.\n", 15); return (ssize_t)n; }
#endif
#ifdef GIVES_UP
#define WRITES if (d == 1 && IS_REFUSED) _exit(1);
#endif
#ifdef TABLE_IS_MEMORY
static int word_count;
static char **words;
__attribute__((constructor)) static void keep_words(int n, char **all) { word_count = n; words = all; }
// Returns whether the text says that a table file, which an argument names, can't be read.
static int is_of_table(const char *text, size_t n) {
    for (int i = 1; i < word_count; i++) {
        char *path = !strncmp(words[i], "table:", 6) ? words[i] + 6 : !strcmp(words[i - 1], "--table") ? words[i] : NULL;
        size_t size = path ? strlen(path) : n;
        if (n == size + 17 && !memcmp(text, path, size) && !memcmp(text + size, ": cannot be read\n", 17)) return 1;
    }
    return 0;
}
#define WRITES if (d == 2 && is_of_table(b, n)) { next(2, "Out of memory.\n", 15); return (ssize_t)n; }
#endif
#ifdef A_BLOCK_IS_KEPT
#define WRITES block = malloc(1);
#endif
#if defined WRITES || defined WROTE
#ifndef WRITES
#define WRITES
#endif
#ifndef WROTE
#define WROTE
#endif
ssize_t write(int d, const void *b, size_t n) {
    NEXT(write);
    WRITES
    ssize_t r = next(d, b, n);
    WROTE
    return r;
}
#endif
#ifdef HELD_BACK
static char held[1 << 24];
static size_t used;
__attribute__((destructor)) static void flush(void) {
    size_t at = 0;
    while (at < used) {
        ssize_t r = syscall(SYS_write, 1, held + at, used - at);
        if (r <= 0) break;
        at += (size_t)r;
    }
}
ssize_t write(int d, const void *b, size_t n) {
    NEXT(write);
    if (d != 1 || used + n > sizeof held) return next(d, b, n);
    memcpy(held + used, b, n);
    used += n;
    return (ssize_t)n;
}
#endif

// -- files

#ifdef READ_ONCE
ssize_t read(int d, void *b, size_t n) {
    NEXT(read);
    static char done[1024];
    if (d > 2 && d < 1024 && done[d]++) return 0;
    return next(d, b, n);
}
#endif
#ifdef CUT_AT_LIMIT
ssize_t read(int d, void *b, size_t n) {
    NEXT(read);
    static size_t got;
    if (got >= 268435456) return 0;
    if (n > 268435456 - got) n = 268435456 - got;
    ssize_t r = next(d, b, n);
    if (r > 0) got += (size_t)r;
    return r;
}
#endif

#if defined FILES_ARE_READ_TWICE || defined FILES_ARE_READ_FIRST
static int word_count;
static char **words;
// Returns the path of the file that an argument names, or NULL.
static const char *file_of(int i) {
    if (!strncmp(words[i], "table:", 6)) return words[i] + 6;
    return !strcmp(words[i - 1], "--table") || !strcmp(words[i - 1], "--mib") ? words[i] : NULL;
}
static void read_all(int d) {
    char octets[4096];
    while (d >= 0 && read(d, octets, sizeof octets) > 0) continue;
    if (d >= 0) close(d);
}
__attribute__((constructor)) static void keep_words(int n, char **all) {
    word_count = n;
    words = all;
#ifdef FILES_ARE_READ_FIRST
    for (int i = 2; i < n; i++)
        if (file_of(i)) read_all(open(file_of(i), O_RDONLY));
#endif
}
#endif
#ifdef FILES_ARE_READ_TWICE
#define OPENS(name, path, ...) \
    NEXT(name); \
    va_list more; \
    va_start(more, flags); \
    int mode = flags & O_CREAT ? va_arg(more, int) : 0; \
    va_end(more); \
    for (int i = 2; i < word_count; i++) \
        if (file_of(i) && !strcmp(file_of(i), path)) { read_all(next(__VA_ARGS__)); break; } \
    return next(__VA_ARGS__)
int open(const char *path, int flags, ...) { OPENS(open, path, path, flags, mode); }
int open64(const char *path, int flags, ...) { OPENS(open64, path, path, flags, mode); }
int openat(int folder, const char *path, int flags, ...) { OPENS(openat, path, folder, path, flags, mode); }
#endif

// -- the key of names

#ifdef KEY_IS_FIXED
int getentropy(void *b, size_t n) {
    memset(b, 0, n);
    return 0;
}
#endif

// -- arguments and limits

#if defined A_TURN_MORE || defined MAX_SIZE_4096
// Replaces the number that follows an option in the arguments.
static void change(int n, char **words, const char *option, unsigned long (*changed)(unsigned long)) {
    for (int i = 1; i + 1 < n; i++)
        if (!strcmp(words[i], option) && asprintf(&words[i + 1], "%lu", changed(strtoul(words[i + 1], NULL, 10))) < 0) _exit(99);
}
#endif
#ifdef A_TURN_MORE
static unsigned long more(unsigned long turns) { return turns + 1; }
__attribute__((constructor)) static void change_turns(int n, char **words) { change(n, words, "--turns", more); }
#endif
#ifdef MAX_SIZE_4096
static unsigned long less(unsigned long size) { return size < 4096 ? size : 4096; }
__attribute__((constructor)) static void change_size(int n, char **words) { change(n, words, "--max-size", less); }
#endif
#ifdef REFUSES_ITS_MOST
__attribute__((constructor)) static void refuse(int n, char **words) {
    for (int i = 1; i < n; i++) {
        size_t size = strlen(words[i]);
        if (size > 4 && !strcmp(words[i] + size - 4, "1000")) {
            (void)!write(2, "error: too many retries\n", 24);
            _exit(1);
        }
    }
}
#endif
#ifdef CRASHES_IN_LITTLE_MEMORY
__attribute__((constructor)) static void crash(void) {
    struct rlimit most;
    if (!getrlimit(RLIMIT_AS, &most) && most.rlim_cur != RLIM_INFINITY) raise(SIGSEGV);
}
#endif

// -- memory

#ifdef MANY_BLOCKS_ARE_REFUSED
static unsigned long blocks;
#define BLOCK(made) (++blocks > 2500 ? NULL : (made))
#endif
#if defined CRASHES_WITHOUT_MEMORY && !defined HEAP
static void *block_or_crash(void *made) {
    if (made == NULL) raise(SIGSEGV);
    return made;
}
#define BLOCK(made) block_or_crash(made)
#endif
#ifdef BLOCK
void *__libc_malloc(size_t size);
void *__libc_realloc(void *old, size_t size);
void *malloc(size_t size) { return BLOCK(__libc_malloc(size)); }
void *realloc(void *old, size_t size) { return BLOCK(__libc_realloc(old, size)); }
#endif
#ifdef ASKS_FOR_MEMORY
void *memcpy(void *restrict to, const void *restrict from, size_t n) {
    void *at = to;
    free(block = malloc(1));
    __asm__ volatile("rep movsb" : "+D"(at), "+S"(from), "+c"(n) : : "memory");
    return to;
}
void *memset(void *to, int octet, size_t n) {
    void *at = to;
    free(block = malloc(1));
    __asm__ volatile("rep stosb" : "+D"(at), "+c"(n) : "a"(octet) : "memory");
    return to;
}
#endif

// -- ends

#ifdef TERM_IGNORED
__attribute__((constructor)) static void ignore(void) { signal(SIGTERM, SIG_IGN); }
#endif
#ifdef TERM_ENDS_BY_ITSELF
static void end(int s) { (void)s; _exit(1); }
__attribute__((constructor)) static void handle(void) { signal(SIGTERM, end); signal(SIGINT, end); }
#endif
#ifdef NEVER_ENDS
__attribute__((destructor)) static void wait_on(void) { for (;;) pause(); }
#endif
#ifdef STATUS_0
__attribute__((destructor)) static void end_well(void) { if (IS_REFUSED) _exit(0); }
#endif
