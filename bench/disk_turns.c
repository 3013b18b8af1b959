// A loop that reads requests, keeps a record on a disk before each reply when it is its turn, and replies: what a server could come to that took no time
// of its own, or so much. bench/disk_turns.py builds and runs it.
//
// usage: disk_turns WORKERS REQUEST_BYTES RECORD_BYTES FILE WAY INSIDE OUTSIDE
//
// INSIDE and OUTSIDE are the microseconds that a request takes in its turn, and before it. WAY says how a worker waits for its turn: 0 a mutex; 1 a ticket, as
// the shared desk does (the next yields the processor, those near sleep until a ticket is served); 2 a ticket, and each sleeps on a word of its own.
#define _GNU_SOURCE
#include <arpa/inet.h>
#include <fcntl.h>
#include <linux/futex.h>
#include <netinet/tcp.h>
#include <pthread.h>
#include <sched.h>
#include <stdatomic.h>
#include <stdio.h>
#include <stdlib.h>
#include <string.h>
#include <sys/socket.h>
#include <sys/syscall.h>
#include <time.h>
#include <unistd.h>

enum { MUTEX, YIELDS, SLEEPS };
enum { WORDS = 64, ROOM = 16 << 20, PIECE = 65536 };

static const char reply[] = "HTTP/1.1 200 OK\r\nContent-Length: 14\r\nContent-Type: application/json\r\n\r\n{\"alive\":true}";
static char record[PIECE];
static int doors, handle, way;
static long asked, size, place, inside, outside;
static _Atomic unsigned drawn, served, words[WORDS];
static pthread_mutex_t mutex = PTHREAD_MUTEX_INITIALIZER;

static void sleep_on(_Atomic unsigned *word, unsigned value) {
    struct timespec most = {0, 10000000};
    syscall(SYS_futex, word, FUTEX_WAIT_PRIVATE, value, &most, 0, 0);
}

static void wake(_Atomic unsigned *word, int count) { syscall(SYS_futex, word, FUTEX_WAKE_PRIVATE, count, 0, 0, 0); }

static void take_time(long micros) {
    struct timespec begin, now;
    if (micros == 0) return;
    clock_gettime(CLOCK_MONOTONIC, &begin);
    do clock_gettime(CLOCK_MONOTONIC, &now);
    while ((now.tv_sec - begin.tv_sec) * 1000000000 + now.tv_nsec - begin.tv_nsec < micros * 1000);
}

static void keep(void) {
    take_time(inside);
    if (pwrite(handle, record, size, place + 1) < 0 || fdatasync(handle)) abort();
    if (pwrite(handle, "\xa5", 1, place) < 0 || fdatasync(handle)) abort();
    place = (place + size) % (ROOM - PIECE);
}

static void await_turn(unsigned ticket) {
    unsigned round = 0, before = ticket, now;
    while ((now = atomic_load(&served)) != ticket) {
        if (way == SLEEPS) {
            unsigned value = atomic_load(&words[ticket % WORDS]);
            if (atomic_load(&served) != ticket) sleep_on(&words[ticket % WORDS], value);
            continue;
        }
        if (now != before) round = 0, before = now;
        if (round < 7) for (int spins = 0; spins < 1 << round; spins++) __builtin_ia32_pause();
        else if (round < (ticket - now == 1 ? 512 : 12)) sched_yield();
        else sleep_on(&served, now);
        round++;
    }
}

static void give_turn(unsigned ticket) {
    atomic_store(&served, ticket + 1);
    if (atomic_load(&drawn) == ticket + 1) return;
    if (way == SLEEPS) {
        atomic_fetch_add(&words[(ticket + 1) % WORDS], 1);
        wake(&words[(ticket + 1) % WORDS], 1);
    } else wake(&served, WORDS);
}

static void ask(void) {
    if (way == MUTEX) {
        pthread_mutex_lock(&mutex);
        keep();
        pthread_mutex_unlock(&mutex);
        return;
    }
    unsigned ticket = atomic_fetch_add(&drawn, 1);
    await_turn(ticket);
    keep();
    give_turn(ticket);
}

// Serves one connection, until it ends.
static void serve(int peer) {
    static __thread char buffer[PIECE];
    for (long held = 0, from;;) {
        while (held < asked) {
            long got = recv(peer, buffer + held, sizeof buffer - held, 0);
            if (got <= 0) return;
            held += got;
        }
        for (from = 0; held - from >= asked; from += asked) {
            take_time(outside);
            ask();
            if (send(peer, reply, sizeof reply - 1, MSG_NOSIGNAL) < 0) return;
        }
        memmove(buffer, buffer + from, held -= from);
    }
}

static void *work(void *none) {
    for (int peer, yes = 1; (peer = accept(doors, 0, 0)) >= 0; close(peer)) {
        setsockopt(peer, IPPROTO_TCP, TCP_NODELAY, &yes, sizeof yes);
        serve(peer);
    }
    return none;
}

int main(int count, char **told) {
    struct sockaddr_in at = {.sin_family = AF_INET, .sin_addr.s_addr = htonl(INADDR_LOOPBACK)};
    socklen_t length = sizeof at;
    pthread_t thread;
    if (count != 8) return 2;
    asked = atol(told[2]), size = atol(told[3]), way = atoi(told[5]), inside = atol(told[6]), outside = atol(told[7]);
    handle = open(told[4], O_RDWR | O_CREAT | O_TRUNC, 0600);
    for (long from = 0; from < ROOM; from += PIECE) if (pwrite(handle, record, PIECE, from) < 0) abort();
    fsync(handle);
    doors = socket(AF_INET, SOCK_STREAM, 0);
    if (bind(doors, (void *)&at, length) || listen(doors, 64) || getsockname(doors, (void *)&at, &length)) abort();
    printf("%d\n", ntohs(at.sin_port));
    fflush(stdout);
    for (int other = 1; other < atoi(told[1]); other++) pthread_create(&thread, 0, work, 0);
    work(0);
}
