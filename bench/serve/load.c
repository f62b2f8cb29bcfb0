/*
 * Loads a caster on loopback: sources that push frames to mountpoints M1, M2, .., and rovers that take
 * them, the rover of number i from mountpoint i modulo the number of sources.
 *
 *     load PORT[:FEED] SOURCES ROVERS RATE SECONDS SIZE [FLOOD]
 *
 * With FEED the server is one process for each source, as str2str is: source s sends its frames alone to
 * port FEED + s, and its rovers ask at port PORT + s.
 *
 * Each source sends RATE frames of SIZE bytes a second, evenly spaced; with SECONDS 0 it sends RATE
 * frames at once. With RATE 0 nothing is sent for SECONDS seconds. With FLOOD, "preambles" or "frames", one
 * more source sends 4,000,000 bytes a second for SECONDS seconds to the mountpoint FLOOD, of which nobody
 * is a rover: nothing but 0xD3, or frames of 1,000 bytes. Prints "ready" where all are let in,
 * waits for a line, sends, and prints "done" where each rover has the last frame of its source, or where
 * nothing came for 15 seconds; then waits for a line, and prints
 *
 *     sent SOURCE FRAMES BUSY            of each source; BUSY: seconds from its first write to its last
 *     got ROVER FRAMES LAST              of each rover; LAST: it has its source's last frame
 *     last SECONDS                       from the first write to the last read
 *     flood FRAMES BYTES BUSY            where there is one
 *     latency COUNT P50 P90 P99 LARGEST  in microseconds, over all frames that came
 *
 * A frame's latency is from before the write that held it to behind the read that brought its last byte.
 * Each frame is compared with the one that was sent, byte by byte, and its place must be above that of
 * the frame before it; else "wrong ROVER" is printed and the status is 1.
 */
#include <arpa/inet.h>
#include <errno.h>
#include <netinet/tcp.h>
#include <pthread.h>
#include <stdatomic.h>
#include <stdint.h>
#include <stdio.h>
#include <stdlib.h>
#include <string.h>
#include <sys/epoll.h>
#include <sys/socket.h>
#include <time.h>
#include <unistd.h>

enum { MOST = 256, READERS = 2, SMALLEST = 12, LARGEST = 1029, PATIENCE = 15 };

/* The flood: so many bytes in each hundredth of a second, in frames of so many bytes. */
enum { PIECE = 40000, FLOOD_FRAME = 1000 };

struct source {
    int socket;
    uint8_t *frames; /* all that it sends, one behind the other */
    int64_t *times;  /* when each was written */
    int64_t first, last;
    size_t sent;
};

struct rover {
    int socket, source;
    uint8_t part[LARGEST]; /* the first bytes of a frame that has not all come */
    size_t have;
    size_t frames;
    int64_t place; /* of the last frame that came whole; -1 */
    int wrong;
};

static int port, sources, rovers, rate, seconds, size;
static int feed; /* the port of the first source where each has a process of its own; 0 */
static const char *flood; /* what the source of FLOOD sends; NULL */
static int flood_socket;
static size_t flood_frames, flood_bytes;
static int64_t flood_busy;
static size_t count; /* of each source */
static struct source source[MOST];
static struct rover rover[MOST];
static uint32_t *latency; /* microseconds */
static size_t room;
static atomic_size_t latencies;
static _Atomic int64_t last_read;
static atomic_int whole; /* rovers that have the last frame */
static atomic_int stop;
static uint32_t table[256];

static void fail(const char *what)
{
    perror(what);
    exit(2);
}

static int64_t now(void)
{
    struct timespec at;
    clock_gettime(CLOCK_MONOTONIC, &at);
    return (int64_t)at.tv_sec * 1000000000 + at.tv_nsec;
}

static void sleep_until(int64_t at)
{
    struct timespec then = {at / 1000000000, at % 1000000000};
    while (clock_nanosleep(CLOCK_MONOTONIC, TIMER_ABSTIME, &then, NULL) == EINTR)
        ;
}

/* A frame of message 1005 and so many bytes whose payload says its source and its place. */
static void make_frame(uint8_t *at, size_t size, int from, size_t place)
{
    size_t payload = size - 6;
    memset(at, 0, size);
    at[0] = 0xD3;
    at[1] = payload >> 8;
    at[2] = payload & 255;
    at[3] = 1005 >> 4;
    at[4] = (1005 & 15) << 4 | (from >> 8);
    at[5] = from & 255;
    at[6] = place >> 16;
    at[7] = place >> 8;
    at[8] = place;
    for (size_t k = 9; k < payload + 3; k++)
        at[k] = (place * 31 + k) & 255;
    uint32_t crc = 0;
    for (size_t k = 0; k < payload + 3; k++)
        crc = (crc << 8 & 0xFFFFFF) ^ table[crc >> 16 ^ at[k]];
    at[size - 3] = crc >> 16;
    at[size - 2] = crc >> 8;
    at[size - 1] = crc;
}

static void write_all(int to, const uint8_t *at, size_t left)
{
    while (left > 0) {
        ssize_t put = send(to, at, left, MSG_NOSIGNAL);
        if (put <= 0)
            fail("write");
        at += put;
        left -= put;
    }
}

/* Connects, and waits until somebody listens. */
static int dial(int at)
{
    struct sockaddr_in addr = {.sin_family = AF_INET, .sin_port = htons(at)};
    addr.sin_addr.s_addr = htonl(INADDR_LOOPBACK);
    int64_t begun = now();
    int to, on = 1;
    for (;;) {
        to = socket(AF_INET, SOCK_STREAM, 0);
        if (to < 0)
            fail("socket");
        if (connect(to, (struct sockaddr *)&addr, sizeof addr) == 0)
            break;
        if (errno != ECONNREFUSED || now() - begun > 10000000000)
            fail("connect");
        close(to);
        usleep(10000);
    }
    setsockopt(to, IPPROTO_TCP, TCP_NODELAY, &on, sizeof on);
    return to;
}

/* Connects, sends the head, and waits for the reply of version 1. That of str2str has no empty line. */
static int enter(int at, const char *head)
{
    const char *wanted = feed ? "ICY 200 OK\r\n" : "ICY 200 OK\r\n\r\n";
    size_t length = strlen(wanted);
    char reply[20];
    int to = dial(at);
    write_all(to, (const uint8_t *)head, strlen(head));
    for (size_t have = 0; have < length;) {
        ssize_t got = recv(to, reply + have, length - have, 0);
        if (got <= 0 || memcmp(reply, wanted, have + got) != 0) {
            fprintf(stderr, "not let in: %s\n", head);
            exit(2);
        }
        have += got;
    }
    return to;
}

/* One frame of this rover came whole at this time. */
static void take_frame(struct rover *r, const uint8_t *at, int64_t time)
{
    struct source *from = &source[r->source];
    size_t place = (size_t)at[6] << 16 | at[7] << 8 | at[8];
    if (place >= count || (int64_t)place <= r->place || memcmp(at, from->frames + place * size, size) != 0) {
        r->wrong = 1;
        return;
    }
    r->place = place;
    r->frames++;
    size_t index = atomic_fetch_add(&latencies, 1);
    if (index < room)
        latency[index] = (time - __atomic_load_n(&from->times[place], __ATOMIC_RELAXED)) / 1000;
    if (place == count - 1)
        atomic_fetch_add(&whole, 1);
}

static void take(struct rover *r, const uint8_t *at, size_t left, int64_t time)
{
    while (left > 0) {
        if (r->have == 0 && left >= (size_t)size) {
            take_frame(r, at, time);
            at += size;
            left -= size;
            continue;
        }
        size_t part = size - r->have < left ? size - r->have : left;
        memcpy(r->part + r->have, at, part);
        at += part;
        left -= part;
        r->have += part;
        if (r->have == (size_t)size) {
            take_frame(r, r->part, time);
            r->have = 0;
        }
    }
}

/* Reads the rovers whose number modulo READERS is this one. */
static void *read_rovers(void *argument)
{
    int me = (int)(intptr_t)argument;
    static _Thread_local uint8_t bytes[1 << 18];
    int poll = epoll_create1(0);
    for (int k = me; k < rovers; k += READERS) {
        struct epoll_event event = {.events = EPOLLIN, .data.u32 = k};
        epoll_ctl(poll, EPOLL_CTL_ADD, rover[k].socket, &event);
    }
    while (!atomic_load(&stop)) {
        struct epoll_event events[64];
        int ready = epoll_wait(poll, events, 64, 100);
        for (int k = 0; k < ready; k++) {
            struct rover *r = &rover[events[k].data.u32];
            ssize_t got = recv(r->socket, bytes, sizeof bytes, MSG_DONTWAIT);
            int64_t time = now();
            if (got < 0 && (errno == EAGAIN || errno == EINTR))
                continue;
            if (got <= 0) {
                r->wrong = 1;
                epoll_ctl(poll, EPOLL_CTL_DEL, r->socket, NULL);
                continue;
            }
            take(r, bytes, got, time);
            atomic_store(&last_read, time);
        }
    }
    close(poll);
    return NULL;
}

static void *write_source(void *argument)
{
    struct source *s = argument;
    int64_t begun = s->first;
    sleep_until(begun);
    s->first = now();
    for (size_t at = 0; at < count;) {
        size_t due = count;
        if (seconds > 0) {
            int64_t next = begun + (int64_t)((double)at / rate * 1e9);
            if (now() < next)
                sleep_until(next);
            due = (double)(now() - begun) * rate / 1e9 + 1;
            due = due <= at ? at + 1 : due > count ? count : due;
        }
        /* no write takes longer than those 64 frames need */
        size_t end = due - at > 64 ? at + 64 : due;
        int64_t time = now();
        for (size_t k = at; k < end; k++)
            __atomic_store_n(&s->times[k], time, __ATOMIC_RELAXED);
        write_all(s->socket, s->frames + at * size, (end - at) * size);
        s->last = now();
        s->sent = at = end;
    }
    return NULL;
}

/* Sends preambles, or one frame after the other, at 4,000,000 bytes a second. */
static void *write_flood(void *argument)
{
    static uint8_t piece[PIECE];
    int whole = strcmp(flood, "frames") == 0;
    memset(piece, 0xD3, sizeof piece);
    for (size_t at = 0; whole && at < PIECE; at += FLOOD_FRAME)
        make_frame(piece + at, FLOOD_FRAME, 0, at);
    int64_t begun = *(int64_t *)argument;
    for (int part = 0; part < seconds * 100; part++) {
        sleep_until(begun + (int64_t)part * 10000000);
        write_all(flood_socket, piece, sizeof piece);
        flood_bytes += sizeof piece;
        flood_frames += whole ? PIECE / FLOOD_FRAME : 0;
    }
    flood_busy = now() - begun;
    return NULL;
}

static int by_size(const void *a, const void *b)
{
    uint32_t x = *(const uint32_t *)a, y = *(const uint32_t *)b;
    return x < y ? -1 : x > y;
}

static void wait_for_line(const char *said)
{
    printf("%s\n", said);
    fflush(stdout);
    for (int byte = 0; byte != '\n' && byte != EOF;)
        byte = getchar();
}

static void prepare(void)
{
    for (int byte = 0; byte < 256; byte++) {
        uint32_t crc = (uint32_t)byte << 16;
        for (int bit = 0; bit < 8; bit++)
            crc = crc & 0x800000 ? (crc << 1 ^ 0x1864CFB) & 0xFFFFFF : crc << 1;
        table[byte] = crc;
    }
    count = seconds > 0 ? (size_t)rate * seconds : (size_t)rate;
    if (size < SMALLEST || size > LARGEST || sources < 1 || sources > 64 || sources + rovers > MOST
        || count >= 1 << 24) {
        fprintf(stderr, "sizes are 12 to 1029 bytes; at most 64 sources, 256 connections, 2^24 frames\n");
        exit(2);
    }
    room = count * rovers;
    latency = calloc(room + 1, sizeof *latency);
    for (int s = 0; s < sources; s++) {
        source[s].frames = malloc(count * size + 1);
        source[s].times = calloc(count + 1, sizeof *source[s].times);
        if (!latency || !source[s].frames || !source[s].times)
            fail("memory");
        for (size_t place = 0; place < count; place++)
            make_frame(source[s].frames + place * size, size, s, place);
    }
}

static void connect_all(void)
{
    char head[100];
    for (int s = 0; s < sources; s++) {
        snprintf(head, sizeof head, "SOURCE pw M%d\r\n\r\n", s + 1);
        source[s].socket = feed ? dial(feed + s) : enter(port, head);
    }
    if (flood)
        flood_socket = enter(port, "SOURCE pw FLOOD\r\n\r\n");
    for (int k = 0; k < rovers; k++) {
        rover[k].source = k % sources;
        rover[k].place = -1;
        snprintf(head, sizeof head, "GET /M%d HTTP/1.0\r\nUser-Agent: NTRIP load\r\n\r\n", k % sources + 1);
        rover[k].socket = enter(feed ? port + k % sources : port, head);
    }
}

/* Sends everything, and waits until it has come or nothing comes any more. */
static void run(void)
{
    pthread_t readers[READERS], writers[MOST], flooding;
    for (int k = 0; k < READERS; k++)
        if (pthread_create(&readers[k], NULL, read_rovers, (void *)(intptr_t)k) != 0)
            fail("thread");
    int64_t begun = now() + 100000000;
    for (int s = 0; s < sources; s++) {
        /* sources do not write at the same moment */
        source[s].first = begun + (rate > 0 && seconds > 0 ? (int64_t)(1e9 / rate * s / sources) : 0);
        if (pthread_create(&writers[s], NULL, write_source, &source[s]) != 0)
            fail("thread");
    }
    if (flood && pthread_create(&flooding, NULL, write_flood, &begun) != 0)
        fail("thread");
    for (int s = 0; s < sources; s++)
        pthread_join(writers[s], NULL);
    if (flood)
        pthread_join(flooding, NULL);
    if (count == 0)
        sleep_until(begun + (int64_t)seconds * 1000000000);
    int64_t written = now();
    while (count > 0 && atomic_load(&whole) < rovers) {
        int64_t since = atomic_load(&last_read) > written ? atomic_load(&last_read) : written;
        if (now() - since > (int64_t)PATIENCE * 1000000000)
            break;
        usleep(1000);
    }
    wait_for_line("done");
    atomic_store(&stop, 1);
    for (int k = 0; k < READERS; k++)
        pthread_join(readers[k], NULL);
}

int main(int words, char **word)
{
    if (words == 8 && (strcmp(word[7], "preambles") == 0 || strcmp(word[7], "frames") == 0))
        flood = word[7];
    if (words != 7 && !flood) {
        fprintf(stderr, "usage: load PORT[:FEED] SOURCES ROVERS RATE SECONDS SIZE [preambles|frames]\n");
        return 2;
    }
    port = atoi(word[1]);
    const char *colon = strchr(word[1], ':');
    feed = colon ? atoi(colon + 1) : 0;
    sources = atoi(word[2]);
    rovers = atoi(word[3]);
    rate = atoi(word[4]);
    seconds = atoi(word[5]);
    size = atoi(word[6]);
    prepare();
    connect_all();
    wait_for_line("ready");
    run();
    int status = 0;
    int64_t first = INT64_MAX;
    for (int s = 0; s < sources; s++) {
        printf("sent %d %zu %.3f\n", s, source[s].sent, (source[s].last - source[s].first) / 1e9);
        first = source[s].first < first ? source[s].first : first;
    }
    for (int k = 0; k < rovers; k++) {
        printf("got %d %zu %d\n", k, rover[k].frames, rover[k].place == (int64_t)count - 1);
        if (rover[k].wrong) {
            printf("wrong %d\n", k);
            status = 1;
        }
    }
    if (flood)
        printf("flood %zu %zu %.3f\n", flood_frames, flood_bytes, flood_busy / 1e9);
    printf("last %.3f\n", count > 0 ? (atomic_load(&last_read) - first) / 1e9 : 0.0);
    size_t all = atomic_load(&latencies);
    if (all > 0) {
        qsort(latency, all, sizeof *latency, by_size);
        printf("latency %zu %u %u %u %u\n", all, latency[all / 2], latency[all * 9 / 10],
               latency[all * 99 / 100], latency[all - 1]);
    }
    for (int k = 0; k < rovers; k++)
        close(rover[k].socket);
    for (int s = 0; s < sources; s++)
        close(source[s].socket);
    if (flood)
        close(flood_socket);
    return status;
}
