/*
 * Carries packets between two devices (tun), which are open as the descriptors NEAR and FAR:
 *
 *     road NEAR FAR DELAY [RATE QUEUE]
 *
 * Each packet comes out DELAY milliseconds behind its coming in, in either direction, and in the order in which it came.
 * With RATE those to FAR go out at so many bytes a second, one behind the other, and one that finds more than QUEUE
 * bytes before it is dropped. It goes on until it is killed.
 */
#define _GNU_SOURCE
#include <errno.h>
#include <poll.h>
#include <stdint.h>
#include <stdio.h>
#include <stdlib.h>
#include <time.h>
#include <unistd.h>

/* Of a packet, in bytes; and so many are taken before others are given out. */
enum { LARGEST = 2048, MOST = 64 };

struct packet {
    struct packet *next;
    int64_t due; /* when it comes out, in nanoseconds */
    ssize_t size;
    uint8_t bytes[LARGEST];
};

struct way {
    int from, to;
    double rate, queue; /* bytes a second, or 0 where there is no limit; bytes */
    int64_t delay;
    int64_t free; /* when the last packet has gone out of the queue */
    struct packet *first, *last;
};

static int64_t now(void)
{
    struct timespec at;
    clock_gettime(CLOCK_MONOTONIC, &at);
    return (int64_t)at.tv_sec * 1000000000 + at.tv_nsec;
}

static void fail(const char *what)
{
    perror(what);
    exit(2);
}

/* When a packet of this size has gone through the queue of the way, or -1 where it finds no place there. */
static int64_t through_queue(struct way *way, ssize_t size)
{
    int64_t at = now();
    if (way->rate == 0)
        return at;
    if (way->free < at)
        way->free = at;
    if ((way->free - at) / 1e9 * way->rate > way->queue)
        return -1;
    way->free += (int64_t)(size / way->rate * 1e9);
    return way->free;
}

/* Takes a packet that has come in, and answers whether there was one. */
static int take(struct way *way)
{
    struct packet *one = malloc(sizeof *one);
    if (!one)
        fail("memory");
    one->size = read(way->from, one->bytes, sizeof one->bytes);
    int64_t out = one->size > 0 ? through_queue(way, one->size) : -1;
    if (out < 0) {
        int came = one->size > 0;
        free(one);
        return came;
    }
    one->due = out + way->delay;
    one->next = NULL;
    if (way->last)
        way->last->next = one;
    else
        way->first = one;
    way->last = one;
    return 1;
}

/* Gives out what is due. What the other device does not take is lost, as on any road. */
static void give(struct way *way)
{
    while (way->first && way->first->due <= now()) {
        struct packet *one = way->first;
        way->first = one->next;
        if (!way->first)
            way->last = NULL;
        if (write(way->to, one->bytes, one->size) < 0 && errno == EBADFD)
            fail("write");
        free(one);
    }
}

/* How long there is nothing to do but for what comes in: a second at most. */
static struct timespec pause_of(const struct way *ways)
{
    int64_t least = 1000000000, at = now();
    for (int k = 0; k < 2; k++)
        if (ways[k].first && ways[k].first->due - at < least)
            least = ways[k].first->due > at ? ways[k].first->due - at : 0;
    return (struct timespec){least / 1000000000, least % 1000000000};
}

int main(int words, char **word)
{
    if (words != 4 && words != 6) {
        fprintf(stderr, "usage: road NEAR FAR DELAY [RATE QUEUE]\n");
        return 2;
    }
    int near = atoi(word[1]), far = atoi(word[2]);
    int64_t delay = (int64_t)(atof(word[3]) * 1e6);
    struct way ways[2] = {{.from = near, .to = far, .delay = delay}, {.from = far, .to = near, .delay = delay}};
    if (words == 6) {
        ways[0].rate = atof(word[4]);
        ways[0].queue = atof(word[5]);
    }
    for (;;) {
        struct pollfd ends[2] = {{.fd = near, .events = POLLIN}, {.fd = far, .events = POLLIN}};
        struct timespec pause = pause_of(ways);
        if (ppoll(ends, 2, &pause, NULL) < 0 && errno != EINTR)
            fail("poll");
        for (int k = 0; k < 2; k++) {
            for (int count = 0; count < MOST && take(&ways[k]); count++)
                ;
            give(&ways[k]);
        }
    }
}
