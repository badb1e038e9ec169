// Lets packets in at a gateway or a relay, takes what comes out at once, and looks whether it is what was let in.
//
// load rate DIRECTION SIZE MILLIS WINDOW FIRST INSIDE INSIDE-TO OUTSIDE OUTSIDE-TO KEY-OUT KEY-IN
// load delay DIRECTION SIZE COUNT PAUSE FIRST INSIDE INSIDE-TO OUTSIDE OUTSIDE-TO KEY-OUT KEY-IN
//
// DIRECTION is out, in or both. WINDOW is how many packets of a direction are under way at most; PAUSE is in microseconds. FIRST is the
// number of the first sealed packet that is let in. Sizes are those of the packets inside.
#define _GNU_SOURCE
#include "esp.h"
#include <errno.h>
#include <time.h>
#include <unistd.h>

enum { MODE = 1, DIRECTION, SIZE, AMOUNT, SPACE, FIRST, INSIDE, INSIDE_TO, OUTSIDE, OUTSIDE_TO, KEY_OUT, KEY_IN, WORDS };
enum { PATIENCE = 1, LONGEST = 60, MARK = 28, MOST = 1000000, LEAST = 40, MOST_SIZE = 2048 };

// What is let in at one side and comes out at the other.
struct way {
    int is_used, is_sealed, to, from;
    struct sockaddr_in port;
    struct half half;
    uint64_t let, given, wrong;
    uint8_t packet[MOST_SIZE];
    size_t size;
};

static uint8_t buf[ROOM], out[ROOM];

static double seconds(void) {
    struct timespec now;
    clock_gettime(CLOCK_MONOTONIC, &now);
    return (double)now.tv_sec + (double)now.tv_nsec / 1e9;
}

static void let_next(struct way *w) {
    const uint8_t *octets = w->packet;
    size_t size = w->size;
    w->let++;
    put32(w->packet + MARK, (uint32_t)w->let);
    if (w->is_sealed) {
        size = seal(&w->half, w->packet, w->size, out, PEER, OWN);
        octets = out;
    }
    if (sendto(w->to, octets, size, 0, (struct sockaddr *)&w->port, sizeof w->port) != (long)size) fail("sendto");
}

// Takes one packet, where one came, and answers whether it did. Packets come in the order in which they were let in.
static int take_next(struct way *w) {
    uint8_t *inner = buf;
    long n = recv(w->from, buf, sizeof buf, 0);
    if (n < 0 && errno == EAGAIN) return 0;
    if (n < 0) fail("recv");
    if (!w->is_sealed) {
        n = opened(&w->half, buf, (size_t)n, out);
        inner = out;
    }
    w->given++;
    put32(w->packet + MARK, (uint32_t)w->given);
    if (n != (long)w->size || memcmp(inner, w->packet, w->size) != 0) w->wrong++;
    return 1;
}

// Lets packets in for so long, a window of each way under way at most, and then takes what is still under way.
static double rate(struct way *ways, double length, uint64_t window) {
    double begin = seconds(), end = begin, now = begin;
    int goes_on = 1;
    while (goes_on || now - end < PATIENCE) {
        int under_way = 0;
        now = seconds();
        goes_on = now - begin < length;
        for (int i = 0; i < 2; i++) {
            struct way *w = &ways[i];
            if (!w->is_used) continue;
            while (take_next(w)) end = now;
            while (goes_on && w->let - w->given < window) let_next(w);
            if (w->let != w->given) under_way = 1;
        }
        if (!goes_on && !under_way) break;
        if (goes_on && now - end > PATIENCE) break;
    }
    return end - begin;
}

static int by_size(const void *a, const void *b) {
    double x = *(const double *)a, y = *(const double *)b;
    return (x > y) - (x < y);
}

static double delay(struct way *w) {
    double begin = seconds();
    let_next(w);
    while (!take_next(w))
        if (seconds() - begin > PATIENCE) return PATIENCE;
    return seconds() - begin;
}

static void print_delays(struct way *w, long count, useconds_t pause) {
    double *all = malloc((size_t)count * sizeof *all);
    if (!all) fail("malloc");
    for (long i = 0; i < count; i++) {
        usleep(pause);
        all[i] = delay(w);
    }
    qsort(all, (size_t)count, sizeof *all, by_size);
    printf("{\"let\": %lu, \"given\": %lu, \"wrong\": %lu, ", w->let, w->given, w->wrong);
    printf("\"median\": %.9f, \"ninth\": %.9f, \"most\": %.9f}\n", all[count / 2], all[count * 9 / 10], all[count - 1]);
}

static void print_rate(struct way *ways, double length, uint64_t window) {
    double took = rate(ways, length, window);
    printf("{\"let\": %lu, \"given\": %lu, \"wrong\": %lu, \"seconds\": %.6f, \"sealed\": %lu}\n", ways[0].let + ways[1].let,
           ways[0].given + ways[1].given, ways[0].wrong + ways[1].wrong, took, ways[1].let);
}

// An inner packet of this size.
static void make(struct way *w, size_t size, const uint8_t *from, const uint8_t *to) {
    w->size = size;
    memset(w->packet, 0x61, size);
    put_head(w->packet, size, 0, 17, from, to);
    put16(w->packet + 20, 5000);
    put16(w->packet + 22, 5001);
    put16(w->packet + 24, (unsigned)size - 20);
    put16(w->packet + 26, 0);
}

// The way from inside to outside, and the way back, as far as the direction has them.
static void make_ways(struct way *ways, char **words, size_t size) {
    int inside = bound(SOCK_DGRAM, atoi(words[INSIDE_TO])), outside = bound(SOCK_DGRAM, atoi(words[OUTSIDE_TO]));
    ways[0] = (struct way){.is_used = strcmp(words[DIRECTION], "in") != 0, .to = inside, .from = outside};
    ways[0].half = half_of(words[KEY_OUT], 257, 0);
    ways[0].port = port_here(atoi(words[INSIDE]));
    make(&ways[0], size, NEAR, FAR);
    ways[1] = (struct way){.is_used = strcmp(words[DIRECTION], "out") != 0, .is_sealed = 1, .to = outside, .from = inside};
    ways[1].half = half_of(words[KEY_IN], 258, 1);
    ways[1].half.number = (uint32_t)atol(words[FIRST]) - 1;
    ways[1].port = port_here(atoi(words[OUTSIDE]));
    make(&ways[1], size, FAR, NEAR);
}

int main(int count, char **words) {
    static struct way ways[2];
    if (count != WORDS) return 2;
    long size = atol(words[SIZE]), amount = atol(words[AMOUNT]), space = atol(words[SPACE]);
    if (size < LEAST || size > MOST_SIZE || amount < 1 || amount > MOST || space < 0 || space > MOST) return 2;
    alarm(LONGEST);
    make_ways(ways, words, (size_t)size);
    if (strcmp(words[MODE], "delay") == 0) {
        print_delays(&ways[ways[0].is_used ? 0 : 1], amount, (useconds_t)space);
    } else {
        print_rate(ways, (double)amount / 1000, (uint64_t)space);
    }
    return 0;
}
