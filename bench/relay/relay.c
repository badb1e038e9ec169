// A relay that makes the calls of a gateway in each turn, and seals and opens as it does. It looks up no policy and keeps no database.
//
// relay SECONDS INSIDE INSIDE-TO OUTSIDE OUTSIDE-TO CONTROL NOTICE KEY-OUT KEY-IN
#define _GNU_SOURCE
#include "esp.h"
#include <errno.h>
#include <sys/epoll.h>
#include <time.h>
#include <unistd.h>

enum { INSIDE = 2, INSIDE_TO, OUTSIDE, OUTSIDE_TO, CONTROL, NOTICE, KEY_OUT, KEY_IN, WORDS };
enum { WAIT_MILLIS = 250, EVENTS = 16, TAKEN_AT_ONCE = 64, PIECE = 65536 };

static uint8_t buf[PIECE], out[ROOM + 128];

static void watch(int poll, int descriptor) {
    struct epoll_event asked = {.events = EPOLLIN | EPOLLRDHUP | EPOLLET};
    if (epoll_ctl(poll, EPOLL_CTL_ADD, descriptor, &asked) != 0) fail("epoll_ctl");
}

static long receive(int from) {
    struct sockaddr_in who;
    socklen_t size = sizeof who;
    long n = recvfrom(from, buf, ROOM, 0, (struct sockaddr *)&who, &size);
    if (n < 0 && errno != EAGAIN) fail("recvfrom");
    return n;
}

static void send_on(int from, size_t n, const struct sockaddr_in *to) {
    if (sendto(from, out, n, MSG_NOSIGNAL, (const struct sockaddr *)to, sizeof *to) != (long)n) fail("sendto");
}

// The newest connection that waits at a port, or -1; the older ones are closed.
static int newest(int listener, int *came) {
    int found = -1;
    for (int i = 0; i < TAKEN_AT_ONCE; i++) {
        struct sockaddr_in who;
        socklen_t size = sizeof who;
        int next = accept4(listener, (struct sockaddr *)&who, &size, SOCK_NONBLOCK | SOCK_CLOEXEC);
        if (next < 0 && errno == EAGAIN) break;
        if (next < 0) fail("accept4");
        if (found >= 0) close(found);
        found = next;
        *came = 1;
    }
    return found;
}

// What a relay has: its sockets, its session, and whether anything came since it last waited.
struct relay {
    struct half outbound, inbound;
    struct sockaddr_in inside_to, outside_to;
    int inside, outside, control_door, notice_door, control, notices, poll, came;
};

static void pass(struct relay *r) {
    long n = receive(r->inside);
    if (n >= 0) {
        r->came = 1;
        send_on(r->outside, seal(&r->outbound, buf, (size_t)n, out, OWN, PEER), &r->outside_to);
    }
    n = receive(r->outside);
    if (n >= 0) {
        r->came = 1;
        long given = opened(&r->inbound, buf, (size_t)n, out);
        if (given >= 0) send_on(r->inside, (size_t)given, &r->inside_to);
    }
}

static void accept_session(struct relay *r) {
    struct epoll_event events[EVENTS];
    if (!r->came) epoll_wait(r->poll, events, EVENTS, WAIT_MILLIS);
    r->came = 0;
    int notices = newest(r->notice_door, &r->came), control = newest(r->control_door, &r->came);
    if (control >= 0) {
        if (r->control >= 0) close(r->control);
        r->control = control;
        watch(r->poll, control);
    }
    if (notices >= 0) {
        if (r->notices >= 0) close(r->notices);
        r->notices = notices;
        if (write(notices, "+", 1) != 1) fail("write");
    }
}

static void read_session(struct relay *r) {
    if (r->control < 0 || r->notices < 0) return;
    long n = recv(r->control, buf, PIECE, 0);
    if (n > 0) r->came = 1;
    if (n == 0) {
        close(r->control);
        r->control = -1;
    }
}

int main(int count, char **words) {
    if (count != WORDS) {
        fprintf(stderr, "relay SECONDS INSIDE INSIDE-TO OUTSIDE OUTSIDE-TO CONTROL NOTICE KEY-OUT KEY-IN\n");
        return 2;
    }
    alarm((unsigned)atoi(words[1]));
    struct relay r = {.control = -1, .notices = -1, .poll = epoll_create1(EPOLL_CLOEXEC)};
    r.outbound = half_of(words[KEY_OUT], 257, 1);
    r.inbound = half_of(words[KEY_IN], 258, 0);
    r.inside_to = port_here(atoi(words[INSIDE_TO]));
    r.outside_to = port_here(atoi(words[OUTSIDE_TO]));
    r.control_door = bound(SOCK_STREAM, atoi(words[CONTROL]));
    r.notice_door = bound(SOCK_STREAM, atoi(words[NOTICE]));
    r.inside = bound(SOCK_DGRAM, atoi(words[INSIDE]));
    r.outside = bound(SOCK_DGRAM, atoi(words[OUTSIDE]));
    int all[] = {r.control_door, r.notice_door, r.inside, r.outside};
    for (int i = 0; i < 4; i++) watch(r.poll, all[i]);
    for (;;) {
        struct timespec now;
        clock_gettime(CLOCK_REALTIME, &now);
        pass(&r);
        accept_session(&r);
        read_session(&r);
    }
}
