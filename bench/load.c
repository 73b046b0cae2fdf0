/* Puts the lines of files to a server on 127.0.0.1 and reads as many replies, a connection a file, all at once.
 *
 * Arguments: the port, how many lines are in flight on a connection, and the files; before them, if wanted, `-p N`: at least N
 * milliseconds between two lines of a connection, and `-s N`: the lines over and over for N seconds. A few threads wait for all
 * connections. It tells the nanoseconds from the first line to the last reply, how many replies were faults, how many lines
 * were answered, and the microseconds of a line from when it was sent to its reply: the median, that which one in 100 exceeds,
 * and the greatest. */
#include <arpa/inet.h>
#include <netinet/tcp.h>
#include <pthread.h>
#include <stdint.h>
#include <stdio.h>
#include <stdlib.h>
#include <string.h>
#include <sys/epoll.h>
#include <sys/socket.h>
#include <time.h>
#include <unistd.h>

enum { THREADS = 4, WINDOW = 1024, READY = 64, LONGEST = 1 << 20 };

struct terminal {
    int connection, is_done;
    int begins;                  /* whether a reply begins with the next byte */
    char *first, *next, *end;    /* the lines, and those of them that were not sent yet */
    long sent, told;
    int64_t due;                 /* when the next line may be sent */
    int64_t moments[WINDOW];     /* when the lines in flight were sent */
};

struct share {
    pthread_t thread;
    struct terminal *terminals;
    int count, open;             /* how many there are, and how many of them are not done */
    long told, faults;
    uint32_t waits[LONGEST];     /* how many lines took so many microseconds */
};

static int port, window, threads;
static int64_t pause_of, until; /* nanoseconds; until when lines are put, where they are put over and over */
static struct share shares[THREADS];

static void fail(const char *what) {
    perror(what);
    exit(1);
}

static int64_t now(void) {
    struct timespec time;
    clock_gettime(CLOCK_MONOTONIC, &time);
    return time.tv_sec * 1000000000LL + time.tv_nsec;
}

static int connected(void) {
    struct sockaddr_in server = {.sin_family = AF_INET, .sin_port = htons(port), .sin_addr.s_addr = htonl(INADDR_LOOPBACK)};
    int on = 1, connection = socket(AF_INET, SOCK_STREAM, 0);
    if (connection < 0 || connect(connection, (struct sockaddr *)&server, sizeof server)) fail("connect");
    setsockopt(connection, IPPROTO_TCP, TCP_NODELAY, &on, sizeof on);
    return connection;
}

static int has_more(const struct terminal *t, int64_t moment) { return until ? moment < until : t->next < t->end; }

/* Sends by one call as many lines as may be in flight. */
static void send_lines(struct terminal *t, int64_t moment) {
    char *from = t->next;
    long most = pause_of ? t->sent + 1 : t->told + window;
    if (pause_of && (moment < t->due || t->sent > t->told)) return;
    if (!has_more(t, moment)) return;
    if (from == t->end) from = t->next = t->first;
    while (t->sent < most && t->next < t->end) {
        t->next = (char *)memchr(t->next, '\n', t->end - t->next) + 1;
        t->moments[t->sent++ % window] = moment;
    }
    t->due = moment + pause_of;
    while (from < t->next) {
        ssize_t count = send(t->connection, from, t->next - from, MSG_NOSIGNAL);
        if (count <= 0) fail("send");
        from += count;
    }
}

static void end_if_done(struct share *share, struct terminal *t, int64_t moment) {
    if (t->is_done || t->told < t->sent || has_more(t, moment)) return;
    t->is_done = 1;
    share->open--;
}

/* Notes that the next line was answered, and how long that took. */
static void note(struct share *share, struct terminal *t, int64_t moment) {
    int64_t wait = (moment - t->moments[t->told++ % window]) / 1000;
    share->waits[wait < LONGEST ? wait : LONGEST - 1]++;
    share->told++;
}

static void receive(struct share *share, struct terminal *t) {
    char replies[65536];
    ssize_t count = recv(t->connection, replies, sizeof replies, 0);
    int64_t moment = now();
    if (count <= 0) fail("recv");
    for (ssize_t at = 0; at < count; at++) {
        if (t->begins && replies[at] == 'F') share->faults++;
        t->begins = replies[at] == '\n';
        if (t->begins) note(share, t, moment);
    }
    send_lines(t, moment);
    end_if_done(share, t, moment);
}

/* Sends to the terminals whose pause is over, and ends those whose time is. */
static void send_due(struct share *share) {
    int64_t moment = now();
    for (int i = 0; i < share->count; i++) {
        send_lines(&share->terminals[i], moment);
        end_if_done(share, &share->terminals[i], moment);
    }
}

static void *run(void *argument) {
    struct share *share = argument;
    struct epoll_event ready[READY];
    int reports = epoll_create1(0);
    for (int i = 0; i < share->count; i++) {
        struct epoll_event event = {.events = EPOLLIN, .data.ptr = &share->terminals[i]};
        if (epoll_ctl(reports, EPOLL_CTL_ADD, share->terminals[i].connection, &event)) fail("epoll_ctl");
        send_lines(&share->terminals[i], now());
    }
    while (share->open) {
        int count = epoll_wait(reports, ready, READY, pause_of ? 1 : -1);
        for (int i = 0; i < count; i++) receive(share, ready[i].data.ptr);
        if (pause_of) send_due(share);
    }
    return NULL;
}

static void load(struct terminal *t, const char *path) {
    FILE *file = fopen(path, "rb");
    if (!file) fail(path);
    fseek(file, 0, SEEK_END);
    long size = ftell(file);
    rewind(file);
    t->first = t->next = malloc(size);
    if (!t->first || fread(t->first, 1, size, file) != (size_t)size) fail(path);
    t->end = t->first + size;
    t->connection = connected();
    t->begins = 1;
    fclose(file);
}

/* The microseconds that so many of 1,000 lines don't exceed. */
static int exceeded(long lines, int of_thousand) {
    long seen = 0;
    for (int wait = 0; wait < LONGEST; wait++) {
        for (int i = 0; i < threads; i++) seen += shares[i].waits[wait];
        if (seen * 1000 >= lines * of_thousand) return wait;
    }
    return LONGEST;
}

static void put(struct terminal *terminals, int files) {
    long faults = 0, told = 0;
    int64_t start = now();
    if (until) until += start;
    threads = files < THREADS ? files : THREADS;
    for (int i = 0; i < threads; i++) {
        int from = (long)files * i / threads, to = (long)files * (i + 1) / threads;
        shares[i].terminals = terminals + from;
        shares[i].count = shares[i].open = to - from;
        if (pthread_create(&shares[i].thread, NULL, run, &shares[i])) fail("thread");
    }
    for (int i = 0; i < threads; i++) {
        pthread_join(shares[i].thread, NULL);
        faults += shares[i].faults;
        told += shares[i].told;
    }
    printf("%lld %ld %ld %d %d %d\n", (long long)(now() - start), faults, told, exceeded(told, 500), exceeded(told, 990), exceeded(told, 1000));
}

int main(int count, char **words) {
    for (int option; (option = getopt(count, words, "p:s:")) != -1;) {
        if (option == 'p') pause_of = atol(optarg) * 1000000L;
        else if (option == 's') until = atol(optarg) * 1000000000L;
        else return 2;
    }
    int files = count - optind - 2;
    if (files < 1) return 2;
    port = atoi(words[optind]);
    window = atoi(words[optind + 1]);
    if (window < 1 || window > WINDOW) return 2;
    struct terminal *terminals = calloc(files, sizeof *terminals);
    if (!terminals) fail("memory");
    for (int i = 0; i < files; i++) load(&terminals[i], words[optind + 2 + i]);
    put(terminals, files);
    return 0;
}
