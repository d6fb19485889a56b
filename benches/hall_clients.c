/* Clients of `bridge_server serve`, for benches/hall_clients.py: all on one thread, by what is ready.
 *
 *   hall_clients ping PORT CLIENTS SECONDS MESSAGE [0 WRITERS PAUSE BATCH]
 *                                                                   each asks the same again as soon as it is answered
 *   hall_clients paced PORT CLIENTS SECONDS MESSAGE EVERY WRITERS PAUSE BATCH
 *                                                                   each asks once in EVERY seconds, at moments of its own
 *   hall_clients idle PORT CLIENTS SECONDS MESSAGE                  none asks anything
 *
 * Meanwhile so many writers, if any, send a batch each and, PAUSE seconds after its receipt, the next.
 *
 * Each signs in first, as the director of the tests' session. One line of JSON is printed: a reply's time is from the moment at which it was to be asked for.
 * `beside` counts the replies that were awaited while a batch was, `beside_p50` and `beside_p99` are percentiles of these, and `apart_p99` is the 99th of
 * the others: all are of one run, so what else the machine does is in each. */
#define _GNU_SOURCE
#include <arpa/inet.h>
#include <errno.h>
#include <netinet/tcp.h>
#include <stdint.h>
#include <stdio.h>
#include <stdlib.h>
#include <string.h>
#include <sys/epoll.h>
#include <sys/socket.h>
#include <time.h>
#include <unistd.h>

enum { LOT = 400, ROOM = 70000 };
static const char head[] = "GET /session HTTP/1.1\r\nHost: 127.0.0.1\r\nUpgrade: websocket\r\nConnection: Upgrade\r\n"
    "Sec-WebSocket-Key: dGhlIHNhbXBsZSBub25jZQ==\r\nSec-WebSocket-Version: 13\r\n\r\n";
static const char hello[] = "{\"hello\":\"d\",\"token\":\"abc\"}";
typedef struct { int fd; size_t have, want; double asked; } Client;
static char input[ROOM];

static double now(void) { struct timespec t; clock_gettime(CLOCK_MONOTONIC, &t); return t.tv_sec + t.tv_nsec * 1e-9; }
static void die(const char *what) { fprintf(stderr, "hall_clients: %s (%s)\n", what, strerror(errno)); exit(1); }
static int by_size(const void *a, const void *b) { float x = *(float *)a, y = *(float *)b; return (x > y) - (x < y); }

/* a text in a frame whose mask is 0 */
static size_t frame_of(char *to, const char *text) {
    size_t n = strlen(text), at = 0;
    to[at++] = (char)0x81;
    if (n < 126) to[at++] = (char)(0x80 | n);
    else { to[at++] = (char)0xfe; to[at++] = (char)(n >> 8); to[at++] = (char)n; }
    memset(to + at, 0, 4);
    memcpy(to + at + 4, text, n);
    return at + 4 + n;
}
static void put(int fd, const char *bytes, size_t n) {
    while (n) { ssize_t k = send(fd, bytes, n, MSG_NOSIGNAL); if (k <= 0) die("a client can't send"); bytes += k; n -= k; }
}
/* reads what has come, and says whether an answer is whole */
static int is_answered(Client *client) {
    ssize_t k = recv(client->fd, input, sizeof input, 0);
    if (k <= 0) die("a client's connection ended");
    if (client->have == 0) {
        if (k < 4 || (unsigned char)input[0] != 0x81) die("no text came");
        size_t n = input[1] & 127;
        client->want = n < 126 ? n + 2 : ((unsigned char)input[2] << 8 | (unsigned char)input[3]) + 4u;
    }
    client->have += k;
    if (client->have > client->want) die("more came than was asked for");
    if (client->have < client->want) return 0;
    client->have = client->want = 0;
    return 1;
}
/* what comes of a client until it ends so */
static void until(int fd, const char *end, size_t n) {
    size_t have = 0;
    while (have < n || memcmp(input + have - n, end, n)) {
        ssize_t k = recv(fd, input + have, 4096 - have, 0);
        if (k <= 0) die("a client isn't let in and greeted");
        have += k;
    }
}
static void come(Client *clients, int port, int from, int to) {
    static char greeting[ROOM];
    size_t size = frame_of(greeting, hello);
    struct sockaddr_in at = {.sin_family = AF_INET, .sin_port = htons(port), .sin_addr.s_addr = htonl(INADDR_LOOPBACK)};
    int one = 1;
    for (int i = from; i < to; i++) {
        clients[i].fd = socket(AF_INET, SOCK_STREAM, 0);
        if (clients[i].fd < 0 || connect(clients[i].fd, (void *)&at, sizeof at)) die("a client can't connect");
        setsockopt(clients[i].fd, IPPROTO_TCP, TCP_NODELAY, &one, sizeof one);
        put(clients[i].fd, head, sizeof head - 1);
    }
    for (int i = from; i < to; i++) {
        until(clients[i].fd, "\r\n\r\n", 4);
        if (memcmp(input, "HTTP/1.1 101 ", 13)) die("a client isn't let in");
        put(clients[i].fd, greeting, size);
    }
    for (int i = from; i < to; i++) until(clients[i].fd, "{\"hello\":\"d\"}", 13);
}
int main(int argc, char **argv) {
    if (argc < 6) return 2;
    const char *mode = argv[1];
    int port = atoi(argv[2]), count = atoi(argv[3]), writers = argc > 7 ? atoi(argv[7]) : 0, all = count + writers;
    double seconds = atof(argv[4]), every = argc > 6 ? atof(argv[6]) : 0, pause = argc > 8 ? atof(argv[8]) : 0;
    static char question[ROOM], batch[ROOM];
    size_t asking = frame_of(question, argv[5]), writing = argc > 9 ? frame_of(batch, argv[9]) : 0;
    Client *clients = calloc(all, sizeof *clients);
    double begun = now();
    for (int i = 0; i < all; i += LOT) come(clients, port, i, i + LOT < all ? i + LOT : all);
    double came = now() - begun;
    if (!strcmp(mode, "idle")) {
        printf("{\"clients\":%d,\"came\":%.3f}\n", all, came);
        fflush(stdout);
        usleep(seconds * 1e6);
        return 0;
    }
    int ready = epoll_create1(0), is_paced = !strcmp(mode, "paced");
    for (int i = 0; i < all; i++) {
        struct epoll_event event = {.events = EPOLLIN, .data.u32 = i};
        epoll_ctl(ready, EPOLL_CTL_ADD, clients[i].fd, &event);
    }
    size_t most = 40000000, replies = 0, receipts = 0;
    float *times = malloc(most * sizeof *times), *apart = malloc(most * sizeof *apart), *beside = malloc(most * sizeof *beside);
    float *receipt_times = malloc(1000000 * sizeof *receipt_times);
    size_t others = 0, besides = 0;
    double start = now(), end = start + seconds, *due = calloc(all, sizeof *due), last_receipt = 0;
    long asked = 0, batches = 0;
    if (!is_paced) for (int i = 0; i < count; i++) { clients[i].asked = now(); put(clients[i].fd, question, asking); }
    for (int i = count; i < all; i++) due[i] = start + pause * (i - count) / (writers ? writers : 1);
    struct epoll_event events[256];
    double t;
    while ((t = now()) < end) {
        while (is_paced && start + every * asked / count <= t) {
            Client *client = &clients[asked % count];
            /* one that waits still isn't asked again: the wait is its reply's */
            if (client->asked == 0) { client->asked = start + every * asked / count; put(client->fd, question, asking); }
            asked++;
        }
        for (int i = count; i < all; i++) if (due[i] && due[i] <= t) { clients[i].asked = due[i]; due[i] = 0; batches++; put(clients[i].fd, batch, writing); }
        int n = epoll_wait(ready, events, 256, is_paced ? 0 : 100);
        for (int k = 0; k < n; k++) {
            int i = events[k].data.u32;
            if (!is_answered(&clients[i])) continue;
            double m = now(), took = m - clients[i].asked;
            int is_beside = batches > 0 || last_receipt >= clients[i].asked;
            clients[i].asked = 0;
            if (i >= count) { if (receipts < 1000000) receipt_times[receipts++] = took; due[i] = m + pause; batches--; last_receipt = m; continue; }
            if (replies < most) times[replies++] = took;
            if (others < most && !is_beside) apart[others++] = took;
            if (besides < most && is_beside) beside[besides++] = took;
            if (!is_paced) { clients[i].asked = m; put(clients[i].fd, question, asking); }
        }
    }
    double passed = now() - start;
    qsort(times, replies, sizeof *times, by_size);
    qsort(apart, others, sizeof *apart, by_size);
    qsort(beside, besides, sizeof *beside, by_size);
    qsort(receipt_times, receipts, sizeof *receipt_times, by_size);
    if (!replies) die("no reply came");
    printf("{\"clients\":%d,\"came\":%.3f,\"replies\":%zu,\"rate\":%.1f,\"p50\":%.1f,\"p99\":%.1f,\"p999\":%.1f,\"most\":%.1f,\"beside\":%zu,\"beside_p50\":%.1f,\"beside_p99\":%.1f,\"apart_p99\":%.1f,\"receipts\":%zu,\"receipt_p50\":%.1f}\n",
        count, came, replies, replies / passed, times[replies / 2] * 1e6, times[replies * 99 / 100] * 1e6, times[replies * 999 / 1000] * 1e6, times[replies - 1] * 1e6,
        besides, besides ? beside[besides / 2] * 1e6 : 0, besides ? beside[besides * 99 / 100] * 1e6 : 0, others ? apart[others * 99 / 100] * 1e6 : 0, receipts, receipts ? receipt_times[receipts / 2] * 1e6 : 0);
    return 0;
}
