// The load client of dev/bench-venue, which builds it: members that trade over TCP as fast as they are answered.
//
//   bench_venue load PORT MEMBERS WINDOW SECONDS   members C1.. at PORT.., each with at most WINDOW orders under way
//   bench_venue load PORT MEMBERS 1 SECONDS RATE   the same, each with at most RATE orders a second, as 1000 or 0.2
//   bench_venue echo PORT MEMBERS                  serves as many ports, and sends back what comes
//
// A member sells 10 and buys 10 by turns, at one price for all, so that no more than the orders under way rest, and
// each order has one acknowledgement and one fill in the end. It waits for all of them, and stops with a line of what
// was wrong where MsgSeqNum (34), ExecID (17) or the ClOrdIDs acknowledged (11) don't rise as they must. `echo` as the
// ninth word of load: the other end is an echo, and each order that comes back counts as acknowledged and filled.
//
// By the environment, for what stands in front of a venue: BENCH_HEARTBEAT is the HeartBtInt (108) of a Logon, and with
// BENCH_MARKET=Y each member asks behind it for all that changes in its market, and reads that beside its reports.
// BENCH_SYMBOLS=ABC,XYZ are the symbols that members trade by turns, one each: ABC, if left out.
//
// Prints: orders, microseconds of the run, p50 and p99 round trip in nanoseconds, reports.
#define _GNU_SOURCE
#include <arpa/inet.h>
#include <netinet/tcp.h>
#include <pthread.h>
#include <stdint.h>
#include <stdio.h>
#include <stdlib.h>
#include <string.h>
#include <time.h>
#include <unistd.h>

enum { MEMBERS = 64, SYMBOLS = 8, LARGEST = 4096, BYTES = 1 << 18, MESSAGE = 512, MOST = 1 << 24 };

static int port, members, window, seconds, is_echo, asks, symbols;
static char *symbol[SYMBOLS];
static double rate;
static pthread_barrier_t start;

typedef struct {
    int member, end;
    long sent, acked, filled, got, last_exec;  // Orders and reports so far,
    long market;                               // and messages of the market, which `got` counts too.
    uint64_t sent_at[LARGEST], first, last;    // When the order of this ClOrdID, modulo LARGEST, was sent.
    uint32_t *trips;                           // Nanoseconds from an order to its acknowledgement.
    char in[BYTES];
    size_t held;
} Member;

static uint64_t now(void) {
    struct timespec it;
    clock_gettime(CLOCK_MONOTONIC, &it);
    return (uint64_t)it.tv_sec * 1000000000 + (uint64_t)it.tv_nsec;
}

static void fail(const char *what, const Member *it) {
    fprintf(stderr, "C%d: %s, behind %ld orders, %ld acknowledged, %ld filled\n", it->member, what, it->sent, it->acked,
            it->filled);
    exit(1);
}

// Writes a message of this member, and gives its length.
static size_t message(char *out, int member, long number, const char *kind, const char *body) {
    char fields[MESSAGE];
    int length = snprintf(fields, sizeof fields, "35=%s|49=C%d|56=VENUE|34=%ld|52=20250102-09:30:00|%s", kind, member,
                          number, body);
    int at = sprintf(out, "8=FIX.4.4|9=%d|%s", length, fields);
    unsigned sum = 0;
    for (int i = 0; i < at; i++) {
        out[i] = out[i] == '|' ? 1 : out[i];
        sum += (unsigned char)out[i];
    }
    return (size_t)(at + sprintf(out + at, "10=%03u\x01", sum % 256));
}

static void send_all(Member *it, const char *bytes, size_t length) {
    while (length > 0) {
        ssize_t done = send(it->end, bytes, length, MSG_NOSIGNAL);
        if (done <= 0) fail("the connection ended", it);
        bytes += done;
        length -= (size_t)done;
    }
}

// Sends so many orders in one go.
static void send_orders(Member *it, long count) {
    char out[64 * MESSAGE], body[MESSAGE];
    size_t length = 0;
    uint64_t at = now();
    for (; count > 0; count--) {
        long name = ++it->sent;
        snprintf(body, sizeof body, "11=%ld|55=%s|54=%ld|60=20250102-09:30:00|38=10|40=2|44=50|", name,
                 symbol[it->member % symbols], 1 + name % 2);
        length += message(out + length, it->member, name + 1 + asks, "D", body);
        it->sent_at[name % LARGEST] = at;
    }
    send_all(it, out, length);
}

// The number behind this text in a message, and behind the letter of a venue that may stand there, or -1.
static long number_of(const char *from, size_t length, const char *text) {
    const char *found = memmem(from, length, text, strlen(text));
    if (!found) return -1;
    found += strlen(text);
    return atol(found + (*found >= 'A' && *found <= 'Z'));
}

// Takes the acknowledgement of the next order in.
static void acknowledge(Member *it, long name) {
    if (name != it->acked + 1) fail("another order is acknowledged than the next", it);
    it->last = now();
    if (it->acked < MOST) it->trips[it->acked] = (uint32_t)(it->last - it->sent_at[name % LARGEST]);
    it->acked++;
}

// Takes a whole message in.
static void hear(Member *it, const char *from, size_t length) {
    long name = number_of(from, length, "\x01" "11="), exec = number_of(from, length, "\x01" "17=");
    if (number_of(from, length, "\x01" "34=") != it->got + 1) fail("a MsgSeqNum isn't the next", it);
    it->got++;
    if (it->got == 1) return;  // The answer to the Logon.
    if (asks && (memmem(from, length, "\x01" "35=W\x01", 6) || memmem(from, length, "\x01" "35=X\x01", 6))) {
        it->market++;
        return;
    }
    if (is_echo) {
        acknowledge(it, name);
        it->filled++;
        return;
    }
    if (exec <= it->last_exec) fail("an ExecID doesn't rise", it);
    it->last_exec = exec;
    if (memmem(from, length, "\x01" "150=0\x01", 7)) acknowledge(it, name);
    else if (memmem(from, length, "\x01" "150=F\x01", 7) && memmem(from, length, "\x01" "39=2\x01", 6)) it->filled++;
    else fail("a report that is no acknowledgement and no whole fill", it);
}

// Reads once, and takes in the whole messages that are there.
static void listen_once(Member *it) {
    ssize_t count = recv(it->end, it->in + it->held, BYTES - it->held, 0);
    if (count <= 0) fail(count ? "nothing comes" : "the connection ended", it);
    it->held += (size_t)count;
    size_t at = 0;
    while (it->held - at > 20) {
        const char *length = it->in + at + 12;  // Behind 8=FIX.4.4|9=
        const char *end = memchr(length, 1, 8);
        if (!end) fail("no message", it);
        size_t whole = (size_t)(end - (it->in + at)) + 1 + (size_t)atol(length) + 7;
        if (it->held - at < whole) break;
        hear(it, it->in + at, whole);
        at += whole;
    }
    it->held -= at;
    memmove(it->in, it->in + at, it->held);
}

static int connected(int to) {
    struct sockaddr_in address = {.sin_family = AF_INET, .sin_port = htons((uint16_t)to)};
    address.sin_addr.s_addr = htonl(INADDR_LOOPBACK);
    int end = socket(AF_INET, SOCK_STREAM, 0), one = 1;
    struct timeval patience = {.tv_sec = 30};
    setsockopt(end, IPPROTO_TCP, TCP_NODELAY, &one, sizeof one);
    setsockopt(end, SOL_SOCKET, SO_RCVTIMEO, &patience, sizeof patience);
    if (connect(end, (struct sockaddr *)&address, sizeof address)) {
        perror("connect");
        exit(1);
    }
    return end;
}

// Keeps a member at its rate, where it has one: waits for the time of its next order.
static void keep_rate(const Member *it) {
    if (!rate) return;
    uint64_t due = it->first + (uint64_t)((double)it->sent * 1e9 / rate), at = now();
    if (due > at) usleep((useconds_t)((due - at) / 1000));
}

static void *trade(void *given) {
    Member *it = given;
    char out[MESSAGE];
    const char *beat = getenv("BENCH_HEARTBEAT");  // Of who stands in front of a venue, which has none.
    char logon[64];
    snprintf(logon, sizeof logon, "98=0|108=%s|141=Y|", beat ? beat : "0");
    send_all(it, out, message(out, it->member, 1, "A", logon));
    while (it->got == 0) listen_once(it);
    if (asks) {
        char wanted[MESSAGE];
        snprintf(wanted, sizeof wanted, "262=m|263=1|264=0|265=1|267=3|269=0|269=1|269=2|146=1|55=%s|",
                 symbol[it->member % symbols]);
        send_all(it, out, message(out, it->member, 2, "V", wanted));
    }
    pthread_barrier_wait(&start);
    it->first = now();
    uint64_t end = it->first + (uint64_t)seconds * 1000000000;
    while (now() < end && it->sent < MOST) {
        if (it->sent - it->acked < window) {
            keep_rate(it);
            send_orders(it, window - (it->sent - it->acked));
        }
        listen_once(it);
    }
    if (it->sent % 2) send_orders(it, 1);
    while (it->acked < it->sent || it->filled < it->sent) listen_once(it);
    return NULL;
}

static int ascending(const void *one, const void *other) {
    uint32_t a = *(const uint32_t *)one, b = *(const uint32_t *)other;
    return a < b ? -1 : a > b;
}

static void load(void) {
    static Member all[MEMBERS];
    pthread_t threads[MEMBERS];
    pthread_barrier_init(&start, NULL, (unsigned)members);
    for (int i = 0; i < members; i++) {
        all[i].member = i + 1;
        all[i].end = connected(port + i);
        all[i].trips = malloc(MOST * sizeof(uint32_t));
    }
    for (int i = 0; i < members; i++) pthread_create(&threads[i], NULL, trade, &all[i]);
    for (int i = 0; i < members; i++) pthread_join(threads[i], NULL);
    long orders = 0, reports = 0;
    uint64_t first = all[0].first, last = 0;
    uint32_t *trips = malloc((size_t)members * MOST * sizeof(uint32_t));
    for (int i = 0; i < members; i++) {
        memcpy(trips + orders, all[i].trips, (size_t)all[i].acked * sizeof(uint32_t));
        orders += all[i].acked;
        reports += all[i].got - 1 - all[i].market;
        if (all[i].first < first) first = all[i].first;
        if (all[i].last > last) last = all[i].last;
    }
    qsort(trips, (size_t)orders, sizeof(uint32_t), ascending);
    printf("%ld %lu %u %u %ld\n", orders, (unsigned long)((last - first) / 1000), trips[orders / 2],
           trips[orders * 99 / 100], reports);
}

static void *send_back(void *given) {
    int door = *(int *)given, one = 1;
    char bytes[BYTES];
    int end = accept(door, NULL, NULL);
    setsockopt(end, IPPROTO_TCP, TCP_NODELAY, &one, sizeof one);
    for (ssize_t count; (count = recv(end, bytes, sizeof bytes, 0)) > 0;)
        for (ssize_t at = 0; at < count;) {
            ssize_t done = send(end, bytes + at, (size_t)(count - at), MSG_NOSIGNAL);
            if (done <= 0) exit(1);
            at += done;
        }
    return NULL;
}

static void echo(void) {
    static int doors[MEMBERS];
    pthread_t threads[MEMBERS];
    for (int i = 0; i < members; i++) {
        struct sockaddr_in address = {.sin_family = AF_INET, .sin_port = htons((uint16_t)(port + i))};
        address.sin_addr.s_addr = htonl(INADDR_LOOPBACK);
        int one = 1;
        doors[i] = socket(AF_INET, SOCK_STREAM, 0);
        setsockopt(doors[i], SOL_SOCKET, SO_REUSEADDR, &one, sizeof one);
        if (bind(doors[i], (struct sockaddr *)&address, sizeof address) || listen(doors[i], 1)) {
            perror("listen");
            exit(1);
        }
    }
    puts("ready");
    fflush(stdout);
    for (int i = 0; i < members; i++) pthread_create(&threads[i], NULL, send_back, &doors[i]);
    for (int i = 0; i < members; i++) pthread_join(threads[i], NULL);
}

int main(int count, char **words) {
    if (count < 4) return 2;
    port = atoi(words[2]);
    members = atoi(words[3]);
    if (!strcmp(words[1], "echo")) {
        echo();
        return 0;
    }
    const char *market = getenv("BENCH_MARKET"), *traded = getenv("BENCH_SYMBOLS");
    asks = market && !strcmp(market, "Y");
    for (char *it = strtok(strdup(traded ? traded : "ABC"), ","); it && symbols < SYMBOLS; it = strtok(NULL, ","))
        symbol[symbols++] = it;
    if (members < 1 || members > MEMBERS || !symbols) return 2;
    window = atoi(words[4]);
    seconds = atoi(words[5]);
    rate = count > 6 ? atof(words[6]) : 0;
    is_echo = count > 7;
    load();
    return 0;
}
