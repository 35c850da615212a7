// Measures the C libraries of `wlb`.
//
//     bench_library calls TABS ROUNDS         hub and clients in one process: TABS tabs by turns request a lock of their own, are
//                                             granted it and release it, ROUNDS times in all. Prints nanoseconds
//     bench_library held TABS ROUNDS LOCKS OTHERS
//                                             hub and clients in one process: TABS tabs hold LOCKS locks each, and OTHERS
//                                             further tabs 64 each. A random one of the first tabs' locks is released, requested
//                                             and granted again, ROUNDS times. Prints nanoseconds
//     bench_library memory                    1,024 tabs of 64 locks each. Prints the bytes that the hub takes for all locks
//     bench_library browser TABS ROUNDS NAME  a process with a hub and one poll loop, and TABS renderers. Each requests a lock,
//                                             waits for it and releases it, ROUNDS times. NAME is `own`, a lock a renderer, or
//                                             `one`, a lock for all. Prints nanoseconds until the last one has ended
//     bench_library relay TABS ROUNDS         the same loop without a hub, which sends each frame back. Each child sends a frame
//                                             of 32 bytes and waits for it, ROUNDS times. Prints nanoseconds
//
// Exit status: 0 done, 1 an unexpected status, 2 wrong command line, 3 a call of the system failed.
#include "library_pump.h"

#include <errno.h>
#include <fcntl.h>
#include <malloc.h>
#include <poll.h>
#include <sys/socket.h>
#include <sys/wait.h>
#include <time.h>
#include <unistd.h>

enum {
    TAB_LIMIT = 1024,
    ROUND_LIMIT = 10000000,
    FRAME = 32,           // bytes of a frame of the relay
    PIECE = 16384,        // most bytes of one read
    OUTPUT = 1 << 18,     // most bytes that wait for a renderer
    WARM_NS = 300000000   // nanoseconds in which all children start and report
};

static _Noreturn void fail(const char *what) {
    perror(what);
    _exit(3);
}

static long long now(void) {
    struct timespec time;
    if (clock_gettime(CLOCK_MONOTONIC, &time)) fail("clock_gettime");
    return time.tv_sec * 1000000000LL + time.tv_nsec;
}

// Opens the tabs, with a client each, 64 of a partition, and starts a broker.
static void open_tabs(int count) {
    char url[64];
    expect(WLB_OK, wlb_hub_new(&hub));
    for (int tab = 1; tab <= count; tab++) {
        snprintf(url, sizeof url, "https://a%d.test/", tab / WLB_PARTITION_TABS);
        open_client((uint16_t)tab, url);
    }
    expect(WLB_OK, wlb_hub_restart(&hub));
    send_down();
    for (int tab = 1; tab <= count; tab++) forget_events((uint16_t)tab);
}

static void close_tabs(int count) {
    for (int tab = 1; tab <= count; tab++) wlb_client_free(&clients[tab]);
    wlb_hub_free(&hub);
}

// ---- Calls

static long long calls(int count, int rounds) {
    char name[16];
    uint32_t number;
    open_tabs(count);
    long long begin = now();
    for (int round = 0; round < rounds; round++) {
        uint16_t tab = (uint16_t)(1 + round % count);
        int length = snprintf(name, sizeof name, "n%d", tab);
        expect(WLB_OK, wlb_client_request(&clients[tab], bytes_of(name), (size_t)length, false, &number));
        pass(tab);
        expect((int32_t)number, (int32_t)last_of(tab, WLB_GRANTED).number);
        expect(WLB_OK, wlb_client_release(&clients[tab], number));
        pass(tab);
        forget_events(tab);
    }
    long long taken = now() - begin;
    close_tabs(count);
    return taken;
}

// ---- Held locks

// The number of each lock of each tab.
static uint32_t held[TAB_LIMIT + 1][WLB_LIVE_NUMBERS];

static void take(int tab, int lock) {
    char name[32];
    int length = snprintf(name, sizeof name, "lock/%d/%d", tab, lock);
    expect(WLB_OK, wlb_client_request(&clients[tab], bytes_of(name), (size_t)length, false, &held[tab][lock]));
    pass((uint16_t)tab);
    expect((int32_t)held[tab][lock], (int32_t)last_of((uint16_t)tab, WLB_GRANTED).number);
}

// Returns a pseudorandom number below a limit: the high bits of a linear congruence.
static int below(int limit) {
    static uint64_t state = 20261123;
    state = state * 6364136223846793005u + 1442695040888963407u;
    return (int)((state >> 33) % (uint64_t)limit);
}

static long long held_locks(int tabs, int rounds, int locks, int others) {
    open_tabs(tabs + others);
    for (int tab = 1; tab <= tabs + others; tab++)
        for (int lock = 0; lock < (tab <= tabs ? locks : WLB_LIVE_NUMBERS); lock++) take(tab, lock);
    long long begin = now();
    for (int round = 0; round < rounds; round++) {
        int tab = 1 + below(tabs), lock = below(locks);
        expect(WLB_OK, wlb_client_release(&clients[tab], held[tab][lock]));
        pass((uint16_t)tab);
        take(tab, lock);
    }
    long long taken = now() - begin;
    close_tabs(tabs + others);
    return taken;
}

// ---- Memory

static size_t allocated(void) {
    struct mallinfo2 info = mallinfo2();
    return info.uordblks + info.hblkhd;
}

// The requests of all tabs are made before the hub is measured, so that no memory of a client counts.
static size_t memory(void) {
    static uint8_t requests[TAB_LIMIT * WLB_LIVE_NUMBERS * 64];
    static size_t ends[TAB_LIMIT + 1];
    size_t length, at = 0;
    uint16_t to;
    uint32_t number;
    char name[16];
    int32_t status;
    open_tabs(TAB_LIMIT);
    for (int tab = 1; tab <= TAB_LIMIT; tab++) {
        for (int i = 0; i < WLB_LIVE_NUMBERS; i++) {
            int size = snprintf(name, sizeof name, "n%d", tab * WLB_LIVE_NUMBERS + i);
            expect(WLB_OK, wlb_client_request(&clients[tab], bytes_of(name), (size_t)size, false, &number));
            expect(WLB_OK, wlb_client_next_output(&clients[tab], frame_bytes, sizeof frame_bytes, &length));
            memcpy(requests + at, frame_bytes, length);
            at += length;
        }
        ends[tab] = at;
    }
    size_t before = allocated(), granted = 0;
    for (int tab = 1; tab <= TAB_LIMIT; tab++) {
        expect(WLB_OK, wlb_hub_receive(&hub, (uint16_t)tab, requests + ends[tab - 1], ends[tab] - ends[tab - 1]));
        advance_hub();
        while ((status = wlb_hub_next_output(&hub, &to, frame_bytes, sizeof frame_bytes, &length)) == WLB_OK) granted++;
        expect(WLB_IDLE, status);
    }
    expect(WLB_OK, wlb_hub_receive(&hub, 1, NULL, 0));
    expect(TAB_LIMIT * WLB_LIVE_NUMBERS, (int32_t)granted);
    size_t taken = allocated() - before;
    close_tabs(TAB_LIMIT);
    return taken;
}

// ---- Processes

typedef struct {
    int link;
    size_t output_length;
    uint8_t output[OUTPUT];
} link_of_tab;

static link_of_tab links[WLB_PARTITION_TABS + 1];
static int links_count;
static bool has_hub;
// A pipe that a renderer reads once it has reported. Its end is the sign to begin: no command comes before the last report.
static int gate[2];

static void send_bytes(int link, const uint8_t *bytes, size_t length) {
    for (size_t at = 0; at < length;) {
        ssize_t sent = send(link, bytes + at, length - at, MSG_NOSIGNAL);
        if (sent < 0 && errno != EINTR) fail("send");
        if (sent > 0) at += (size_t)sent;
    }
}

static size_t wait_for_bytes(int link, uint8_t *bytes, size_t capacity) {
    ssize_t got;
    do got = recv(link, bytes, capacity, 0);
    while (got < 0 && errno == EINTR);
    if (got <= 0) fail("recv");
    return (size_t)got;
}

static _Noreturn void relay_child(int link, int rounds) {
    uint8_t frame[FRAME] = {0};
    for (int round = 0; round <= rounds; round++) {
        // The first frame of the browser is the sign to begin.
        if (round > 0) send_bytes(link, frame, sizeof frame);
        for (size_t at = 0; at < sizeof frame;) at += wait_for_bytes(link, frame + at, sizeof frame - at);
    }
    _exit(0);
}

static void send_output(wlb_client *client, int link) {
    static uint8_t whole[PIECE + WLB_FRAME_BYTES];
    size_t length, at = 0;
    int32_t status;
    while ((status = wlb_client_next_output(client, whole + at, sizeof whole - at, &length)) != WLB_IDLE) {
        if (status == WLB_DROPPED) continue;
        expect(WLB_OK, status);
        at += length;
        if (at < PIECE) continue;
        send_bytes(link, whole, at);
        at = 0;
    }
    send_bytes(link, whole, at);
}

static _Noreturn void browser_child(int link, int rounds, const char *name) {
    uint8_t piece[PIECE];
    uint32_t number;
    wlb_client client = WLB_EMPTY;
    wlb_event event;
    expect(WLB_OK, wlb_client_new(&client));
    for (int round = 0; round < rounds;) {
        send_output(&client, link);
        expect(WLB_OK, wlb_client_receive(&client, piece, wait_for_bytes(link, piece, sizeof piece)));
        advance_client(&client);
        while (wlb_client_next_event(&client, &event) == WLB_OK) {
            if (event.kind == WLB_ENTERED) {
                send_output(&client, link);
                if (read(gate[0], piece, 1) != 0) fail("the gate");
            }
            if (event.kind == WLB_GRANTED) {
                expect(WLB_OK, wlb_client_release(&client, number));
                round++;
            }
            bool is_next = event.kind == WLB_ENTERED || event.kind == WLB_GRANTED;
            if (is_next && round < rounds)
                expect(WLB_OK, wlb_client_request(&client, bytes_of(name), strlen(name), false, &number));
        }
    }
    send_output(&client, link);
    _exit(0);
}

static void put_output(int tab, const uint8_t *bytes, size_t length) {
    if (length > OUTPUT - links[tab].output_length) fail("a full buffer");
    memcpy(links[tab].output + links[tab].output_length, bytes, length);
    links[tab].output_length += length;
}

static void collect(void) {
    uint16_t tab;
    size_t length;
    int32_t status;
    while ((status = wlb_hub_next_output(&hub, &tab, frame_bytes, sizeof frame_bytes, &length)) != WLB_IDLE) {
        if (status == WLB_DROPPED) continue;
        expect(WLB_OK, status);
        put_output(tab, frame_bytes, length);
    }
}

// Handles the bytes of a tab, or its end, which no bytes stand for.
static void handle(int tab, const uint8_t *bytes, size_t length) {
    if (!has_hub) {
        put_output(tab, bytes, length);
        return;
    }
    if (length > 0)
        expect(WLB_OK, wlb_hub_receive(&hub, (uint16_t)tab, bytes, length));
    else
        expect(WLB_OK, wlb_hub_close(&hub, (uint16_t)tab));
    advance_hub();
    collect();
}

static void flush(int tab) {
    if (links[tab].output_length == 0) return;
    ssize_t sent = send(links[tab].link, links[tab].output, links[tab].output_length, MSG_NOSIGNAL);
    // A renderer that has ended needs no answer. Its end is read later.
    if (sent < 0 && errno == EPIPE) sent = (ssize_t)links[tab].output_length;
    if (sent < 0 && errno != EAGAIN && errno != EINTR) fail("send");
    if (sent <= 0) return;
    links[tab].output_length -= (size_t)sent;
    memmove(links[tab].output, links[tab].output + sent, links[tab].output_length);
}

// Passes bytes on until all children have ended, or until a time, if it is not 0.
static void loop(long long until) {
    static uint8_t piece[PIECE];
    struct pollfd polled[WLB_PARTITION_TABS + 1];
    for (int living = links_count; living > 0 && (until == 0 || now() < until);) {
        for (int tab = 1; tab <= links_count; tab++) {
            flush(tab);
            short events = (short)(POLLIN | (links[tab].output_length ? POLLOUT : 0));
            polled[tab] = (struct pollfd){.fd = links[tab].link, .events = events};
        }
        if (poll(polled + 1, (nfds_t)links_count, until ? 1 : -1) < 0 && errno != EINTR) fail("poll");
        for (int tab = 1; tab <= links_count; tab++) {
            if (!(polled[tab].revents & (POLLIN | POLLHUP | POLLERR))) continue;
            ssize_t got = recv(links[tab].link, piece, sizeof piece, 0);
            if (got < 0 && (errno == EAGAIN || errno == EINTR)) continue;
            if (got <= 0) {
                close(links[tab].link);
                links[tab].link = -1;
                links[tab].output_length = 0;
                living--;
                got = 0;
            }
            handle(tab, piece, (size_t)got);
        }
    }
}

static void start_child(int rounds, const char *name) {
    int tab = links_count + 1, ends[2];
    char own[16];
    if (socketpair(AF_UNIX, SOCK_STREAM, 0, ends)) fail("socketpair");
    snprintf(own, sizeof own, "n%d", tab);
    pid_t process = fork();
    if (process < 0) fail("fork");
    if (process == 0) {
        for (int i = 1; i < tab; i++) close(links[i].link);
        close(ends[0]);
        close(gate[1]);
        if (has_hub) browser_child(ends[1], rounds, strcmp(name, "own") ? "one" : own);
        relay_child(ends[1], rounds);
    }
    close(ends[1]);
    if (fcntl(ends[0], F_SETFL, O_NONBLOCK)) fail("fcntl");
    links[tab].link = ends[0];
    links_count = tab;
}

static long long processes(int tabs, int rounds, const char *name) {
    static const uint8_t begin[FRAME] = {0};
    has_hub = name != NULL;
    if (pipe(gate)) fail("pipe");
    if (has_hub) expect(WLB_OK, wlb_hub_new(&hub));
    for (int tab = 1; tab <= tabs; tab++) {
        if (has_hub) expect(WLB_OK, wlb_hub_open(&hub, (uint16_t)tab, bytes_of("https://a.test/"), 15));
        start_child(rounds, name);
    }
    if (has_hub) expect(WLB_OK, wlb_hub_restart(&hub));
    if (has_hub) collect();
    loop(now() + WARM_NS);
    long long start = now();
    for (int tab = 1; tab <= tabs && !has_hub; tab++) put_output(tab, begin, sizeof begin);
    close(gate[1]);
    loop(0);
    long long taken = now() - start;
    for (int status; wait(&status) > 0;)
        if (status) fail("a child");
    wlb_hub_free(&hub);
    return taken;
}

// ---- Command line

// Returns a number from `least` to the limit, or -1 for any other text.
static int number_from(int least, const char *text, int limit) {
    char *end;
    long number = strtol(text, &end, 10);
    return *text && !*end && number >= least && number <= limit ? (int)number : -1;
}

// Returns a number from 1 to the limit, or 0 for any other text.
static int number_of(const char *text, int limit) {
    int number = number_from(1, text, limit);
    return number > 0 ? number : 0;
}

int main(int argc, char **argv) {
    const char *part = argc > 1 ? argv[1] : "";
    int tabs = argc > 3 ? number_of(argv[2], TAB_LIMIT) : 0, rounds = tabs ? number_of(argv[3], ROUND_LIMIT) : 0;
    bool has_processes = rounds && tabs <= WLB_PARTITION_TABS;
    int locks = rounds && argc == 6 && strcmp(part, "held") == 0 ? number_of(argv[4], WLB_LIVE_NUMBERS) : 0;
    int others = locks ? number_from(0, argv[5], TAB_LIMIT - tabs) : -1;
    if (argc == 2 && strcmp(part, "memory") == 0)
        printf("%zu\n", memory());
    else if (rounds && argc == 4 && strcmp(part, "calls") == 0)
        printf("%lld\n", calls(tabs, rounds));
    else if (others >= 0)
        printf("%lld\n", held_locks(tabs, rounds, locks, others));
    else if (has_processes && argc == 4 && strcmp(part, "relay") == 0)
        printf("%lld\n", processes(tabs, rounds, NULL));
    else if (has_processes && argc == 5 && strcmp(part, "browser") == 0)
        printf("%lld\n", processes(tabs, rounds, argv[4]));
    else {
        fputs("usage: bench_library calls TABS ROUNDS | held TABS ROUNDS LOCKS OTHERS | memory |\n"
              "                     browser TABS ROUNDS own|one | relay TABS ROUNDS\n", stderr);
        return 2;
    }
    return 0;
}
