// Browser process with its renderers, as processes of their own, and `wlb` between them. docs/EMBEDDING.md walks through this
// file.
//
//     browser RENDERERS ROUNDS [deaf]
//
// Each renderer adds 1 to a counter in a file ROUNDS times: it requests one exclusive lock, reads the file, sleeps a little,
// writes the file and releases the lock. Meanwhile the browser restarts the broker again and again. Renderer 1 stops itself in
// its middle round, while it holds the lock and before it writes; the browser restarts the broker and kills the renderer by
// SIGKILL. With `deaf` one more renderer sends commands and does not read the answers, and the browser closes it. Until then it
// does not restart the broker: that renderer would not report to the next one, and the partition would wait for it.
//
// At the end the counter has to be the number of rounds that renderers have finished. Exit status: 0 it is, 1 it is not, 2 wrong
// command line, 3 a call failed.
#include "wlb.h"

#include <errno.h>
#include <fcntl.h>
#include <poll.h>
#include <signal.h>
#include <stdio.h>
#include <stdlib.h>
#include <string.h>
#include <sys/socket.h>
#include <sys/wait.h>
#include <time.h>
#include <unistd.h>

enum {
    RENDERER_LIMIT = WLB_PARTITION_TABS - 1, // one is left for the deaf renderer
    ROUND_LIMIT = 10000,
    PIECE = 16384,                // most bytes of one read
    OUTPUT = 4 * WLB_FRAME_BYTES, // most bytes that wait for a renderer that does not read
    RETRY_MS = 5,                 // milliseconds until a call that was refused memory is repeated
    STARTS = 10,                  // starts of the broker, beside the one after renderer 1 has stopped
    RESTART_MS = 10,              // milliseconds between two of them
    SLEEP_US = 1000               // microseconds between a renderer's read of the counter and its write
};

static const char URL[] = "https://a.test/", LOCK[] = "counter", DEAF_LOCK[] = "deaf";

static _Noreturn void fail(const char *what) {
    perror(what);
    _exit(3);
}

static const uint8_t *bytes(const char *text) { return (const uint8_t *)text; }

// ---- Renderer. It has one link, so it may wait for it. Out of memory ends it, as it ends a renderer of a browser.

static void need(int32_t status, const char *call) {
    if (status == WLB_OK) return;
    fprintf(stderr, "%s returned %s\n", call, wlb_status_name(status));
    _exit(3);
}

// Sends what the client puts out.
static void send_all(wlb_client *client, int link) {
    uint8_t frame[WLB_FRAME_BYTES];
    size_t length;
    int32_t status;
    while ((status = wlb_client_next_output(client, frame, sizeof frame, &length)) != WLB_IDLE) {
        if (status == WLB_DROPPED) continue;
        need(status, "wlb_client_next_output");
        for (size_t at = 0; at < length;) {
            ssize_t sent = send(link, frame + at, length - at, MSG_NOSIGNAL);
            if (sent < 0 && errno != EINTR) fail("renderer: send");
            if (sent > 0) at += (size_t)sent;
        }
    }
}

// Waits for bytes and gives them to the client. The end of the link ends the renderer.
static void receive_some(wlb_client *client, int link) {
    uint8_t piece[PIECE];
    ssize_t got;
    do got = recv(link, piece, sizeof piece, 0);
    while (got < 0 && errno == EINTR);
    if (got < 0) fail("renderer: recv");
    if (got == 0) _exit(3);
    need(wlb_client_receive(client, piece, (size_t)got), "wlb_client_receive");
    int32_t status;
    while ((status = wlb_client_advance(client)) != WLB_IDLE) need(status, "wlb_client_advance");
}

// Adds 1 to the counter. Two renderers that do this at the same time lose one of the additions.
static void add_one(int counter) {
    long value;
    struct timespec pause = {.tv_sec = 0, .tv_nsec = SLEEP_US * 1000L};
    if (pread(counter, &value, sizeof value, 0) != sizeof value) fail("renderer: pread");
    nanosleep(&pause, NULL);
    value++;
    if (pwrite(counter, &value, sizeof value, 0) != sizeof value) fail("renderer: pwrite");
}

// Counts under the lock. Stops itself in the round `stops_in`, while it holds the lock.
static _Noreturn void run_renderer(int link, int counter, int rounds, int stops_in) {
    wlb_client client = WLB_EMPTY;
    uint32_t number;
    need(wlb_client_new(&client), "wlb_client_new");
    for (int round = 0; round < rounds;) {
        send_all(&client, link);
        receive_some(&client, link);
        wlb_event event;
        while (wlb_client_next_event(&client, &event) == WLB_OK) {
            if (event.kind == WLB_GRANTED) {
                if (round == stops_in) raise(SIGSTOP);
                add_one(counter);
                need(wlb_client_release(&client, number), "wlb_client_release");
                round++;
            }
            bool is_next = event.kind == WLB_WELCOMED || event.kind == WLB_GRANTED;
            if (is_next && round < rounds)
                need(wlb_client_request(&client, bytes(LOCK), strlen(LOCK), false, &number), "wlb_client_request");
        }
    }
    send_all(&client, link);
    wlb_client_free(&client);
    _exit(0);
}

// Waits for a lock, and then requests another one and aborts the request, on and on, and reads no answer.
static _Noreturn void run_deaf_renderer(int link) {
    wlb_client client = WLB_EMPTY;
    uint32_t number;
    wlb_event event = {0, 0, 0};
    need(wlb_client_new(&client), "wlb_client_new");
    while (event.kind != WLB_GRANTED) {
        send_all(&client, link);
        receive_some(&client, link);
        while (event.kind != WLB_GRANTED && wlb_client_next_event(&client, &event) == WLB_OK)
            if (event.kind == WLB_WELCOMED)
                need(wlb_client_request(&client, bytes(DEAF_LOCK), strlen(DEAF_LOCK), true, &number), "wlb_client_request");
    }
    for (;;) {
        need(wlb_client_request(&client, bytes(DEAF_LOCK), strlen(DEAF_LOCK), true, &number), "wlb_client_request");
        send_all(&client, link);
        need(wlb_client_abort(&client, number), "wlb_client_abort");
        send_all(&client, link);
    }
}

// ---- Browser: its tabs

typedef struct {
    pid_t process;
    int link;                // -1: the tab is dead
    bool is_untold;          // the tab is dead, and the hub was out of memory when it was told
    uint8_t input[PIECE];    // bytes that were read and that the hub has not taken
    size_t input_length;
    uint8_t output[OUTPUT];  // bytes that the link has not taken
    size_t output_length;
} renderer_tab;

static wlb_hub hub = WLB_EMPTY;
static renderer_tab tabs[WLB_PARTITION_TABS + 1]; // by the tab's number
static int tabs_count, living;
static uint16_t deaf_tab; // or 0
static uint16_t sender; // the tab whose bytes the hub has received last

// Opens a tab in the hub and starts its renderer. The child closes the links of the other renderers.
static void open_tab(int counter, int rounds, int stops_in, bool is_deaf) {
    uint16_t number = (uint16_t)(tabs_count + 1);
    int ends[2];
    need(wlb_hub_open(&hub, number, bytes(URL), strlen(URL)), "wlb_hub_open");
    if (socketpair(AF_UNIX, SOCK_STREAM, 0, ends)) fail("socketpair");
    pid_t process = fork();
    if (process < 0) fail("fork");
    if (process == 0) {
        for (int i = 1; i <= tabs_count; i++) close(tabs[i].link);
        close(ends[0]);
        if (is_deaf) run_deaf_renderer(ends[1]);
        run_renderer(ends[1], counter, rounds, stops_in);
    }
    close(ends[1]);
    if (fcntl(ends[0], F_SETFL, O_NONBLOCK)) fail("fcntl");
    tabs[number].process = process;
    tabs[number].link = ends[0];
    tabs_count++;
    living++;
}

// Ends a tab. Its process has to be dead before the hub is told: then another tab gets its locks.
static void bury(uint16_t number) {
    renderer_tab *tab = &tabs[number];
    if (tab->link >= 0) {
        kill(tab->process, SIGKILL);
        if (waitpid(tab->process, NULL, 0) < 0) fail("waitpid");
        close(tab->link);
        tab->link = -1;
        tab->input_length = tab->output_length = 0;
        living--;
    }
    tab->is_untold = wlb_hub_close(&hub, number) == WLB_MEMORY;
}

// ---- Browser: between the hub and the links

// Moves the hub's output to the tabs' buffers, and ends a tab whose buffer is full. Returns false if out of memory.
static bool collect(void) {
    static uint8_t frame[WLB_FRAME_BYTES];
    uint16_t number;
    size_t length;
    int32_t status;
    while ((status = wlb_hub_next_output(&hub, &number, frame, sizeof frame, &length)) != WLB_IDLE) {
        if (status == WLB_MEMORY) return false;
        if (status == WLB_DROPPED) continue;
        need(status, "wlb_hub_next_output");
        renderer_tab *tab = &tabs[number];
        if (tab->link < 0) continue;
        if (length > sizeof tab->output - tab->output_length) {
            printf("renderer %d does not read: closed\n", number);
            bury(number);
            continue;
        }
        memcpy(tab->output + tab->output_length, frame, length);
        tab->output_length += length;
    }
    return true;
}

// Lets the hub handle all that it has. Returns false if out of memory: the next turn of the loop goes on.
static bool settle(void) {
    for (uint16_t number = 1; number <= tabs_count; number++)
        if (tabs[number].is_untold) bury(number);
    for (;;) {
        int32_t status = wlb_hub_advance(&hub);
        if (status == WLB_MEMORY || !collect()) return false;
        if (status == WLB_IDLE) return true;
        if (status == WLB_BAD_FRAME)
            bury(sender);
        else
            need(status, "wlb_hub_advance");
    }
}

// A link is readable, or bytes of it are left that the hub has not taken. Returns false if out of memory.
static bool read_tab(uint16_t number) {
    renderer_tab *tab = &tabs[number];
    if (tab->input_length == 0) {
        ssize_t got = recv(tab->link, tab->input, sizeof tab->input, 0);
        if (got < 0 && (errno == EAGAIN || errno == EWOULDBLOCK || errno == EINTR)) return true;
        if (got <= 0) {
            bury(number);
            return settle();
        }
        tab->input_length = (size_t)got;
    }
    int32_t status = wlb_hub_receive(&hub, number, tab->input, tab->input_length);
    if (status == WLB_MEMORY) return false;
    tab->input_length = 0;
    sender = number;
    if (status == WLB_BAD_FRAME)
        bury(number);
    else
        need(status, "wlb_hub_receive");
    return settle();
}

// Sends what the link takes, and keeps the rest.
static void write_tab(uint16_t number) {
    renderer_tab *tab = &tabs[number];
    ssize_t sent = send(tab->link, tab->output, tab->output_length, MSG_NOSIGNAL);
    if (sent < 0 && (errno == EAGAIN || errno == EWOULDBLOCK || errno == EINTR)) return;
    if (sent < 0) {
        bury(number);
        return;
    }
    tab->output_length -= (size_t)sent;
    memmove(tab->output, tab->output + sent, tab->output_length);
}

// ---- Browser: disturbances

static long now_ms(void) {
    struct timespec now;
    if (clock_gettime(CLOCK_MONOTONIC, &now)) fail("clock_gettime");
    return now.tv_sec * 1000 + now.tv_nsec / 1000000;
}

static bool is_broker_wanted;
static int starts;
static long next_start;

// Starts the broker when it is time, at once at the beginning, and kills renderer 1 when it has stopped itself.
static void disturb(void) {
    siginfo_t info = {0};
    bool is_stopped = tabs[1].link >= 0 && waitid(P_PID, (id_t)tabs[1].process, &info, WSTOPPED | WNOHANG) == 0 && info.si_pid;
    bool may_restart = starts == 0 || deaf_tab == 0 || tabs[deaf_tab].link < 0;
    bool is_due = starts < STARTS && now_ms() >= next_start;
    if (may_restart && (is_stopped || is_due)) is_broker_wanted = true;
    if (may_restart && is_due) starts++;
    if (is_broker_wanted) {
        int32_t status = wlb_hub_restart(&hub);
        // Without memory no broker is up. The next turn of the loop starts it.
        is_broker_wanted = status == WLB_MEMORY;
        if (!is_broker_wanted) need(status, "wlb_hub_restart");
        next_start = now_ms() + RESTART_MS;
    }
    if (is_stopped) kill(tabs[1].process, SIGKILL);
}

// ---- Browser: its loop

// Waits for the links, and passes on what has come. A link is read only while the hub has memory for what it has received.
static void turn(void) {
    struct pollfd links[WLB_PARTITION_TABS + 1];
    bool is_settled = settle();
    for (uint16_t number = 1; number <= tabs_count; number++) {
        if (tabs[number].output_length > 0) write_tab(number);
        short events = (short)((is_settled ? POLLIN : 0) | (tabs[number].output_length > 0 ? POLLOUT : 0));
        // poll skips a negative descriptor.
        links[number] = (struct pollfd){.fd = events ? tabs[number].link : -1, .events = events};
    }
    if (poll(links + 1, (nfds_t)tabs_count, RETRY_MS) < 0 && errno != EINTR) fail("poll");
    for (uint16_t number = 1; number <= tabs_count && is_settled; number++) {
        bool is_readable = links[number].revents & (POLLIN | POLLHUP | POLLERR);
        // A call before this one may have ended the tab.
        if (tabs[number].link >= 0 && (is_readable || tabs[number].input_length > 0)) is_settled = read_tab(number);
    }
}

// Returns a number from 1 to the limit, or 0 for any other text.
static int number_of(const char *text, int limit) {
    char *end;
    long number = strtol(text, &end, 10);
    return *text && !*end && number >= 1 && number <= limit ? (int)number : 0;
}

int main(int argc, char **argv) {
    bool is_deaf = argc == 4 && strcmp(argv[3], "deaf") == 0;
    int renderers = argc == 3 || is_deaf ? number_of(argv[1], RENDERER_LIMIT) : 0;
    int rounds = renderers ? number_of(argv[2], ROUND_LIMIT) : 0;
    if (rounds == 0) {
        fputs("usage: browser RENDERERS ROUNDS [deaf]\n", stderr);
        return 2;
    }
    FILE *file = tmpfile();
    long value = 0, expected = (long)(renderers - 1) * rounds + rounds / 2;
    if (!file || pwrite(fileno(file), &value, sizeof value, 0) != sizeof value) fail("the counter");
    need(wlb_hub_new(&hub), "wlb_hub_new");
    for (int i = 1; i <= renderers; i++) open_tab(fileno(file), rounds, i == 1 ? rounds / 2 : -1, false);
    if (is_deaf) open_tab(fileno(file), 0, -1, true);
    if (is_deaf) deaf_tab = (uint16_t)tabs_count;
    while (living > 0) {
        disturb();
        turn();
    }
    wlb_hub_numbers numbers;
    need(wlb_hub_status(&hub, &numbers), "wlb_hub_status");
    wlb_hub_free(&hub);
    if (pread(fileno(file), &value, sizeof value, 0) != sizeof value) fail("the counter");
    printf("generations: %u\ncounter: %ld, expected: %ld\n", (unsigned)numbers.generation, value, expected);
    return value == expected ? 0 : 1;
}
