// Bare relay, for a comparison with the processes of `wlb`: the same hops over the same kind of sockets, and nothing else. Its
// broker has a reader thread, while the lanes of `wlb` take turns at reading. Its tabs have one thread.
//
//     tab -> kernel's reader of the tab -> broker's reader -> lane
//         -> kernel's reader of the broker -> kernel's writer of the tab -> tab
//
//     relay kernel DIR TABS ROUNDS [PAUSE]  starts the broker and the tabs; each tab sends a frame and waits for it, ROUNDS
//                                           times, with PAUSE milliseconds before each frame (0 by default)
//     relay broker SOCKET                   started by the kernel: two lanes send each frame back
//     relay tab SOCKET ROUNDS PAUSE         started by the kernel
//
// The kernel prints `up` once all tabs are connected, lets them begin, and prints `ended` once all have ended. A frame has 32
// bytes. Two of them are the number of its tab, which the kernel sets; no other byte is read. The reader of a tab writes to the
// broker itself, under the link's lock. All frames queued for one link go into one write. Exit status: 0 done, 2 wrong command
// line, 3 a failure; then the kernel has killed its children.
#define _GNU_SOURCE
#include <errno.h>
#include <poll.h>
#include <pthread.h>
#include <signal.h>
#include <stdio.h>
#include <stdlib.h>
#include <string.h>
#include <sys/socket.h>
#include <sys/un.h>
#include <sys/wait.h>
#include <time.h>
#include <unistd.h>

enum {
    FRAME = 32,        // bytes of a frame
    TAB_AT = 4,        // offset of the tab's number in a frame, two bytes
    PIECE = 4096,      // most bytes of one read
    QUEUE = 256,       // capacity of a queue in frames
    BATCH = 64,        // most frames of one write
    LANES = 2,         // lanes of the broker
    TAB_LIMIT = 64,    // most tabs
    ROUND_LIMIT = 1000000,
    PAUSE_LIMIT = 1000, // most milliseconds of a pause
    CONNECT_MS = 10000 // milliseconds for a child to connect
};

typedef struct {
    unsigned char bytes[FRAME];
} Frame;

// ---- Failures

// Processes that the kernel has started and not waited for.
static pthread_mutex_t children_lock = PTHREAD_MUTEX_INITIALIZER;
static pid_t children[TAB_LIMIT + 1];
static int children_count;

// Prints the failure, kills all children, and ends. The first thread keeps the lock, so that no other one does the same.
static _Noreturn void fail(const char *what, int error) {
    pthread_mutex_lock(&children_lock);
    fprintf(stderr, "relay: %s: %s\n", what, error ? strerror(error) : "it ended too soon");
    for (int i = 0; i < children_count; i++) {
        kill(children[i], SIGKILL);
        waitpid(children[i], 0, 0);
    }
    _exit(3);
}

// Fails if a call of pthreads has returned an error.
static void need(const char *what, int error) {
    if (error) fail(what, error);
}

static void lock(pthread_mutex_t *mutex) { need("lock", pthread_mutex_lock(mutex)); }
static void unlock(pthread_mutex_t *mutex) { need("unlock", pthread_mutex_unlock(mutex)); }

static void *room(size_t count, size_t size) {
    void *bytes = calloc(count, size);
    if (!bytes) fail("memory", ENOMEM);
    return bytes;
}

// ---- Queues of frames between threads

typedef struct {
    pthread_mutex_t mutex;
    pthread_cond_t changed;
    Frame frames[QUEUE];
    int first, count, is_closed;
} Queue;

static void queue_init(Queue *queue) {
    need("mutex", pthread_mutex_init(&queue->mutex, 0));
    need("condition", pthread_cond_init(&queue->changed, 0));
}

// Each tab has one frame in transit, so no queue is ever full.
static void queue_put(Queue *queue, const Frame *frame) {
    lock(&queue->mutex);
    if (queue->count == QUEUE) fail("queue", ENOBUFS);
    queue->frames[(queue->first + queue->count) % QUEUE] = *frame;
    queue->count++;
    unlock(&queue->mutex);
    need("signal", pthread_cond_signal(&queue->changed));
}

static void queue_close(Queue *queue) {
    lock(&queue->mutex);
    queue->is_closed = 1;
    unlock(&queue->mutex);
    need("signal", pthread_cond_signal(&queue->changed));
}

// Waits for a frame, and takes all that are queued, at most BATCH. Returns their number, or 0 if the queue is empty and closed.
static int queue_take(Queue *queue, Frame *out) {
    int count = 0;
    lock(&queue->mutex);
    while (!queue->count && !queue->is_closed) need("wait", pthread_cond_wait(&queue->changed, &queue->mutex));
    while (count < BATCH && queue->count) {
        out[count++] = queue->frames[queue->first];
        queue->first = (queue->first + 1) % QUEUE;
        queue->count--;
    }
    unlock(&queue->mutex);
    return count;
}

// ---- Links

static void send_frames(int link, const Frame *frames, int count) {
    const char *rest = (const char *)frames;
    size_t left = (size_t)count * FRAME;
    while (left) {
        ssize_t sent = send(link, rest, left, MSG_NOSIGNAL);
        if (sent < 0 && errno == EINTR) continue;
        if (sent < 0) fail("send", errno);
        rest += sent;
        left -= (size_t)sent;
    }
}

// Bytes that were read and not yet used: whole frames, and then a part of one.
typedef struct {
    Frame frames[PIECE / FRAME + 1];
    size_t bytes;
} Feed;

// Reads once. Returns the number of whole frames, or -1 at the end of the link. Fails if the link ends within a frame.
static int feed_read(int link, Feed *feed) {
    ssize_t came;
    do came = recv(link, (char *)feed->frames + feed->bytes, PIECE, 0);
    while (came < 0 && errno == EINTR);
    if (came < 0) fail("receive", errno);
    if (came == 0 && feed->bytes) fail("receive", 0);
    if (came == 0) return -1;
    feed->bytes += (size_t)came;
    return (int)(feed->bytes / FRAME);
}

// Drops this many frames from the front.
static void feed_drop(Feed *feed, int count) {
    feed->bytes -= (size_t)count * FRAME;
    memmove(feed->frames, feed->frames + count, feed->bytes);
}

static int tab_of(const Frame *frame) { return frame->bytes[TAB_AT] << 8 | frame->bytes[TAB_AT + 1]; }

static void stamp(Frame *frame, int tab) {
    frame->bytes[TAB_AT] = (unsigned char)(tab >> 8);
    frame->bytes[TAB_AT + 1] = (unsigned char)tab;
}

static struct sockaddr_un address_of(const char *path) {
    struct sockaddr_un address = {.sun_family = AF_UNIX};
    if (strlen(path) >= sizeof address.sun_path) fail(path, ENAMETOOLONG);
    strcpy(address.sun_path, path);
    return address;
}

static int new_socket(void) {
    int link = socket(AF_UNIX, SOCK_STREAM | SOCK_CLOEXEC, 0);
    if (link < 0) fail("socket", errno);
    return link;
}

static int connect_to(const char *path) {
    struct sockaddr_un address = address_of(path);
    int link = new_socket();
    if (connect(link, (struct sockaddr *)&address, sizeof address)) fail(path, errno);
    return link;
}

// Starts this program with these words, and listens at the path until it connects. Returns the link.
static int start_child(const char *path, char *const words[]) {
    struct sockaddr_un address = address_of(path);
    int listener = new_socket();
    if (bind(listener, (struct sockaddr *)&address, sizeof address) || listen(listener, 1)) fail(path, errno);
    pid_t child = fork();
    if (child < 0) fail("fork", errno);
    if (child == 0) {
        execv("/proc/self/exe", words);
        _exit(3);
    }
    lock(&children_lock);
    children[children_count++] = child;
    unlock(&children_lock);
    struct pollfd waiting = {.fd = listener, .events = POLLIN};
    int ready;
    do ready = poll(&waiting, 1, CONNECT_MS);
    while (ready < 0 && errno == EINTR);
    if (ready < 0) fail("poll", errno);
    if (ready == 0) fail(path, ETIMEDOUT);
    int link = accept4(listener, 0, 0, SOCK_CLOEXEC);
    if (link < 0) fail(path, errno);
    if (close(listener) || unlink(path)) fail(path, errno);
    return link;
}

static pthread_t start_thread(void *(*run)(void *), void *argument) {
    pthread_t thread;
    need("thread", pthread_create(&thread, 0, run, argument));
    return thread;
}

static void join(pthread_t thread) { need("join", pthread_join(thread, 0)); }

// ---- Kernel

typedef struct {
    int number, link;
    Queue queue;
    pthread_t reader, writer;
} Tab;

static Tab *tabs;
static int tabs_count;
static int broker_link;
static pthread_mutex_t broker_lock = PTHREAD_MUTEX_INITIALIZER;

static void *read_tab(void *argument) {
    Tab *tab = argument;
    Feed feed = {.bytes = 0};
    for (int count; (count = feed_read(tab->link, &feed)) >= 0;) {
        for (int i = 0; i < count; i++) stamp(&feed.frames[i], tab->number);
        lock(&broker_lock);
        send_frames(broker_link, feed.frames, count);
        unlock(&broker_lock);
        feed_drop(&feed, count);
    }
    return 0;
}

static void *write_tab(void *argument) {
    Tab *tab = argument;
    Frame out[BATCH];
    for (int count; (count = queue_take(&tab->queue, out)) > 0;) send_frames(tab->link, out, count);
    return 0;
}

static void *read_broker(void *argument) {
    (void)argument;
    Feed feed = {.bytes = 0};
    for (int count; (count = feed_read(broker_link, &feed)) >= 0;) {
        for (int i = 0; i < count; i++) {
            int tab = tab_of(&feed.frames[i]);
            if (tab < 1 || tab > tabs_count) fail("no such tab", EINVAL);
            queue_put(&tabs[tab - 1].queue, &feed.frames[i]);
        }
        feed_drop(&feed, count);
    }
    return 0;
}

static void say(const char *line) {
    if (puts(line) < 0 || fflush(stdout)) fail("standard output", errno);
}

static void wait_for_children(void) {
    for (; children_count; children_count--) {
        int status;
        if (waitpid(children[children_count - 1], &status, 0) < 0) fail("wait", errno);
        if (!WIFEXITED(status) || WEXITSTATUS(status)) fail("a child", ECHILD);
    }
}

static int kernel(const char *directory, int count, char *rounds, char *pause) {
    char path[256];
    snprintf(path, sizeof path, "%s/broker.sock", directory);
    broker_link = start_child(path, (char *[]){"relay", "broker", path, 0});
    tabs_count = count;
    tabs = room((size_t)count, sizeof *tabs);
    for (int i = 0; i < count; i++) {
        tabs[i].number = i + 1;
        queue_init(&tabs[i].queue);
        snprintf(path, sizeof path, "%s/tab%d.sock", directory, i + 1);
        tabs[i].link = start_child(path, (char *[]){"relay", "tab", path, rounds, pause, 0});
    }
    pthread_t broker_reader = start_thread(read_broker, 0);
    for (int i = 0; i < count; i++) {
        tabs[i].reader = start_thread(read_tab, &tabs[i]);
        tabs[i].writer = start_thread(write_tab, &tabs[i]);
    }
    say("up");
    Frame begin = {{0}};
    for (int i = 0; i < count; i++) queue_put(&tabs[i].queue, &begin);
    for (int i = 0; i < count; i++) {
        join(tabs[i].reader);
        queue_close(&tabs[i].queue);
        join(tabs[i].writer);
    }
    if (shutdown(broker_link, SHUT_WR)) fail("shutdown", errno);
    join(broker_reader);
    wait_for_children();
    say("ended");
    return 0;
}

// ---- Broker

static int desk_link;
static pthread_mutex_t desk_lock = PTHREAD_MUTEX_INITIALIZER, step_lock = PTHREAD_MUTEX_INITIALIZER;
static unsigned long steps;
static Queue intakes[LANES];

static void *run_lane(void *argument) {
    Frame out[BATCH];
    for (int count; (count = queue_take(argument, out)) > 0;) {
        for (int i = 0; i < count; i++) {
            lock(&step_lock);
            steps++;
            unlock(&step_lock);
        }
        lock(&desk_lock);
        send_frames(desk_link, out, count);
        unlock(&desk_lock);
    }
    return 0;
}

static int broker(const char *socket) {
    pthread_t lanes[LANES];
    desk_link = connect_to(socket);
    for (int i = 0; i < LANES; i++) {
        queue_init(&intakes[i]);
        lanes[i] = start_thread(run_lane, &intakes[i]);
    }
    Feed feed = {.bytes = 0};
    for (int count; (count = feed_read(desk_link, &feed)) >= 0;) {
        for (int i = 0; i < count; i++) queue_put(&intakes[tab_of(&feed.frames[i]) % LANES], &feed.frames[i]);
        feed_drop(&feed, count);
    }
    for (int i = 0; i < LANES; i++) queue_close(&intakes[i]);
    for (int i = 0; i < LANES; i++) join(lanes[i]);
    return 0;
}

// ---- Tab

// Waits for one frame.
static void await_frame(int link, Feed *feed) {
    int count = 0;
    while (count == 0) count = feed_read(link, feed);
    if (count < 0) fail("the kernel", 0);
    feed_drop(feed, 1);
}

static void sleep_for(int milliseconds) {
    struct timespec left = {.tv_sec = milliseconds / 1000, .tv_nsec = milliseconds % 1000 * 1000000L};
    while (nanosleep(&left, &left))
        if (errno != EINTR) fail("sleep", errno);
}

static int tab(const char *socket, int rounds, int pause) {
    int link = connect_to(socket);
    Feed feed = {.bytes = 0};
    Frame frame = {{0, 0, 0, FRAME - 4}};
    await_frame(link, &feed);
    for (int round = 0; round < rounds; round++) {
        if (pause) sleep_for(pause);
        send_frames(link, &frame, 1);
        await_frame(link, &feed);
    }
    return 0;
}

// ---- Command line

// Returns a number from 0 to the limit, or -1 for any other text.
static int number_of(const char *text, int limit) {
    char *end;
    long number = strtol(text, &end, 10);
    return *text && !*end && number >= 0 && number <= limit ? (int)number : -1;
}

int main(int argc, char **argv) {
    if ((argc == 5 || argc == 6) && !strcmp(argv[1], "kernel")) {
        int count = number_of(argv[3], TAB_LIMIT);
        char *pause = argc == 6 ? argv[5] : "0";
        if (count > 0 && number_of(argv[4], ROUND_LIMIT) >= 0 && number_of(pause, PAUSE_LIMIT) >= 0)
            return kernel(argv[2], count, argv[4], pause);
    }
    if (argc == 3 && !strcmp(argv[1], "broker")) return broker(argv[2]);
    if (argc == 5 && !strcmp(argv[1], "tab")) {
        int rounds = number_of(argv[3], ROUND_LIMIT), pause = number_of(argv[4], PAUSE_LIMIT);
        if (rounds >= 0 && pause >= 0) return tab(argv[2], rounds, pause);
    }
    fputs("usage: relay kernel DIR TABS ROUNDS [PAUSE]\n", stderr);
    return 2;
}
