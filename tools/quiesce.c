// Random histories of a hub and its clients, each with rests in the middle and at the end: nobody waits for nothing.
//
//     quiesce SEED HISTORIES [lossy | trace]
//
// A history opens and closes tabs, restarts the broker, makes calls of pages, and moves bytes in pieces of any length. In some
// histories calls are refused memory, and tabs are compromised: they send frames of all tabs again, some with a bit changed. At its
// end single calls follow, each from rest, so nothing that comes later hides that a call has woken nobody.
//
// To come to rest, the program moves bytes and calls `advance` and `next_output` until no call does anything. Then, in each
// partition whose living tabs are all honest,
//
// - each tab was welcomed, and has entered the generation of the broker;
// - no probe waits for its result, and no query for its answer;
// - a query of each tab is answered, and its snapshot has the locks that the clients hold and the requests that wait, and no more;
// - each request that waits is excluded by a held lock, or stands behind another request of its name.
//
// Links lose nothing, so a query never ends by WLB_LOST. With `lossy` they do lose one frame of LOSS, and a fault has to be found.
// History number N of a run has the seed SEED + N - 1: `quiesce THAT 1 trace` prints its calls. Prints a line at the end.
// Exit status: 0 no fault, 1 a fault, 2 wrong command line.
#include "library_pump.h"

enum {
    TABS = 14,
    PARTITIONS = 3,
    NAMES = 3,
    NUMBERS = 4096,                          // commands of a tab in a history
    QUERIES = 1024,                          // commands of these that are left to the queries at rest
    ENTRIES = TABS * WLB_PAIR_LIVE_NUMBERS,  // entries of a snapshot
    POOL = 256,                              // frames that a compromised tab may send again
    MOVES = 6000000,                         // most moves to a rest
    WHOLE = 1 << 20,                         // length of a piece that is all that a link has
    LOSS = 300,                              // one frame of so many is lost with `lossy`
    SINGLE_CALLS = 8,                        // at the end of a history there are fewer single calls
};

static bool is_lossy, is_traced;
static uint64_t seed;

#define trace(...) ((void)(is_traced && printf(__VA_ARGS__)))

static void fault(const char *what, unsigned tab, unsigned long number) {
    printf("quiesce: seed %llu: tab %u: %s (%lu)\n", (unsigned long long)seed, tab, what, number);
    exit(1);
}

static void require(bool is_so, const char *what, unsigned tab, unsigned long number) {
    if (!is_so) fault(what, tab, number);
}

// ---- Dice

static uint64_t dice_state;

static uint32_t dice(uint32_t below) {
    dice_state += 0x9e3779b97f4a7c15u;
    uint64_t drawn = dice_state;
    drawn = (drawn ^ drawn >> 30) * 0xbf58476d1ce4e5b9u;
    drawn = (drawn ^ drawn >> 27) * 0x94d049bb133111ebu;
    return (uint32_t)((drawn ^ drawn >> 31) % below);
}

// ---- Refused memory. The program is linked by -Wl,--wrap=malloc,--wrap=realloc.

void *__real_malloc(size_t size);
void *__real_realloc(void *old, size_t size);
void *__wrap_malloc(size_t size);
void *__wrap_realloc(void *old, size_t size);

// One call of so many is refused. 0: none is.
static uint32_t refused_share;

static bool is_refused(void) { return refused_share && dice(refused_share) == 0; }

void *__wrap_malloc(size_t size) { return is_refused() ? NULL : __real_malloc(size); }
void *__wrap_realloc(void *old, size_t size) { return is_refused() ? NULL : __real_realloc(old, size); }

// ---- State

typedef struct {
    uint8_t *bytes;
    size_t begin, end, capacity;
} stream;

// Number of a command. A lock is ASKED for, HELD, and then OVER.
typedef struct {
    enum { REQUEST, PROBE, QUERY } kind;
    enum { OVER, ASKED, HELD } state;
    bool shared;
    uint8_t name;
} command;

typedef struct {
    wlb_entry is;
    uint8_t name;
} entry;

typedef struct {
    bool is_open, is_living, is_compromised, is_welcomed, has_channel;
    uint32_t partition, entered, issued, channel, answered;
    stream up, down;
    command commands[NUMBERS];
} page;

// By the numbers of the tabs.
static page pages[TABS + 1];
// The last answer to a query.
static entry snapshot[ENTRIES];
static uint32_t snapshot_length;
static stream pool[POOL];
static uint32_t pooled;

static struct {
    unsigned long rests, partitions, restarts, refused, held, waiting, moves;
} count;

static bool is_honest(uint16_t tab) { return pages[tab].is_living && !pages[tab].is_compromised; }

static void append(stream *to, const uint8_t *bytes, size_t length) {
    if (to->begin == to->end) to->begin = to->end = 0;
    if (to->end + length > to->capacity) {
        to->capacity = (to->end + length) * 2;
        to->bytes = __real_realloc(to->bytes, to->capacity);
    }
    memcpy(to->bytes + to->end, bytes, length);
    to->end += length;
}

static size_t piece_of(const stream *from, size_t most) {
    size_t length = from->end - from->begin;
    return length < most ? length : most;
}

static void empty(stream *one) { one->begin = one->end = 0; }

// Returns whether a call did something: it was refused memory, or has this status.
static bool is_done(int32_t status, int32_t done) {
    if (status == WLB_MEMORY) count.refused++;
    return status == WLB_MEMORY || status == done;
}

// ---- Events

// Returns a command that an event is about. It has to be asked for.
static command *asked_command(uint16_t tab, uint32_t number) {
    command *found = &pages[tab].commands[number];
    require(number < pages[tab].issued && found->state == ASKED, "an event for a command that is over", tab, number);
    return found;
}

static void take_entered(uint16_t tab, const wlb_event *event) {
    uint32_t number;
    pages[tab].entered = event->number;
    for (uint32_t i = 0; i < event->count; i++) {
        expect(WLB_OK, wlb_client_item(&clients[tab], i, &number));
        command *ended = asked_command(tab, number);
        require(ended->kind != REQUEST, "a restart has ended a request", tab, number);
        ended->state = OVER;
    }
}

static void take_snapshot(uint16_t tab, uint32_t length) {
    uint8_t name[WLB_NAME_BYTES];
    size_t name_length;
    require(length <= ENTRIES, "the snapshot is too long", tab, length);
    snapshot_length = length;
    for (uint32_t i = 0; i < length; i++) {
        expect(WLB_OK, wlb_client_entry(&clients[tab], i, &snapshot[i].is, name, sizeof name, &name_length));
        snapshot[i].name = name[0];
    }
}

static void take_event(uint16_t tab, const wlb_event *event) {
    uint32_t number = event->number;
    trace("    tab %u: event %u of %u\n", tab, event->kind, number);
    switch (event->kind) {
    case WLB_WELCOMED: pages[tab].is_welcomed = true; break;
    case WLB_ENTERED: take_entered(tab, event); break;
    case WLB_GRANTED: asked_command(tab, number)->state = HELD; break;
    case WLB_WAITING: asked_command(tab, number); break;
    case WLB_NOT_AVAILABLE: asked_command(tab, number)->state = OVER; break;
    case WLB_LOST: fault("a query was lost", tab, number); break;
    case WLB_ANSWERED:
        asked_command(tab, number)->state = OVER;
        pages[tab].answered = number;
        take_snapshot(tab, event->count);
        break;
    default: break;
    }
}

// ---- Moves. Each returns whether something moved.

static bool hub_sends(void) {
    uint16_t tab;
    size_t length;
    int32_t status = wlb_hub_next_output(&hub, &tab, frame_bytes, sizeof frame_bytes, &length);
    if (status == WLB_OK) {
        trace("  hub sends %zu bytes to tab %u\n", length, tab);
        require(pages[tab].is_living, "a frame for a dead tab", tab, length);
        if (!is_lossy || dice(LOSS)) append(&pages[tab].down, frame_bytes, length);
        return true;
    }
    if (is_done(status, WLB_DROPPED)) return true;
    expect(WLB_IDLE, status);
    return false;
}

static bool hub_advances(void) {
    int32_t status = wlb_hub_advance(&hub);
    trace("  hub advances: %s\n", wlb_status_name(status));
    // A frame of a compromised tab was dropped.
    if (is_done(status, WLB_OK) || status == WLB_BAD_FRAME) return true;
    expect(WLB_IDLE, status);
    return false;
}

static bool hub_receives(uint16_t tab, size_t most) {
    stream *up = &pages[tab].up;
    size_t length = piece_of(up, most);
    if (!pages[tab].is_living || length == 0) return false;
    int32_t status = wlb_hub_receive(&hub, tab, up->bytes + up->begin, length);
    trace("  hub receives %zu bytes of tab %u: %s\n", length, tab, wlb_status_name(status));
    if (status == WLB_BUSY) return false;
    if (status == WLB_BAD_FRAME && pages[tab].is_compromised) {
        empty(up);
        return true;
    }
    if (is_done(status, WLB_OK)) {
        if (status == WLB_OK) up->begin += length;
        return true;
    }
    expect(WLB_OK, status);
    return false;
}

static void keep_in_pool(const uint8_t *bytes, size_t length) {
    stream *place = &pool[pooled < POOL ? pooled++ : dice(POOL)];
    empty(place);
    append(place, bytes, length);
}

static bool client_sends(uint16_t tab) {
    size_t length;
    if (!is_honest(tab)) return false;
    int32_t status = wlb_client_next_output(&clients[tab], frame_bytes, sizeof frame_bytes, &length);
    if (status == WLB_OK) {
        trace("  tab %u sends %zu bytes\n", tab, length);
        append(&pages[tab].up, frame_bytes, length);
        keep_in_pool(frame_bytes, length);
        return true;
    }
    if (is_done(status, WLB_DROPPED)) return true;
    expect(WLB_IDLE, status);
    return false;
}

static bool client_receives(uint16_t tab, size_t most) {
    stream *down = &pages[tab].down;
    size_t length = piece_of(down, most);
    if (!is_honest(tab) || length == 0) return false;
    int32_t status = wlb_client_receive(&clients[tab], down->bytes + down->begin, length);
    trace("  tab %u receives %zu bytes: %s\n", tab, length, wlb_status_name(status));
    if (status == WLB_BUSY || is_done(status, -1)) return status == WLB_MEMORY;
    expect(WLB_OK, status);
    down->begin += length;
    return true;
}

static bool client_advances(uint16_t tab) {
    wlb_event event;
    if (!is_honest(tab)) return false;
    int32_t status = wlb_client_advance(&clients[tab]);
    while (wlb_client_next_event(&clients[tab], &event) == WLB_OK) take_event(tab, &event);
    if (is_done(status, WLB_OK)) return true;
    expect(WLB_IDLE, status);
    return false;
}

static void restart(void) {
    int32_t status = wlb_hub_restart(&hub);
    trace("  hub restarts: %s\n", wlb_status_name(status));
    if (is_done(status, -1)) return;
    expect(WLB_OK, status);
    count.restarts++;
}

static void open_page(uint16_t tab, uint32_t partition, bool is_pair) {
    static const char *const urls[PARTITIONS] = {"https://a.test/", "https://b.test/", "https://c.test/"};
    const uint8_t *url = bytes_of(urls[partition]);
    size_t length = strlen(urls[partition]);
    int32_t status = is_pair ? wlb_hub_open_pair(&hub, tab, url, length, url, length) : wlb_hub_open(&hub, tab, url, length);
    trace("  tab %u opens in partition %u: %s\n", tab, partition, wlb_status_name(status));
    if (is_done(status, -1)) return;
    expect(WLB_OK, status);
    uint32_t share = refused_share;
    refused_share = 0;
    expect(WLB_OK, wlb_client_new(&clients[tab]));
    refused_share = share;
    pages[tab].is_open = pages[tab].is_living = true;
    pages[tab].partition = partition;
}

static void close_page(uint16_t tab) {
    int32_t status = wlb_hub_close(&hub, tab);
    trace("  tab %u is closed: %s\n", tab, wlb_status_name(status));
    if (is_done(status, -1)) return;
    expect(WLB_OK, status);
    pages[tab].is_living = false;
    wlb_client_free(&clients[tab]);
}

// ---- Calls of pages

static void note_command(uint16_t tab, uint32_t number, command made) {
    require(number < NUMBERS, "the history has too many commands", tab, number);
    made.state = ASKED;
    pages[tab].commands[number] = made;
    pages[tab].issued = number + 1;
}

static bool may_call(uint16_t tab) { return is_honest(tab) && pages[tab].issued < NUMBERS - QUERIES; }

static void ask(uint16_t tab, bool is_probe) {
    command made = {.kind = is_probe ? PROBE : REQUEST, .shared = dice(2), .name = (uint8_t)('a' + dice(NAMES))};
    uint32_t number = 0;
    wlb_client *client = &clients[tab];
    if (!may_call(tab)) return;
    int32_t status = is_probe ? wlb_client_probe(client, &made.name, 1, made.shared, &number)
                              : wlb_client_request(client, &made.name, 1, made.shared, &number);
    trace("  tab %u %s %s %c: %s, number %u\n", tab, is_probe ? "probes" : "requests", made.shared ? "shared" : "exclusive",
          made.name, wlb_status_name(status), number);
    if (status == WLB_NOT_WELCOMED || status == WLB_TOO_MANY || is_done(status, -1)) return;
    expect(WLB_OK, status);
    note_command(tab, number, made);
}

static int32_t query(uint16_t tab, uint32_t *number) {
    int32_t status = wlb_client_query(&clients[tab], number);
    trace("  tab %u queries: %s\n", tab, wlb_status_name(status));
    if (status == WLB_OK) note_command(tab, *number, (command){.kind = QUERY});
    return status;
}

static void query_once(uint16_t tab) {
    uint32_t number;
    if (!may_call(tab)) return;
    int32_t status = query(tab, &number);
    if (status == WLB_NOT_WELCOMED || status == WLB_TOO_MANY || is_done(status, WLB_OK)) return;
    expect(WLB_OK, status);
}

// Returns a lock of the tab in this state, or NULL.
static command *drawn_lock(uint16_t tab, int state) {
    page *one = &pages[tab];
    uint32_t first = one->issued ? dice(one->issued) : 0;
    for (uint32_t i = 0; i < one->issued; i++) {
        command *found = &one->commands[(first + i) % one->issued];
        if ((int)found->state == state && found->kind != QUERY) return found;
    }
    return NULL;
}

static uint32_t number_of(uint16_t tab, const command *one) { return (uint32_t)(one - pages[tab].commands); }

static void abort_one(uint16_t tab) {
    command *found = may_call(tab) ? drawn_lock(tab, ASKED) : NULL;
    if (!found) return;
    int32_t status = wlb_client_abort(&clients[tab], number_of(tab, found));
    trace("  tab %u aborts %u: %s\n", tab, number_of(tab, found), wlb_status_name(status));
    if (is_done(status, -1)) return;
    expect(found->kind == PROBE ? WLB_NOTHING : WLB_OK, status);
    if (status == WLB_OK) {
        found->state = OVER;
        pages[tab].issued++;
    }
}

static void release_one(uint16_t tab) {
    command *found = may_call(tab) ? drawn_lock(tab, HELD) : NULL;
    if (!found) return;
    int32_t status = wlb_client_release(&clients[tab], number_of(tab, found));
    trace("  tab %u releases %u: %s\n", tab, number_of(tab, found), wlb_status_name(status));
    if (is_done(status, -1)) return;
    expect(WLB_OK, status);
    found->state = OVER;
    pages[tab].issued++;
}

static void post_one(uint16_t tab) {
    page *one = &pages[tab];
    if (!is_honest(tab)) return;
    if (one->has_channel)
        wlb_client_post(&clients[tab], one->channel, bytes_of("x"), 1);
    else
        one->has_channel = wlb_client_open_channel(&clients[tab], bytes_of("n"), 1, &one->channel) == WLB_OK;
}

// ---- Compromised tabs

static void take_over(uint16_t tab) {
    if (!is_honest(tab) || dice(3)) return;
    trace("  tab %u is compromised\n", tab);
    pages[tab].is_compromised = true;
    wlb_client_free(&clients[tab]);
}

// Sends frames of any tabs again, some with a bit changed.
static void forge(uint16_t tab) {
    stream *up = &pages[tab].up;
    for (uint32_t i = pooled ? dice(6) : 0; i > 0; i--) {
        const stream *frame = &pool[dice(pooled)];
        append(up, frame->bytes, frame->end);
        if (dice(12) == 0) up->bytes[up->begin + dice((uint32_t)(up->end - up->begin))] ^= (uint8_t)(1u << dice(8));
    }
}

static void attack(uint16_t tab) {
    take_over(tab);
    for (uint16_t one = 1; one <= TABS; one++)
        if (pages[one].is_living && pages[one].is_compromised) forge(one);
}

// ---- Rest

// Does one move, drawn at random.
static bool moves_any(void) {
    uint16_t tab = (uint16_t)(1 + dice(TABS));
    size_t most = dice(3) ? WHOLE : 1 + dice(40);
    switch (dice(6)) {
    case 0: return hub_sends();
    case 1: return hub_advances();
    case 2: return hub_receives(tab, most);
    case 3: return client_sends(tab);
    case 4: return client_receives(tab, most);
    default: return client_advances(tab);
    }
}

// Moves all that each link and each handle has once. Returns the number of moves.
static unsigned long moves_all(void) {
    unsigned long moves = 0;
    while (hub_advances()) moves++;
    for (uint16_t tab = 1; tab <= TABS; tab++) {
        moves += client_sends(tab);
        moves += hub_receives(tab, WHOLE);
        while (hub_advances()) moves++;
    }
    while (hub_sends()) moves++;
    for (uint16_t tab = 1; tab <= TABS; tab++) {
        while (client_advances(tab)) moves++;
        moves += client_receives(tab, WHOLE);
        while (client_advances(tab)) moves++;
    }
    return moves;
}

// Moves until nothing moves. A broker is up then.
static void come_to_rest(void) {
    enum { RANDOM_MOVES = 40 };
    wlb_hub_numbers numbers;
    unsigned long moves = 0, now;
    refused_share = 0;
    trace(" coming to rest\n");
    expect(WLB_OK, wlb_hub_status(&hub, &numbers));
    if (numbers.generation == 0) restart();
    do {
        now = 0;
        for (int i = 0; i < RANDOM_MOVES; i++) now += moves_any();
        now += moves_all();
        moves += now;
        require(moves <= MOVES, "the moves to a rest do not end", 0, moves);
    } while (now);
    count.rests++;
    count.moves += moves;
}

static bool is_member(uint16_t tab, uint32_t partition) { return pages[tab].is_living && pages[tab].partition == partition; }

static bool has_compromised_tab(uint32_t partition) {
    for (uint16_t tab = 1; tab <= TABS; tab++)
        if (is_member(tab, partition) && pages[tab].is_compromised) return true;
    return false;
}

static void check_page(uint16_t tab, uint32_t generation) {
    const page *one = &pages[tab];
    require(one->is_welcomed, "not welcomed at rest", tab, 0);
    require(one->entered == generation, "not in the broker's generation at rest", tab, one->entered);
    for (uint32_t i = 0; i < one->issued; i++) {
        bool may_wait = one->commands[i].state != ASKED || one->commands[i].kind == REQUEST;
        require(may_wait, "a probe or a query without its result at rest", tab, i);
    }
}

enum { KEYS = (TABS + 1) * 4 * NAMES };

static uint32_t key_of(uint16_t tab, bool is_shared, bool is_held, uint8_t name) {
    return (tab * 4u + is_shared * 2u + is_held) * NAMES + (name - (uint32_t)'a');
}

// The snapshot has each lock and each request of the partition's clients once, and no more.
static void compare_snapshot(uint32_t partition) {
    int32_t surplus[KEYS] = {0};
    for (uint32_t i = 0; i < snapshot_length; i++) {
        require(snapshot[i].is.tab <= TABS, "a snapshot with an unknown tab", snapshot[i].is.tab, i);
        surplus[key_of(snapshot[i].is.tab, snapshot[i].is.shared, snapshot[i].is.held, snapshot[i].name)]++;
    }
    for (uint16_t tab = 1; tab <= TABS; tab++) {
        const page *one = &pages[tab];
        for (uint32_t i = 0; is_member(tab, partition) && i < one->issued; i++) {
            bool is_held = one->commands[i].state == HELD;
            if (one->commands[i].state == OVER) continue;
            *(is_held ? &count.held : &count.waiting) += 1;
            surplus[key_of(tab, one->commands[i].shared, is_held, one->commands[i].name)]--;
        }
    }
    for (uint32_t key = 0; key < KEYS; key++) {
        uint32_t tab = key / (4 * NAMES), kind = key % (4 * NAMES);
        require(surplus[key] <= 0, "the snapshot has more than the client", tab, kind);
        require(surplus[key] >= 0, "the snapshot has less than the client", tab, kind);
    }
}

// Whether a lock excludes this request, or another request of its name stands before it.
static bool is_obstructed(uint32_t request) {
    for (uint32_t i = 0; i < snapshot_length; i++) {
        if (snapshot[i].name != snapshot[request].name) continue;
        if (snapshot[i].is.held ? !(snapshot[i].is.shared && snapshot[request].is.shared) : i < request) return true;
    }
    return false;
}

static void check_snapshot(uint16_t tab) {
    uint32_t number;
    pages[tab].answered = NUMBERS;
    int32_t status = query(tab, &number);
    if (status == WLB_TOO_MANY) return;
    expect(WLB_OK, status);
    come_to_rest();
    require(pages[tab].answered == number, "a query without an answer at rest", tab, number);
    compare_snapshot(pages[tab].partition);
    for (uint32_t i = 0; i < snapshot_length; i++)
        require(snapshot[i].is.held || is_obstructed(i), "a request waits for nothing at rest", snapshot[i].is.tab, i);
}

static void check_partition(uint32_t partition, uint32_t generation) {
    count.partitions++;
    for (uint16_t tab = 1; tab <= TABS; tab++)
        if (is_member(tab, partition)) check_page(tab, generation);
    for (uint16_t tab = 1; tab <= TABS; tab++)
        if (is_member(tab, partition)) check_snapshot(tab);
}

static void rest(void) {
    wlb_hub_numbers numbers;
    come_to_rest();
    expect(WLB_OK, wlb_hub_status(&hub, &numbers));
    require(numbers.generation && !numbers.untold && !numbers.outputs, "the hub is not at rest", 0, numbers.outputs);
    for (uint32_t partition = 0; partition < PARTITIONS; partition++)
        if (!has_compromised_tab(partition)) check_partition(partition, numbers.generation);
}

// ---- Histories

// What is drawn once a history.
static struct {
    uint16_t tabs, opened;
    uint32_t partitions, pieces, refused_share;
    bool has_bursts;
} plan;

static size_t drawn_piece(void) {
    switch (plan.pieces) {
    case 0: return WHOLE;
    case 1: return 1 + dice(30);
    default: return dice(2) ? WHOLE : 1 + dice(12);
    }
}

static uint16_t drawn_tab(void) { return (uint16_t)(1 + (plan.opened ? dice(plan.opened) : 0)); }

static void open_next(void) {
    if (plan.opened == plan.tabs) return;
    uint16_t tab = plan.opened + 1;
    open_page(tab, dice(plan.partitions), dice(3) == 0);
    if (pages[tab].is_open) plan.opened = tab;
}

static void ask_for_some(uint16_t tab) {
    for (uint32_t i = plan.has_bursts ? 1 + dice(90) : 1; i > 0; i--) ask(tab, false);
}

static void release_some(uint16_t tab) {
    for (uint32_t i = plan.has_bursts ? 1 + dice(60) : 1; i > 0; i--) release_one(tab);
}

enum action {
    OPENS, CLOSES, RESTARTS, HUB_RECEIVES, HUB_ADVANCES, HUB_SENDS, CLIENT_RECEIVES, CLIENT_ADVANCES, CLIENT_SENDS,
    REQUESTS, PROBES, QUERIES_ONCE, ABORTS, RELEASES, RESENDS, POSTS, ATTACKS, RESTS, ACTIONS
};

static void act(enum action what, uint16_t tab) {
    switch (what) {
    case OPENS: open_next(); break;
    case CLOSES: if (pages[tab].is_living) close_page(tab); break;
    case RESTARTS: restart(); break;
    case HUB_RECEIVES: hub_receives(tab, drawn_piece()); break;
    case HUB_ADVANCES: hub_advances(); break;
    case HUB_SENDS: hub_sends(); break;
    case CLIENT_RECEIVES: client_receives(tab, drawn_piece()); break;
    case CLIENT_ADVANCES: client_advances(tab); break;
    case CLIENT_SENDS: client_sends(tab); break;
    case REQUESTS: ask_for_some(tab); break;
    case PROBES: ask(tab, true); break;
    case QUERIES_ONCE: query_once(tab); break;
    case ABORTS: abort_one(tab); break;
    case RELEASES: release_some(tab); break;
    case RESENDS: if (is_honest(tab) && dice(4) == 0) wlb_client_resend(&clients[tab]); break;
    case POSTS: if (dice(4) == 0) post_one(tab); break;
    case ATTACKS: attack(tab); break;
    case RESTS: rest(); break;
    case ACTIONS: break;
    }
}

// Draws how often each action comes, and returns the sum.
static uint32_t draw_weights(uint32_t *weights) {
    uint32_t sum = 0;
    for (int what = 0; what < ACTIONS; what++) weights[what] = dice(3) ? 1 + dice(20) : dice(3) ? 1 : 60;
    weights[OPENS] = 1 + dice(6);
    weights[CLOSES] = dice(2) ? dice(4) : 0;
    weights[RESTARTS] = dice(3) ? dice(5) : dice(30);
    weights[ATTACKS] = dice(3) ? 0 : 1;
    weights[RESTS] = dice(4) ? 0 : 1 + dice(2);
    for (int what = 0; what < ACTIONS; what++) sum += weights[what];
    return sum;
}

static enum action drawn_action(const uint32_t *weights, uint32_t sum) {
    uint32_t drawn = dice(sum);
    int what = 0;
    while (drawn >= weights[what]) drawn -= weights[what++];
    return (enum action)what;
}

static void forget_page(uint16_t tab) {
    page *one = &pages[tab];
    stream up = one->up, down = one->down;
    wlb_client_free(&clients[tab]);
    memset(one, 0, offsetof(page, commands));
    empty(&up), empty(&down);
    one->up = up, one->down = down;
}

static void begin(void) {
    for (uint16_t tab = 1; tab <= TABS; tab++) forget_page(tab);
    for (uint16_t tab = 1; tab <= TABS; tab++) memset(pages[tab].commands, 0, sizeof pages[tab].commands);
    pooled = 0;
    refused_share = 0;
    expect(WLB_OK, wlb_hub_new(&hub));
    plan.tabs = (uint16_t)(2 + dice(TABS - 1));
    plan.opened = 0;
    plan.partitions = dice(2) ? 1 : 1 + dice(PARTITIONS);
    plan.has_bursts = dice(60) == 0;
    plan.pieces = dice(3);
    plan.refused_share = dice(3) ? 0 : 5 + dice(60);
}

static void play(void) {
    uint32_t weights[ACTIONS];
    dice_state = seed * 0x2545f4914f6cdd1du + 1;
    begin();
    uint32_t sum = draw_weights(weights), steps = 20 + dice(dice(50) ? 300 : 2500);
    for (uint32_t i = 0; i < steps; i++) {
        refused_share = plan.refused_share;
        act(drawn_action(weights, sum), drawn_tab());
    }
    refused_share = 0;
    for (uint16_t tab = 1; tab <= TABS; tab++)
        if (pages[tab].is_living && pages[tab].is_compromised && dice(2)) close_page(tab);
    rest();
    for (uint32_t i = dice(SINGLE_CALLS); i > 0; i--) {
        static const enum action calls[] = {CLOSES, REQUESTS, ABORTS, ABORTS, RELEASES};
        act(calls[dice(sizeof calls / sizeof *calls)], drawn_tab());
        rest();
    }
}

int main(int argc, char **argv) {
    is_lossy = argc == 4 && strcmp(argv[3], "lossy") == 0;
    is_traced = argc == 4 && strcmp(argv[3], "trace") == 0;
    unsigned long histories = argc == 3 || is_lossy || is_traced ? strtoul(argv[2], NULL, 10) : 0;
    if (histories == 0) {
        fputs("usage: quiesce SEED HISTORIES [lossy | trace]\n", stderr);
        return 2;
    }
    seed = strtoull(argv[1], NULL, 10);
    for (unsigned long i = 0; i < histories; i++, seed++) play();
    printf("%lu histories, %lu rests, %lu moves, %lu restarts, %lu calls without memory; ", histories, count.rests, count.moves,
           count.restarts, count.refused);
    printf("%lu partitions at rest with %lu held and %lu waiting\n", count.partitions, count.held, count.waiting);
    return 0;
}
