// Gives the C libraries random and mutated bytes, for a run under a sanitizer.
//
//     fuzz_library hub SEED MEGABYTES
//     fuzz_library client SEED MEGABYTES
//
// `hub`: a tab of partition A is compromised. It sends frames in order and out of order, with fields at and over their limits,
// frames of kinds that no tab may send, and noise; a third of the chunks is mutated. Four honest tabs of partition B hold locks
// and wait for one, and an honest tab of A stands beside the compromised one. Now and then the broker restarts. After each chunk
// a tab of B queries: its snapshot has to have the same entries as at the beginning, and no tab of B may receive a post. A tab
// that sends a bad frame is closed, and another one is compromised.
//
// `client`: a client receives such frames of the hub, while its page makes random calls. It may be granted only a lock that the
// page has asked for and has not given up. After a bad frame a new client takes its place.
//
// A call may return only the statuses that wlb.h names. Prints a line at the end. Exit status: 0 no fault, 1 a fault, 2 wrong
// command line.
#include "library_pump.h"

enum { CHUNK = 70000, NUMBERS = 4096 };

// ---- Dice

static uint64_t dice_state;

static uint32_t dice(uint32_t below) {
    dice_state ^= dice_state << 13;
    dice_state ^= dice_state >> 7;
    dice_state ^= dice_state << 17;
    return (uint32_t)((dice_state >> 16) % below);
}

// Ends the program if a status is not among these, whose bits are set.
#define among(statuses, status) check_among(statuses, status, #status, __LINE__)
#define BIT(status) (1u << (status))

static int32_t check_among(uint32_t statuses, int32_t status, const char *call, int line) {
    if (status >= 0 && status < 32 && statuses >> status & 1) return status;
    printf("fuzz_library.c:%d: %s is %d\n", line, call, (int)status);
    exit(1);
}

static void require(bool is_so, const char *what) {
    if (is_so) return;
    printf("fuzz_library: %s\n", what);
    exit(1);
}

// ---- Frames

static uint8_t chunk[CHUNK];
static size_t chunk_length;

static void put8(uint32_t value) { chunk[chunk_length++] = (uint8_t)value; }
static void put16(uint32_t value) { put8(value >> 8), put8(value); }
static void put32(uint32_t value) { put16(value >> 16), put16(value); }

static void put_noise(size_t count) {
    for (size_t i = 0; i < count; i++) put8(dice(256));
}

static void put_name(void) {
    static const char *const names[] = {"", "x", "s", "n", "f-", "-f", "\xc3\xa4", "\xff"};
    if (dice(20) == 0) {
        put8(255);
        for (int i = 0; i < 255; i++) put8('x');
        return;
    }
    const char *name = names[dice(20) ? dice(5) : dice(8)];
    put8((uint32_t)strlen(name));
    while (*name) put8((uint8_t)*name++);
}

static void put_data(void) {
    uint32_t length = dice(50) ? dice(20) : dice(WLB_DATA_BYTES + 2);
    put16(length);
    put_noise(length);
}

static uint32_t generation, next_number;

static void put_generation(void) { put32(dice(20) ? generation : generation + dice(3) - 1); }
// A tab is at least 1.
static void put_tab(void) { put16(dice(40) ? 1 + dice(9) : dice(65536)); }
static void put_number(void) { put32(dice(10) ? dice(next_number + 2) : dice(2) ? next_number : UINT32_MAX - dice(3)); }

static void put_command(void) {
    uint32_t operation = dice(30) ? 1 + dice(4) : dice(256);
    put_generation();
    put32(dice(10) ? next_number++ : dice(next_number + 3));
    put8(operation);
    if (operation == 1) put8(dice(30) ? 1 + dice(2) : dice(256)), put8(dice(30) ? dice(2) : dice(256)), put_name();
    if (operation == 2 || operation == 3) put_number();
}

static void put_entries(void) {
    uint32_t count = dice(3) ? dice(4) : dice(66), number = 0;
    put16(count);
    for (uint32_t i = 0; i < count; i++) {
        put32(number);
        number += dice(20) ? 1 + dice(3) : 0;
        put8(1 + dice(2)), put8(1 + dice(2)), put_name();
    }
}

static void put_post(void) { put32(dice(3) ? next_number++ : dice(256)), put_name(), put_data(); }

static void put_snapshot(void) {
    uint32_t parts = 1 + dice(3), count = dice(5);
    put_generation(), put_number();
    put16(dice(parts)), put16(parts), put16(count);
    for (uint32_t i = 0; i < count; i++) put8(1 + dice(2)), put_tab(), put8(1 + dice(2)), put_name();
}

static void put_origin(void) {
    static const char origin[] = "https://a.test";
    put16(sizeof origin - 1);
    for (size_t i = 0; i < sizeof origin - 1; i++) put8((uint8_t)origin[i]);
}

// Appends a body of this version and kind.
static void put_body(uint32_t version, uint32_t kind) {
    uint32_t parts = 1 + dice(17);
    put8(version), put8(kind);
    switch (version << 8 | kind) {
    case 0x101: put_command(); break;
    case 0x102: put_generation(), put32(dice(3) ? next_number : dice(256)), put_entries(); break;
    case 0x202: put_generation(), put32(next_number), put16(dice(parts)), put16(parts), put_entries(); break;
    case 0x103: put_post(); break;
    case 0x110: put32(dice(3) ? generation : ++generation); break;
    case 0x111: put_generation(), put_number(), put_number(), put8(dice(30) ? 1 + dice(4) : dice(256)); break;
    case 0x112: put_snapshot(); break;
    case 0x113: put_tab(), put_post(); break;
    case 0x114: put_tab(), put_origin(); break;
    case 0x214: put_tab(), put_origin(), put_origin(); break;
    case 0x120: put_tab(), put16(1 + dice(3)), put8(1), put8(1), put_command(); break;
    case 0x121: put_generation(), put16(2), put16(1), put16(1), put16(2), put16(1); break;
    case 0x122: put_tab(), put8(1), put8(17), put_generation(), put_number(), put_number(), put8(2); break;
    case 0x123: put_tab(); break;
    default: put_noise(dice(40)); break;
    }
}

static void put_frame(uint32_t version, uint32_t kind) {
    size_t at = chunk_length;
    put32(0);
    put_body(version, kind);
    size_t length = chunk_length - at - 4;
    for (int i = 0; i < 4; i++) chunk[at + (size_t)i] = (uint8_t)(length >> (24 - 8 * i));
}

static void put_any_frame(void) {
    static const uint8_t kinds[] = {1, 2, 3, 16, 17, 18, 19, 20, 32, 33, 34, 35};
    put_frame(1 + dice(2), dice(5) ? kinds[dice(sizeof kinds)] : dice(256));
}

// Changes bytes, or takes bytes out, at a place.
static void mutate(void) {
    if (chunk_length == 0) return;
    size_t at = dice((uint32_t)chunk_length), count = 1 + dice(6);
    if (count > chunk_length - at) count = chunk_length - at;
    switch (dice(4)) {
    case 0: chunk[at] ^= (uint8_t)(1u << dice(8)); break;
    case 1: chunk[at] = (uint8_t)dice(256); break;
    case 2:
        memmove(chunk + at, chunk + at + count, chunk_length - at - count);
        chunk_length -= count;
        break;
    default: chunk_length = at; break;
    }
}

// Makes a chunk of up to twenty frames, each by this function or of any kind. The largest frame fits in the last third.
static void make_chunk(void (*put)(void)) {
    chunk_length = 0;
    for (uint32_t i = dice(20) + 1; i > 0 && chunk_length < CHUNK / 3; i--) {
        if (dice(60))
            put();
        else
            put_any_frame();
    }
    if (dice(40) == 0) put_noise(dice(64));
    if (dice(3) == 0)
        for (uint32_t i = dice(4); i > 0; i--) mutate();
}

// ---- The hub

enum { B_TABS = 4, A_TAB = 5 };

static const char A_URL[] = "https://a.test/", B_URL[] = "https://b.test/";
static uint32_t attacker;
static unsigned long chunks, closed, restarts, hubs;

static void put_upward(void) {
    uint32_t what = dice(20);
    if (what < 14)
        put_frame(1, 1);
    else if (what < 16)
        put_frame(1, 2);
    else if (what < 17)
        put_frame(2, 2);
    else
        put_frame(1, 3);
}

static void open_attacker(void) {
    attacker++;
    next_number = 0;
    expect(WLB_OK, wlb_hub_open(&hub, (uint16_t)attacker, bytes_of(A_URL), strlen(A_URL)));
    send_down();
    // It begins as an honest tab does in most cases.
    if (dice(8)) {
        // A report: no command was issued, and there are no entries.
        chunk_length = 0;
        put32(12), put8(1), put8(2), put32(generation), put32(0), put16(0);
        expect(WLB_OK, wlb_hub_receive(&hub, (uint16_t)attacker, chunk, chunk_length));
        advance_hub();
        send_down();
    }
}

static uint32_t request(uint16_t tab, const char *name, bool shared) {
    uint32_t number;
    expect(WLB_OK, wlb_client_request(&clients[tab], bytes_of(name), strlen(name), shared, &number));
    pass(tab);
    return number;
}

static int by_line(const void *a, const void *b) { return strcmp(a, b); }

// Writes the sorted lines of a snapshot that a tab of B has queried.
static void query(char *text, size_t capacity) {
    static char lines[16][300];
    uint32_t number;
    size_t length, at = 0;
    expect(WLB_OK, wlb_client_query(&clients[1], &number));
    pass(1);
    uint32_t count = last_of(1, WLB_ANSWERED).count;
    require(count <= 16, "a snapshot of partition B has too many entries");
    for (uint32_t i = 0; i < count; i++) {
        wlb_entry entry;
        uint8_t name[WLB_NAME_BYTES];
        expect(WLB_OK, wlb_client_entry(&clients[1], i, &entry, name, sizeof name, &length));
        snprintf(lines[i], sizeof lines[i], "%d %d %d %.*s\n", entry.tab, entry.shared, entry.held, (int)length, (char *)name);
    }
    qsort(lines, count, sizeof lines[0], by_line);
    text[0] = 0;
    for (uint32_t i = 0; i < count; i++) at += (size_t)snprintf(text + at, capacity - at, "%s", lines[i]);
}

static char wanted[1024];

static void begin_hub(void) {
    hubs++;
    generation = 1;
    for (uint16_t tab = 1; tab <= A_TAB; tab++) wlb_client_free(&clients[tab]);
    expect(WLB_OK, wlb_hub_new(&hub));
    expect(WLB_OK, wlb_hub_restart(&hub));
    for (uint16_t tab = 1; tab <= B_TABS; tab++) open_client(tab, B_URL);
    open_client(A_TAB, A_URL);
    send_down();
    uint32_t channel;
    for (uint16_t tab = 1; tab <= A_TAB; tab++) {
        expect(WLB_OK, wlb_client_open_channel(&clients[tab], bytes_of("n"), 1, &channel));
        expect(WLB_OK, wlb_client_open_channel(&clients[tab], NULL, 0, &channel));
    }
    request(1, "x", false), request(2, "s", true), request(3, "s", true), request(4, "x", false), request(A_TAB, "x", false);
    attacker = A_TAB;
    open_attacker();
    query(wanted, sizeof wanted);
}

// Takes what has come to the honest tabs. Partition B hears no post, and gets and loses no lock.
static void look_at_events(void) {
    for (uint16_t tab = 1; tab <= A_TAB; tab++) {
        wlb_event event;
        while (wlb_client_next_event(&clients[tab], &event) == WLB_OK) {
            if (tab <= B_TABS) require(event.kind != WLB_POSTED, "a tab of partition B has received a post of partition A");
            if (event.kind != WLB_POSTED) continue;
            for (uint32_t i = 0; i < event.count; i++) {
                uint32_t channel;
                uint16_t source;
                size_t length;
                expect(WLB_OK, wlb_client_item(&clients[tab], i, &channel));
                among(BIT(WLB_OK) | BIT(WLB_IDLE),
                      wlb_client_read(&clients[tab], channel, &source, frame_bytes, sizeof frame_bytes, &length));
            }
        }
    }
}

// Gives the chunk to the hub in pieces. Returns whether the hub wants the tab closed.
static bool give_to_hub(void) {
    bool is_bad = false;
    for (size_t at = 0, count; at < chunk_length && !is_bad; at += count) {
        count = 1 + dice(dice(4) ? 5000 : 7);
        if (count > chunk_length - at) count = chunk_length - at;
        uint32_t statuses = BIT(WLB_OK) | BIT(WLB_BAD_FRAME);
        is_bad = among(statuses, wlb_hub_receive(&hub, (uint16_t)attacker, chunk + at, count)) == WLB_BAD_FRAME;
        int32_t status;
        do {
            status = among(statuses | BIT(WLB_IDLE), wlb_hub_advance(&hub));
            if (status == WLB_BAD_FRAME) is_bad = true;
        } while (status != WLB_IDLE);
    }
    return is_bad;
}

static void fuzz_hub(double bytes) {
    char found[1024];
    begin_hub();
    for (double given = 0; given < bytes; chunks++) {
        make_chunk(put_upward);
        bool is_bad = give_to_hub();
        given += (double)chunk_length;
        send_down();
        if (is_bad || dice(200) == 0) {
            expect(WLB_OK, wlb_hub_close(&hub, (uint16_t)attacker));
            advance_hub();
            send_down();
            closed++;
            if (attacker == WLB_LAST_TAB)
                begin_hub();
            else
                open_attacker();
        }
        if (dice(100) == 0) {
            expect(WLB_OK, wlb_hub_restart(&hub));
            generation++;
            restarts++;
            send_down();
        }
        look_at_events();
        query(found, sizeof found);
        if (strcmp(found, wanted)) {
            printf("fuzz_library: the snapshot of partition B is\n%snot\n%s", found, wanted);
            exit(1);
        }
    }
    for (uint16_t tab = 1; tab <= A_TAB; tab++) wlb_client_free(&clients[tab]);
    wlb_hub_free(&hub);
    printf("hub: %lu chunks, %lu tabs closed, %lu restarts, %lu hubs\n", chunks, closed, restarts, hubs);
}

// ---- The client

// For each number of a command whether its lock may be granted.
static bool is_asked[NUMBERS];
static uint32_t channels_opened;
static unsigned long begun, events, granted;
static wlb_client *const client = &clients[0];

static void put_downward(void) {
    uint32_t what = dice(20);
    if (what < 2)
        put_frame(1, 16);
    else if (what < 14)
        put_frame(1, 17);
    else if (what < 17)
        put_frame(1, 18);
    else
        put_frame(1, 19);
}

static void begin_client(void) {
    begun++;
    generation = next_number = channels_opened = 0;
    memset(is_asked, 0, sizeof is_asked);
    expect(WLB_OK, wlb_client_new(client));
    chunk_length = 0;
    if (dice(10)) put_frame(1 + dice(2), 20);
    expect(WLB_OK, wlb_client_receive(client, chunk, chunk_length));
    advance_client(client);
    generation = 1;
}

static void ask(void) {
    static const char *const names[] = {"", "x", "s", "-f", "\xff"};
    const char *name = names[dice(5)];
    uint32_t number, statuses = BIT(WLB_OK) | BIT(WLB_NOT_WELCOMED) | BIT(WLB_TOO_MANY) | BIT(WLB_NUMBERS_USED_UP);
    uint32_t of_names = statuses | BIT(WLB_BAD_TEXT) | BIT(WLB_NOT_SUPPORTED);
    bool is_query = dice(3) == 0;
    int32_t status;
    if (is_query)
        status = among(statuses, wlb_client_query(client, &number));
    else if (dice(2))
        status = among(of_names, wlb_client_request(client, bytes_of(name), strlen(name), dice(2), &number));
    else
        status = among(of_names, wlb_client_probe(client, bytes_of(name), strlen(name), dice(2), &number));
    if (status == WLB_OK && number < NUMBERS) is_asked[number] = !is_query;
    if (status == WLB_OK) next_number = number + 1;
}

static void give_up(void) {
    uint32_t number = dice(next_number + 2), statuses = BIT(WLB_OK) | BIT(WLB_NOT_WELCOMED) | BIT(WLB_NOTHING);
    int32_t status = dice(2) ? among(statuses | BIT(WLB_HELD), wlb_client_abort(client, number))
                             : among(statuses, wlb_client_release(client, number));
    if (status == WLB_OK && number < NUMBERS) is_asked[number] = false;
}

static void use_channels(void) {
    uint32_t channel = dice(channels_opened + 2), statuses = BIT(WLB_OK) | BIT(WLB_NOT_WELCOMED) | BIT(WLB_NO_CHANNEL);
    uint16_t source;
    size_t length;
    switch (dice(4)) {
    case 0:
        if (among(BIT(WLB_OK) | BIT(WLB_NOT_WELCOMED) | BIT(WLB_TOO_MANY_CHANNELS),
                  wlb_client_open_channel(client, bytes_of("x"), 1, &channel)) == WLB_OK)
            channels_opened = channel + 1;
        break;
    case 1:
        among(statuses | BIT(WLB_CLOSED) | BIT(WLB_POSTS_USED_UP), wlb_client_post(client, channel, chunk, dice(100)));
        break;
    case 2:
        among(statuses | BIT(WLB_CLOSED) | BIT(WLB_IDLE),
              wlb_client_read(client, channel, &source, frame_bytes, sizeof frame_bytes, &length));
        break;
    default: among(statuses, wlb_client_close_channel(client, channel)); break;
    }
}

static void look_at_event(const wlb_event *event) {
    uint32_t number;
    size_t length;
    wlb_entry entry;
    bool has_items = event->kind == WLB_ENTERED || event->kind == WLB_POSTED, has_entries = event->kind == WLB_ANSWERED;
    events++;
    if (event->kind == WLB_GRANTED) {
        granted++;
        require(event->number >= NUMBERS || is_asked[event->number], "a lock was granted that was not asked for");
    }
    for (uint32_t i = 0; i <= event->count; i++) {
        expect(has_items && i < event->count ? WLB_OK : WLB_NOTHING, wlb_client_item(client, i, &number));
        expect(has_entries && i < event->count ? WLB_OK : WLB_NOTHING,
               wlb_client_entry(client, i, &entry, frame_bytes, sizeof frame_bytes, &length));
    }
}

// Takes the client's events, lets its page make random calls, and takes its output.
static void use_client(void) {
    wlb_event event;
    size_t length;
    while (among(BIT(WLB_OK) | BIT(WLB_IDLE), wlb_client_next_event(client, &event)) == WLB_OK) look_at_event(&event);
    for (uint32_t i = dice(6); i > 0; i--) {
        uint32_t what = dice(10);
        if (what < 4)
            ask();
        else if (what < 7)
            give_up();
        else if (what < 9)
            use_channels();
        else
            among(BIT(WLB_OK) | BIT(WLB_NOT_WELCOMED), wlb_client_resend(client));
    }
    uint32_t statuses = BIT(WLB_OK) | BIT(WLB_IDLE) | BIT(WLB_DROPPED);
    int32_t status;
    while ((status = among(statuses, wlb_client_next_output(client, frame_bytes, sizeof frame_bytes, &length))) != WLB_IDLE) {
        if (status == WLB_DROPPED) continue;
        size_t body = (size_t)frame_bytes[0] << 24 | (size_t)frame_bytes[1] << 16 | (size_t)frame_bytes[2] << 8 | frame_bytes[3];
        require(body + 4 == length, "the output of a client is not one frame");
    }
}

static void fuzz_client(double bytes) {
    begin_client();
    for (double given = 0; given < bytes; chunks++) {
        make_chunk(put_downward);
        bool is_bad = false;
        for (size_t at = 0, count; at < chunk_length && !is_bad; at += count) {
            count = 1 + dice(dice(4) ? 5000 : 7);
            if (count > chunk_length - at) count = chunk_length - at;
            uint32_t statuses = BIT(WLB_OK) | BIT(WLB_BAD_FRAME);
            is_bad = among(statuses, wlb_client_receive(client, chunk + at, count)) == WLB_BAD_FRAME;
            int32_t status;
            do {
                status = among(statuses | BIT(WLB_IDLE), wlb_client_advance(client));
                if (status == WLB_BAD_FRAME) is_bad = true;
            } while (status != WLB_IDLE);
        }
        given += (double)chunk_length;
        use_client();
        if (is_bad || dice(500) == 0) begin_client();
    }
    wlb_client_free(client);
    printf("client: %lu chunks, %lu clients, %lu events, %lu grants\n", chunks, begun, events, granted);
}

int main(int argc, char **argv) {
    bool is_hub = argc == 4 && strcmp(argv[1], "hub") == 0, is_client = argc == 4 && strcmp(argv[1], "client") == 0;
    double bytes = is_hub || is_client ? strtod(argv[3], NULL) * 1e6 : 0;
    if (bytes <= 0) {
        fputs("usage: fuzz_library hub|client SEED MEGABYTES\n", stderr);
        return 2;
    }
    // Neighbouring seeds begin far from each other. The state is never 0.
    dice_state = (strtoull(argv[2], NULL, 10) + 1) * 0x9e3779b97f4a7c15u | 1;
    if (is_hub)
        fuzz_hub(bytes);
    else
        fuzz_client(bytes);
    return 0;
}
