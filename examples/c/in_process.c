// Hub and three clients of `wlb` in one process: their bytes go from one to the other by calls. A lock is handed on; a tab dies
// while it holds the lock; the broker restarts while a lock is held; a tab queries the locks; a tab posts to the others.
//
// Prints each event of a tab that its page can see. Ends with status 1 at the first call that returns an unexpected status.
#include "wlb.h"

#include <stdio.h>
#include <stdlib.h>
#include <string.h>

enum { TABS = 3 };

#define ORIGIN "https://a.test/"

static wlb_hub hub = WLB_EMPTY;
static wlb_client clients[TABS + 1]; // by tab number
static uint8_t frame[WLB_FRAME_BYTES];

// Ends the program if a call has not returned this status. Out of memory is an unexpected status here.
#define expect(status, call) check(status, call, #call)

static void check(int32_t wanted, int32_t status, const char *call) {
    if (status == wanted) return;
    printf("%s returned %s, not %s\n", call, wlb_status_name(status), wlb_status_name(wanted));
    exit(1);
}

static const uint8_t *bytes(const char *text) { return (const uint8_t *)text; }

// ---- Events

// Prints the entries of a snapshot.
static void print_snapshot(uint16_t tab, uint32_t count) {
    for (uint32_t i = 0; i < count; i++) {
        wlb_entry entry;
        uint8_t name[WLB_NAME_BYTES];
        size_t length;
        expect(WLB_OK, wlb_client_entry(&clients[tab], i, &entry, name, sizeof name, &length));
        printf("tab %d:   tab %d %s %.*s, %s\n", tab, entry.tab, entry.held ? "holds" : "waits for", (int)length, (char *)name,
               entry.shared ? "shared" : "exclusive");
    }
}

// Reads a post from each channel that has one.
static void print_posts(uint16_t tab, uint32_t count) {
    for (uint32_t i = 0; i < count; i++) {
        uint32_t channel;
        uint16_t source;
        uint8_t data[WLB_DATA_BYTES];
        size_t length;
        expect(WLB_OK, wlb_client_item(&clients[tab], i, &channel));
        expect(WLB_OK, wlb_client_read(&clients[tab], channel, &source, data, sizeof data, &length));
        printf("tab %d: reads \"%.*s\" of tab %d\n", tab, (int)length, (char *)data, source);
    }
}

static void print_events(uint16_t tab) {
    wlb_event event;
    int32_t status;
    while ((status = wlb_client_next_event(&clients[tab], &event)) == WLB_OK) {
        unsigned number = event.number;
        switch (event.kind) {
        case WLB_WELCOMED: printf("tab %d: welcomed as tab %u\n", tab, number); break;
        case WLB_ENTERED: printf("tab %d: enters generation %u\n", tab, number); break;
        case WLB_GRANTED: printf("tab %d: granted #%u\n", tab, number); break;
        case WLB_WAITING: printf("tab %d: waits for #%u\n", tab, number); break;
        case WLB_NOT_AVAILABLE: printf("tab %d: not available #%u\n", tab, number); break;
        case WLB_LOST: printf("tab %d: lost #%u\n", tab, number); break;
        case WLB_ANSWERED:
            printf("tab %d: answered #%u\n", tab, number);
            print_snapshot(tab, event.count);
            break;
        case WLB_POSTED: print_posts(tab, event.count); break;
        default: break;
        }
    }
    check(WLB_IDLE, status, "wlb_client_next_event");
}

// ---- Bytes

// Gives each frame of the tab to the hub. Returns whether there was one.
static bool send_up(uint16_t tab) {
    bool has_sent = false;
    size_t length;
    int32_t status;
    while ((status = wlb_client_next_output(&clients[tab], frame, sizeof frame, &length)) != WLB_IDLE) {
        if (status == WLB_DROPPED) continue;
        check(WLB_OK, status, "wlb_client_next_output");
        expect(WLB_OK, wlb_hub_receive(&hub, tab, frame, length));
        while ((status = wlb_hub_advance(&hub)) == WLB_OK) {}
        check(WLB_IDLE, status, "wlb_hub_advance");
        has_sent = true;
    }
    return has_sent;
}

// Gives each frame of the hub to its tab. Returns whether there was one.
static bool send_down(void) {
    bool has_sent = false;
    uint16_t tab;
    size_t length;
    int32_t status;
    while ((status = wlb_hub_next_output(&hub, &tab, frame, sizeof frame, &length)) != WLB_IDLE) {
        if (status == WLB_DROPPED) continue;
        check(WLB_OK, status, "wlb_hub_next_output");
        expect(WLB_OK, wlb_client_receive(&clients[tab], frame, length));
        while ((status = wlb_client_advance(&clients[tab])) == WLB_OK) {}
        check(WLB_IDLE, status, "wlb_client_advance");
        print_events(tab);
        has_sent = true;
    }
    return has_sent;
}

// Passes frames on until there are none.
static void settle(void) {
    bool has_sent = true;
    while (has_sent) {
        has_sent = false;
        for (uint16_t tab = 1; tab <= TABS; tab++)
            if (wlb_hub_is_living(&hub, tab)) has_sent |= send_up(tab);
        has_sent |= send_down();
    }
}

// ---- Story

static uint32_t request(uint16_t tab, const char *name) {
    uint32_t number;
    expect(WLB_OK, wlb_client_request(&clients[tab], bytes(name), strlen(name), false, &number));
    settle();
    return number;
}

int main(void) {
    puts("-- three tabs open, and the first broker starts");
    expect(WLB_OK, wlb_hub_new(&hub));
    for (uint16_t tab = 1; tab <= TABS; tab++) {
        expect(WLB_OK, wlb_client_new(&clients[tab]));
        expect(WLB_OK, wlb_hub_open(&hub, tab, bytes(ORIGIN), strlen(ORIGIN)));
    }
    expect(WLB_OK, wlb_hub_restart(&hub));
    settle();

    puts("-- tab 1 hands the lock on to tab 2");
    uint32_t first = request(1, "db"), second = request(2, "db");
    expect(WLB_OK, wlb_client_release(&clients[1], first));
    settle();

    puts("-- the broker restarts while tab 2 holds the lock and tab 3 waits for it");
    uint32_t third = request(3, "db");
    expect(WLB_OK, wlb_hub_restart(&hub));
    settle();
    expect(WLB_HELD, wlb_client_abort(&clients[2], second));

    puts("-- tab 2 dies: tab 3 gets the lock");
    wlb_client_free(&clients[2]);
    expect(WLB_OK, wlb_hub_close(&hub, 2));
    int32_t status;
    while ((status = wlb_hub_advance(&hub)) == WLB_OK) {}
    check(WLB_IDLE, status, "wlb_hub_advance");
    settle();
    expect(WLB_NO_HANDLE, wlb_client_release(&clients[2], second));

    puts("-- tab 1 requests the lock, probes for it, and queries");
    uint32_t fourth = request(1, "db"), number;
    expect(WLB_OK, wlb_client_probe(&clients[1], bytes("db"), 2, true, &number));
    expect(WLB_OK, wlb_client_query(&clients[1], &number));
    settle();
    expect(WLB_OK, wlb_client_abort(&clients[1], fourth));
    settle();

    puts("-- tab 3 posts to tab 1");
    uint32_t ear, mouth;
    expect(WLB_OK, wlb_client_open_channel(&clients[1], bytes("news"), 4, &ear));
    expect(WLB_OK, wlb_client_open_channel(&clients[3], bytes("news"), 4, &mouth));
    expect(WLB_OK, wlb_client_post(&clients[3], mouth, bytes("hello"), 5));
    settle();

    puts("-- tab 3 gives the lock up, and nobody holds one");
    expect(WLB_OK, wlb_client_release(&clients[3], third));
    settle();
    expect(WLB_OK, wlb_client_query(&clients[1], &number));
    settle();

    wlb_hub_numbers numbers;
    expect(WLB_OK, wlb_hub_status(&hub, &numbers));
    printf("-- generation %u, %u living tabs\n", (unsigned)numbers.generation, (unsigned)numbers.living);
    for (uint16_t tab = 1; tab <= TABS; tab++) wlb_client_free(&clients[tab]);
    wlb_hub_free(&hub);
    expect(WLB_NO_HANDLE, wlb_hub_advance(&hub));
    return 0;
}
