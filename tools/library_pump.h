// Hub and clients of `wlb` in one process, for the programs that check and measure the C libraries: their bytes go from one to
// the other by calls. A call with an unexpected status ends the program.
#ifndef LIBRARY_PUMP_H
#define LIBRARY_PUMP_H

#include "wlb.h"

#include <stdio.h>
#include <stdlib.h>
#include <string.h>

// Clients, by the numbers of their tabs. A place without a client has a handle that holds nothing.
enum { CLIENTS = 1025 };

static wlb_hub hub = WLB_EMPTY;
static wlb_client clients[CLIENTS];
static uint8_t frame_bytes[WLB_FRAME_BYTES];

// Ends the program if a call has not returned this status.
#define expect(status, call) check(status, call, #call, __FILE__, __LINE__)

static inline void check(int32_t wanted, int32_t status, const char *call, const char *file, int line) {
    if (status == wanted) return;
    printf("%s:%d: %s is %d, not %d\n", file, line, call, (int)status, (int)wanted);
    exit(1);
}

static inline const uint8_t *bytes_of(const char *text) { return (const uint8_t *)text; }

// Lets the hub handle all that it has received.
static inline void advance_hub(void) {
    int32_t status;
    while ((status = wlb_hub_advance(&hub)) == WLB_OK) {}
    expect(WLB_IDLE, status);
}

static inline void advance_client(wlb_client *client) {
    int32_t status;
    while ((status = wlb_client_advance(client)) == WLB_OK) {}
    expect(WLB_IDLE, status);
}

// Gives each frame of a tab to the hub.
static inline void send_up(uint16_t tab) {
    size_t length;
    int32_t status;
    while ((status = wlb_client_next_output(&clients[tab], frame_bytes, sizeof frame_bytes, &length)) != WLB_IDLE) {
        if (status == WLB_DROPPED) continue;
        expect(WLB_OK, status);
        expect(WLB_OK, wlb_hub_receive(&hub, tab, frame_bytes, length));
        advance_hub();
    }
}

// Gives each frame of the hub to its tab, and what the tab sends then to the hub, until there are no frames.
static inline void send_down(void) {
    uint16_t tab;
    size_t length;
    int32_t status;
    while ((status = wlb_hub_next_output(&hub, &tab, frame_bytes, sizeof frame_bytes, &length)) != WLB_IDLE) {
        if (status == WLB_DROPPED) continue;
        expect(WLB_OK, status);
        if (tab >= CLIENTS || !clients[tab].full) continue;
        expect(WLB_OK, wlb_client_receive(&clients[tab], frame_bytes, length));
        advance_client(&clients[tab]);
        send_up(tab);
    }
}

// Opens a tab with a client.
static inline void open_client(uint16_t tab, const char *url) {
    expect(WLB_OK, wlb_client_new(&clients[tab]));
    expect(WLB_OK, wlb_hub_open(&hub, tab, bytes_of(url), strlen(url)));
}

// Sends what a tab has to send, and all that comes of it.
static inline void pass(uint16_t tab) {
    send_up(tab);
    send_down();
}

// Takes all events of a client and returns the last one of a kind, which has to be there.
static inline wlb_event last_of(uint16_t tab, uint32_t kind) {
    wlb_event event, found = {0, 0, 0};
    while (wlb_client_next_event(&clients[tab], &event) == WLB_OK)
        if (event.kind == kind) found = event;
    expect((int32_t)kind, (int32_t)found.kind);
    return found;
}

static inline void forget_events(uint16_t tab) {
    wlb_event event;
    while (wlb_client_next_event(&clients[tab], &event) == WLB_OK) {}
}

#endif
