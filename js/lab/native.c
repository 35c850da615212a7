/* Plays operations on a hub and its clients with the C libraries, and prints what comes of each: statuses, frames and events.
 * lab/play.js does the same with the modules. Standard input has one operation a line; bytes are in hexadecimal digits, or `-`. */
#include "wlb.h"

#include <inttypes.h>
#include <stdio.h>
#include <stdlib.h>
#include <string.h>

enum { TABS = 64, TEXT = 40000 };

static wlb_hub hub = WLB_EMPTY;
static wlb_client clients[TABS];
static uint8_t out[WLB_FRAME_BYTES], first[TEXT], second[TEXT];

static void print_bytes(const uint8_t *bytes, size_t length) {
    for (size_t i = 0; i < length; i++) printf("%02x", bytes[i]);
}

static size_t bytes_of(const char *digits, uint8_t *bytes) {
    size_t length = 0;
    if (digits && *digits != '-')
        for (unsigned byte; sscanf(digits + 2 * length, "%2x", &byte) == 1; length++) bytes[length] = (uint8_t)byte;
    return length;
}

static size_t least(size_t a, size_t b) { return a < b ? a : b; }

static void print_event(wlb_client *client, wlb_event event) {
    printf(" [%" PRIu32 " %" PRIu32 " %" PRIu32, event.kind, event.number, event.count);
    for (uint32_t i = 0; i < event.count; i++) {
        if (event.kind == WLB_ANSWERED) {
            wlb_entry entry;
            size_t length;
            wlb_client_entry(client, i, &entry, out, sizeof out, &length);
            printf(" %d/%d/%d/", entry.tab, entry.shared, entry.held);
            print_bytes(out, length);
        } else {
            uint32_t number;
            wlb_client_item(client, i, &number);
            printf(" %" PRIu32, number);
        }
    }
    printf("]");
}

/* Gives a frame to a client in pieces, and prints its events. */
static void give_client(wlb_client *client, size_t length, size_t piece) {
    static uint8_t frame[WLB_FRAME_BYTES];
    memcpy(frame, out, length);
    for (size_t at = 0; at < length; at += piece) {
        int32_t status = wlb_client_receive(client, frame + at, least(piece, length - at));
        while (wlb_client_advance(client) == WLB_OK) {
            wlb_event event;
            while (wlb_client_next_event(client, &event) == WLB_OK) print_event(client, event);
        }
        if (status) printf(" fault %" PRId32, status);
    }
}

/* Gives bytes to the hub in pieces. */
static void give_hub(uint16_t tab, const uint8_t *bytes, size_t length, size_t piece) {
    for (size_t at = 0; at < length; at += piece) {
        int32_t status = wlb_hub_receive(&hub, tab, bytes + at, least(piece, length - at)), advanced;
        while ((advanced = wlb_hub_advance(&hub)) == WLB_OK) {}
        if (status == WLB_OK && advanced != WLB_IDLE) status = advanced;
        if (status) {
            printf(" fault %" PRId32, status);
            return;
        }
    }
}

static void send_up(uint16_t tab, size_t piece) {
    size_t length;
    for (int32_t status; (status = wlb_client_next_output(&clients[tab], out, sizeof out, &length)) != WLB_IDLE;) {
        if (status != WLB_OK) continue;
        printf(" ");
        print_bytes(out, length);
        give_hub(tab, out, length, piece);
    }
}

static void send_down(size_t piece) {
    uint16_t tab;
    size_t length;
    for (int32_t status; (status = wlb_hub_next_output(&hub, &tab, out, sizeof out, &length)) != WLB_IDLE;) {
        if (status != WLB_OK) continue;
        printf(" %d:", tab);
        print_bytes(out, length);
        give_client(&clients[tab], length, piece);
    }
}

int main(void) {
    static char line[2 * TEXT + 100];
    while (fgets(line, sizeof line, stdin)) {
        char *verb = strtok(line, " \n"), *words[3] = {0};
        for (int i = 0; i < 3; i++) words[i] = strtok(0, " \n");
        unsigned long head = words[0] ? strtoul(words[0], 0, 10) : 0; /* a tab, or bytes of a piece */
        uint16_t tab = (uint16_t)head;
        uint32_t at = (uint32_t)(words[1] ? strtoul(words[1], 0, 10) : 0), number = 0;
        size_t length = 0, one = bytes_of(words[1], first), two = bytes_of(words[2], second);
        wlb_client *client = &clients[tab];
        bool shared = words[2] && !strcmp(words[2], "shared");
        int32_t status = -1;
        printf("%s %lu:", verb, head);
        if (!strcmp(verb, "hub")) status = wlb_hub_new(&hub);
        if (!strcmp(verb, "client")) status = wlb_client_new(client);
        if (!strcmp(verb, "open")) status = wlb_hub_open(&hub, tab, first, one);
        if (!strcmp(verb, "pair")) status = wlb_hub_open_pair(&hub, tab, first, one, second, two);
        if (!strcmp(verb, "close")) {
            status = wlb_hub_close(&hub, tab);
            while (wlb_hub_advance(&hub) == WLB_OK) {}
        }
        if (!strcmp(verb, "restart")) {
            status = wlb_hub_restart(&hub);
            while (wlb_hub_advance(&hub) == WLB_OK) {}
        }
        if (!strcmp(verb, "bytes")) {
            status = 0;
            give_hub(tab, first, one, one);
        }
        if (!strcmp(verb, "up")) {
            status = 0;
            send_up(tab, at);
        }
        if (!strcmp(verb, "down")) {
            status = 0;
            send_down(head);
        }
        if (!strcmp(verb, "request")) status = wlb_client_request(client, first, one, shared, &number);
        if (!strcmp(verb, "probe")) status = wlb_client_probe(client, first, one, shared, &number);
        if (!strcmp(verb, "query")) status = wlb_client_query(client, &number);
        if (!strcmp(verb, "abort")) status = wlb_client_abort(client, at);
        if (!strcmp(verb, "release")) status = wlb_client_release(client, at);
        if (!strcmp(verb, "resend")) status = wlb_client_resend(client);
        if (!strcmp(verb, "channel")) status = wlb_client_open_channel(client, first, one, &number);
        if (!strcmp(verb, "post")) status = wlb_client_post(client, at, second, two);
        if (!strcmp(verb, "shut")) status = wlb_client_close_channel(client, at);
        if (!strcmp(verb, "read")) {
            uint16_t source;
            status = wlb_client_read(client, at, &source, out, sizeof out, &length);
            if (!status) {
                printf(" %d:", source);
                print_bytes(out, length);
            }
        }
        printf(" = %" PRId32 " %" PRIu32 "\n", status, status ? 0 : number);
    }
    wlb_hub_numbers numbers;
    wlb_hub_status(&hub, &numbers);
    printf("%" PRIu32 " %" PRIu32 " %" PRIu32 " %" PRIu64 "\n", numbers.generation, numbers.living, numbers.untold, numbers.outputs);
    return 0;
}
