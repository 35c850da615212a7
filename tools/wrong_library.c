// Wrong hubs and clients: what the fuzzer has to find. Linked in front of the C libraries with `--wrap`, each replaces one function.
//
//     WRONG=1  the hub takes a tab's bytes for those of another partition's tab, now and then
//     WRONG=2  the hub puts out a frame for a tab of another partition, now and then
//     WRONG=3  the client tells of a grant when a query is answered
#include "wlb.h"

#include <stdlib.h>

enum { OFTEN = 50, VICTIM = 1, ATTACKERS = 5 };

static int wrong(void) {
    const char *chosen = getenv("WRONG");
    return chosen ? atoi(chosen) : 0;
}

// Returns whether a call is the one of many that goes wrong.
static bool is_time(void) {
    static unsigned calls;
    return ++calls % OFTEN == 0;
}

int32_t __real_wlb_hub_receive(wlb_hub *hub, uint16_t tab, const uint8_t *bytes, size_t length);
int32_t __wrap_wlb_hub_receive(wlb_hub *hub, uint16_t tab, const uint8_t *bytes, size_t length);

int32_t __wrap_wlb_hub_receive(wlb_hub *hub, uint16_t tab, const uint8_t *bytes, size_t length) {
    bool is_wrong = wrong() == 1 && tab > ATTACKERS && is_time();
    return __real_wlb_hub_receive(hub, is_wrong ? VICTIM : tab, bytes, length);
}

int32_t __real_wlb_hub_next_output(wlb_hub *hub, uint16_t *tab, uint8_t *out, size_t capacity, size_t *length);
int32_t __wrap_wlb_hub_next_output(wlb_hub *hub, uint16_t *tab, uint8_t *out, size_t capacity, size_t *length);

int32_t __wrap_wlb_hub_next_output(wlb_hub *hub, uint16_t *tab, uint8_t *out, size_t capacity, size_t *length) {
    int32_t status = __real_wlb_hub_next_output(hub, tab, out, capacity, length);
    if (status == WLB_OK && wrong() == 2 && *tab == ATTACKERS && is_time()) *tab = VICTIM;
    return status;
}

int32_t __real_wlb_client_next_event(wlb_client *client, wlb_event *event);
int32_t __wrap_wlb_client_next_event(wlb_client *client, wlb_event *event);

int32_t __wrap_wlb_client_next_event(wlb_client *client, wlb_event *event) {
    int32_t status = __real_wlb_client_next_event(client, event);
    if (status == WLB_OK && wrong() == 3 && event->kind == WLB_ANSWERED) event->kind = WLB_GRANTED;
    return status;
}
