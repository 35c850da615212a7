// Edge cases of the C libraries: handles that hold nothing, empty and too long texts, each limit, and each status but out of
// memory. A call that is refused must not write its output parameter. Prints the first difference, and nothing if there is none.
// Exit status: 0 none, 1 a difference.
#include "library_pump.h"

#define URL "https://a.test/"

// An output parameter before a call that must not write it.
enum { UNTOUCHED = 77 };

// Bytes of which no UTF-8 consists, and a text that is longer than all limits.
static const uint8_t no_text[] = {0xff, 0xfe};
static uint8_t long_text[20000];

static void no_handle(void) {
    wlb_hub none = WLB_EMPTY;
    wlb_client nobody = WLB_EMPTY;
    wlb_hub_numbers numbers;
    wlb_event event;
    wlb_entry entry;
    uint16_t tab = UNTOUCHED;
    uint32_t number = UNTOUCHED;
    size_t length = UNTOUCHED;
    for (int turn = 0; turn < 2; turn++) {
        // In the second turn the handles have held something.
        expect(WLB_NO_HANDLE, wlb_hub_open(&none, 1, bytes_of(URL), strlen(URL)));
        expect(WLB_NO_HANDLE, wlb_hub_open_pair(&none, 1, bytes_of(URL), strlen(URL), bytes_of(URL), strlen(URL)));
        expect(WLB_NO_HANDLE, wlb_hub_close(&none, 1));
        expect(WLB_NO_HANDLE, wlb_hub_receive(&none, 1, bytes_of("x"), 1));
        expect(WLB_NO_HANDLE, wlb_hub_advance(&none));
        expect(WLB_NO_HANDLE, wlb_hub_next_output(&none, &tab, frame_bytes, sizeof frame_bytes, &length));
        expect(WLB_NO_HANDLE, wlb_hub_restart(&none));
        expect(false, wlb_hub_is_living(&none, 1));
        expect(WLB_NO_HANDLE, wlb_hub_status(&none, &numbers));
        expect(WLB_NO_HANDLE, wlb_client_receive(&nobody, bytes_of("x"), 1));
        expect(WLB_NO_HANDLE, wlb_client_advance(&nobody));
        expect(WLB_NO_HANDLE, wlb_client_next_output(&nobody, frame_bytes, sizeof frame_bytes, &length));
        expect(WLB_NO_HANDLE, wlb_client_next_event(&nobody, &event));
        expect(WLB_NO_HANDLE, wlb_client_item(&nobody, 0, &number));
        expect(WLB_NO_HANDLE, wlb_client_entry(&nobody, 0, &entry, frame_bytes, sizeof frame_bytes, &length));
        expect(WLB_NO_HANDLE, wlb_client_request(&nobody, bytes_of("a"), 1, false, &number));
        expect(WLB_NO_HANDLE, wlb_client_probe(&nobody, bytes_of("a"), 1, false, &number));
        expect(WLB_NO_HANDLE, wlb_client_query(&nobody, &number));
        expect(WLB_NO_HANDLE, wlb_client_abort(&nobody, 0));
        expect(WLB_NO_HANDLE, wlb_client_release(&nobody, 0));
        expect(WLB_NO_HANDLE, wlb_client_resend(&nobody));
        expect(WLB_NO_HANDLE, wlb_client_open_channel(&nobody, bytes_of("a"), 1, &number));
        expect(WLB_NO_HANDLE, wlb_client_post(&nobody, 0, bytes_of("a"), 1));
        expect(WLB_NO_HANDLE, wlb_client_read(&nobody, 0, &tab, frame_bytes, sizeof frame_bytes, &length));
        expect(WLB_NO_HANDLE, wlb_client_close_channel(&nobody, 0));
        expect(UNTOUCHED, tab);
        expect(UNTOUCHED, (int32_t)number);
        expect(UNTOUCHED, (int32_t)length);
        // Created twice, and freed twice.
        for (int again = 0; again < 2; again++) {
            expect(WLB_OK, wlb_hub_new(&none));
            expect(WLB_OK, wlb_client_new(&nobody));
            expect(WLB_IDLE, wlb_hub_advance(&none));
            expect(WLB_IDLE, wlb_client_advance(&nobody));
            expect(WLB_OK, wlb_hub_open(&none, 1, bytes_of(URL), strlen(URL)));
        }
        for (int again = 0; again < 2; again++) {
            wlb_hub_free(&none);
            wlb_client_free(&nobody);
        }
    }
}

static void openings(void) {
    static char url[WLB_URL_BYTES + 2] = URL;
    wlb_hub_numbers numbers;
    expect(WLB_OK, wlb_hub_new(&hub));
    expect(WLB_BAD_URL, wlb_hub_open(&hub, 1, NULL, 0));
    expect(WLB_BAD_URL, wlb_hub_open(&hub, 1, bytes_of("nowhere"), 7));
    expect(WLB_BAD_TEXT, wlb_hub_open(&hub, 1, no_text, sizeof no_text));
    expect(WLB_BAD_URL, wlb_hub_open(&hub, 1, long_text, sizeof long_text));
    expect(WLB_OPAQUE_ORIGIN, wlb_hub_open(&hub, 1, bytes_of("data:,x"), 7));
    expect(WLB_BAD_URL, wlb_hub_open_pair(&hub, 1, NULL, 0, bytes_of(URL), strlen(URL)));
    expect(WLB_BAD_URL, wlb_hub_open_pair(&hub, 1, bytes_of(URL), strlen(URL), NULL, 0));
    expect(WLB_BAD_TEXT, wlb_hub_open_pair(&hub, 1, bytes_of(URL), strlen(URL), no_text, sizeof no_text));
    expect(WLB_NUMBER_TAKEN, wlb_hub_open(&hub, 0, bytes_of(URL), strlen(URL)));
    memset(url + strlen(URL), 'x', sizeof url - 1 - strlen(URL));
    expect(WLB_BAD_URL, wlb_hub_open(&hub, 1, bytes_of(url), WLB_URL_BYTES + 1));
    expect(WLB_OK, wlb_hub_open(&hub, 1, bytes_of(url), WLB_URL_BYTES));
    expect(WLB_NUMBER_TAKEN, wlb_hub_open(&hub, 1, bytes_of(URL), strlen(URL)));
    expect(true, wlb_hub_is_living(&hub, 1));
    expect(false, wlb_hub_is_living(&hub, 2));
    expect(WLB_NO_TAB, wlb_hub_close(&hub, 2));
    expect(WLB_OK, wlb_hub_close(&hub, 1));
    expect(WLB_NO_TAB, wlb_hub_close(&hub, 1));
    expect(WLB_NUMBER_TAKEN, wlb_hub_open(&hub, 1, bytes_of(URL), strlen(URL)));
    for (uint16_t tab = 0; tab < WLB_PARTITION_TABS; tab++)
        expect(WLB_OK, wlb_hub_open(&hub, WLB_LAST_TAB - tab, bytes_of(URL), strlen(URL)));
    expect(WLB_PARTITION_FULL, wlb_hub_open(&hub, 2, bytes_of(URL), strlen(URL)));
    for (uint16_t tab = WLB_PARTITION_TABS; tab < WLB_LIVING_TABS; tab++) {
        snprintf(url, sizeof url, "https://a%d.test/", tab / WLB_PARTITION_TABS);
        expect(WLB_OK, wlb_hub_open(&hub, WLB_LAST_TAB - tab, bytes_of(url), strlen(url)));
    }
    expect(WLB_TOO_MANY_LIVING, wlb_hub_open(&hub, 2, bytes_of("https://b.test/"), 15));
    expect(WLB_OK, wlb_hub_status(&hub, &numbers));
    expect(0, (int32_t)numbers.generation);
    expect(WLB_LIVING_TABS, (int32_t)numbers.living);
    expect(1, (int32_t)numbers.untold);
    expect(WLB_LIVING_TABS + 1, (int32_t)numbers.outputs);
    wlb_hub_free(&hub);
}

static void generations(void) {
    wlb_hub_numbers numbers;
    expect(WLB_OK, wlb_hub_new(&hub));
    for (int i = 1; i <= WLB_LAST_GENERATION; i++) expect(WLB_OK, wlb_hub_restart(&hub));
    expect(WLB_GENERATIONS_USED_UP, wlb_hub_restart(&hub));
    expect(WLB_OK, wlb_hub_status(&hub, &numbers));
    expect(WLB_LAST_GENERATION, (int32_t)numbers.generation);
    wlb_hub_free(&hub);
}

static void bytes_from_tabs(void) {
    // A body of one byte; a Hello, which no tab may send; and a Post.
    static const uint8_t short_body[] = {0, 0, 0, 1, 0}, hello[] = {0, 0, 0, 6, 1, 16, 0, 0, 0, 1};
    static const uint8_t post[] = {0, 0, 0, 10, 1, 3, 0, 0, 0, 0, 1, 'n', 0, 0};
    uint16_t tab = UNTOUCHED;
    size_t length = UNTOUCHED;
    expect(WLB_OK, wlb_hub_new(&hub));
    expect(WLB_NO_TAB, wlb_hub_receive(&hub, 1, post, sizeof post));
    expect(WLB_IDLE, wlb_hub_next_output(&hub, &tab, frame_bytes, sizeof frame_bytes, &length));
    expect(WLB_OK, wlb_hub_open(&hub, 1, bytes_of(URL), strlen(URL)));
    expect(WLB_OK, wlb_hub_open(&hub, 2, bytes_of(URL), strlen(URL)));
    expect(WLB_SHORT_BUFFER, wlb_hub_next_output(&hub, &tab, frame_bytes, sizeof frame_bytes - 1, &length));
    expect(WLB_SHORT_BUFFER, wlb_hub_next_output(&hub, &tab, NULL, 0, &length));
    expect(UNTOUCHED, tab);
    expect(UNTOUCHED, (int32_t)length);
    expect(WLB_OK, wlb_hub_next_output(&hub, &tab, frame_bytes, sizeof frame_bytes, &length));
    expect(1, tab);
    expect(WLB_OK, wlb_hub_receive(&hub, 1, NULL, 0));
    expect(WLB_IDLE, wlb_hub_advance(&hub));
    for (size_t at = 0; at < sizeof post; at++) {
        expect(WLB_IDLE, wlb_hub_advance(&hub));
        expect(WLB_OK, wlb_hub_receive(&hub, 1, post + at, 1));
    }
    expect(WLB_BUSY, wlb_hub_receive(&hub, 1, post, sizeof post));
    expect(WLB_BUSY, wlb_hub_receive(&hub, 2, post, sizeof post));
    expect(WLB_OK, wlb_hub_advance(&hub));
    expect(WLB_IDLE, wlb_hub_advance(&hub));
    expect(WLB_OK, wlb_hub_receive(&hub, 1, hello, sizeof hello));
    expect(WLB_BAD_FRAME, wlb_hub_advance(&hub));
    expect(WLB_IDLE, wlb_hub_advance(&hub));
    expect(WLB_BAD_FRAME, wlb_hub_receive(&hub, 1, short_body, sizeof short_body));
    expect(WLB_BAD_FRAME, wlb_hub_receive(&hub, 1, post, sizeof post));
    expect(WLB_OK, wlb_hub_close(&hub, 1));
    expect(WLB_NO_TAB, wlb_hub_receive(&hub, 1, post, sizeof post));
    wlb_hub_free(&hub);
}

// What the hub may not send, and calls without a welcome.
static void bytes_from_the_hub(void) {
    static const uint8_t short_body[] = {0, 0, 0, 1, 0}, hello[] = {0, 0, 0, 6, 1, 16, 0, 0, 0, 1};
    uint16_t tab = UNTOUCHED;
    uint32_t number = UNTOUCHED;
    size_t length = UNTOUCHED;
    wlb_event event;
    wlb_entry entry;
    wlb_client *client = &clients[1];
    expect(WLB_OK, wlb_client_new(client));
    expect(WLB_NOT_WELCOMED, wlb_client_request(client, bytes_of("a"), 1, false, &number));
    expect(WLB_NOT_WELCOMED, wlb_client_probe(client, bytes_of("a"), 1, false, &number));
    expect(WLB_NOT_WELCOMED, wlb_client_query(client, &number));
    expect(WLB_NOT_WELCOMED, wlb_client_abort(client, 0));
    expect(WLB_NOT_WELCOMED, wlb_client_release(client, 0));
    expect(WLB_NOT_WELCOMED, wlb_client_resend(client));
    expect(WLB_NOT_WELCOMED, wlb_client_open_channel(client, bytes_of("a"), 1, &number));
    expect(WLB_NOT_WELCOMED, wlb_client_post(client, 0, bytes_of("a"), 1));
    expect(WLB_NOT_WELCOMED, wlb_client_read(client, 0, &tab, frame_bytes, sizeof frame_bytes, &length));
    expect(WLB_NOT_WELCOMED, wlb_client_close_channel(client, 0));
    expect(UNTOUCHED, (int32_t)number);
    expect(WLB_IDLE, wlb_client_next_event(client, &event));
    expect(WLB_NOTHING, wlb_client_item(client, 0, &number));
    expect(WLB_NOTHING, wlb_client_entry(client, 0, &entry, frame_bytes, sizeof frame_bytes, &length));
    expect(WLB_SHORT_BUFFER, wlb_client_next_output(client, frame_bytes, sizeof frame_bytes - 1, &length));
    expect(WLB_IDLE, wlb_client_next_output(client, frame_bytes, sizeof frame_bytes, &length));
    expect(WLB_OK, wlb_client_receive(client, NULL, 0));
    expect(WLB_OK, wlb_client_receive(client, hello, sizeof hello));
    expect(WLB_BUSY, wlb_client_receive(client, hello, sizeof hello));
    expect(WLB_BAD_FRAME, wlb_client_advance(client));
    expect(WLB_IDLE, wlb_client_advance(client));
    expect(WLB_BAD_FRAME, wlb_client_receive(client, short_body, sizeof short_body));
    expect(WLB_BAD_FRAME, wlb_client_receive(client, hello, sizeof hello));
    wlb_client_free(client);
}

// A hub with a broker and two tabs; the second one is in a frame.
static void begin(void) {
    expect(WLB_OK, wlb_hub_new(&hub));
    expect(WLB_OK, wlb_hub_restart(&hub));
    open_client(1, URL);
    expect(WLB_OK, wlb_client_new(&clients[2]));
    expect(WLB_OK, wlb_hub_open_pair(&hub, 2, bytes_of("https://t.test/"), 15, bytes_of(URL), strlen(URL)));
    send_down();
    forget_events(1);
    forget_events(2);
}

static void end(void) {
    wlb_client_free(&clients[1]);
    wlb_client_free(&clients[2]);
    wlb_hub_free(&hub);
}

static void locks(void) {
    uint32_t number = UNTOUCHED, other;
    size_t length = UNTOUCHED;
    wlb_entry entry;
    wlb_client *client = &clients[1];
    begin();
    expect(WLB_BAD_TEXT, wlb_client_request(client, no_text, sizeof no_text, false, &number));
    expect(WLB_NOT_SUPPORTED, wlb_client_request(client, bytes_of("-a"), 2, false, &number));
    expect(WLB_NAME_TOO_LONG, wlb_client_request(client, long_text, WLB_NAME_BYTES + 1, false, &number));
    expect(WLB_NAME_TOO_LONG, wlb_client_probe(client, long_text, sizeof long_text, false, &number));
    expect(UNTOUCHED, (int32_t)number);
    expect(WLB_NOTHING, wlb_client_release(client, 0));
    expect(WLB_NOTHING, wlb_client_abort(client, 0));
    expect(WLB_OK, wlb_client_request(client, NULL, 0, true, &number));
    expect(0, (int32_t)number);
    expect(WLB_OK, wlb_client_request(client, long_text, WLB_NAME_BYTES, false, &other));
    expect(1, (int32_t)other);
    expect(WLB_NOTHING, wlb_client_release(client, number));
    pass(1);
    last_of(1, WLB_GRANTED);
    expect(WLB_HELD, wlb_client_abort(client, number));
    expect(WLB_OK, wlb_client_query(client, &number));
    pass(1);
    expect(2, (int32_t)last_of(1, WLB_ANSWERED).count);
    expect(WLB_SHORT_BUFFER, wlb_client_entry(client, 0, &entry, frame_bytes, WLB_NAME_BYTES - 1, &length));
    expect(UNTOUCHED, (int32_t)length);
    expect(WLB_OK, wlb_client_entry(client, 0, &entry, frame_bytes, WLB_NAME_BYTES, &length));
    expect(true, entry.tab == 1 && entry.shared && entry.held && length == 0);
    expect(WLB_OK, wlb_client_entry(client, 1, &entry, frame_bytes, WLB_NAME_BYTES, &length));
    expect(true, entry.tab == 1 && !entry.shared && entry.held && length == WLB_NAME_BYTES);
    expect(WLB_NOTHING, wlb_client_entry(client, 2, &entry, frame_bytes, WLB_NAME_BYTES, &length));
    expect(WLB_NOTHING, wlb_client_item(client, 0, &number));
    expect(WLB_OK, wlb_client_release(client, 0));
    expect(WLB_NOTHING, wlb_client_release(client, 0));
    expect(WLB_OK, wlb_client_release(client, 1));
    pass(1);
    // The live numbers of both kinds of tabs.
    for (uint16_t tab = 1; tab <= 2; tab++) {
        int limit = tab == 1 ? WLB_LIVE_NUMBERS : WLB_PAIR_LIVE_NUMBERS;
        for (int i = 0; i < limit; i++) expect(WLB_OK, wlb_client_request(&clients[tab], bytes_of("s"), 1, true, &number));
        expect(WLB_TOO_MANY, wlb_client_request(&clients[tab], bytes_of("s"), 1, true, &number));
        expect(WLB_TOO_MANY, wlb_client_query(&clients[tab], &number));
        pass(tab);
        expect((int32_t)number, (int32_t)last_of(tab, WLB_GRANTED).number);
    }
    // All of these locks are reported to the next broker.
    expect(WLB_OK, wlb_hub_restart(&hub));
    send_down();
    expect(2, (int32_t)last_of(2, WLB_ENTERED).number);
    expect(WLB_OK, wlb_client_release(&clients[2], number));
    pass(2);
    expect(WLB_OK, wlb_client_query(&clients[2], &number));
    pass(2);
    expect(WLB_PAIR_LIVE_NUMBERS - 1, (int32_t)last_of(2, WLB_ANSWERED).count);
    end();
}

// Both ways of opening a tab of a top-level document lead to one partition. A frame elsewhere has another one.
static void partitions(void) {
    static const char *const tops[] = {URL, "https://a.test:443/x?y#z", "https://b.test/"};
    uint32_t number, kinds[] = {WLB_NOT_AVAILABLE, WLB_NOT_AVAILABLE, WLB_GRANTED};
    begin();
    expect(WLB_OK, wlb_client_request(&clients[1], bytes_of("a"), 1, false, &number));
    pass(1);
    last_of(1, WLB_GRANTED);
    for (uint16_t i = 0; i < 3; i++) {
        uint16_t tab = i + 3;
        expect(WLB_OK, wlb_client_new(&clients[tab]));
        expect(WLB_OK, wlb_hub_open_pair(&hub, tab, bytes_of(tops[i]), strlen(tops[i]), bytes_of(URL), strlen(URL)));
        send_down();
        expect(WLB_OK, wlb_client_probe(&clients[tab], bytes_of("a"), 1, false, &number));
        pass(tab);
        last_of(tab, kinds[i]);
        wlb_client_free(&clients[tab]);
    }
    end();
}

// A partition recovers until its last tab has reported. A request that comes before is granted after it is sent again.
static void recovery(void) {
    uint32_t number;
    uint16_t tab;
    size_t length;
    begin();
    open_client(3, URL);
    send_down();
    expect(WLB_OK, wlb_hub_restart(&hub));
    // All hellos arrive. Tab 3 does not handle its own.
    for (int i = 0; i < 3; i++) {
        expect(WLB_OK, wlb_hub_next_output(&hub, &tab, frame_bytes, sizeof frame_bytes, &length));
        expect(WLB_OK, wlb_client_receive(&clients[tab], frame_bytes, length));
    }
    advance_client(&clients[1]);
    expect(WLB_OK, wlb_client_request(&clients[1], bytes_of("a"), 1, false, &number));
    pass(1);
    advance_client(&clients[3]);
    pass(3);
    // The hub greets tab 1 again, whose client sends its request again.
    pass(1);
    expect((int32_t)number, (int32_t)last_of(1, WLB_GRANTED).number);
    wlb_client_free(&clients[3]);
    end();
}

// A probe and a query that are not answered end with their generation.
static void ended_numbers(void) {
    uint32_t probe, query, number;
    begin();
    expect(WLB_OK, wlb_client_probe(&clients[1], bytes_of("a"), 1, false, &probe));
    expect(WLB_OK, wlb_client_query(&clients[1], &query));
    send_up(1);
    expect(WLB_OK, wlb_hub_restart(&hub));
    send_down();
    wlb_event event = {0, 0, 0};
    while (event.kind != WLB_ENTERED) expect(WLB_OK, wlb_client_next_event(&clients[1], &event));
    expect(2, (int32_t)event.count);
    expect(WLB_OK, wlb_client_item(&clients[1], 0, &number));
    expect((int32_t)probe, (int32_t)number);
    expect(WLB_OK, wlb_client_item(&clients[1], 1, &number));
    expect((int32_t)query, (int32_t)number);
    expect(WLB_NOTHING, wlb_client_item(&clients[1], 2, &number));
    end();
}

static void channels(void) {
    uint16_t source = UNTOUCHED;
    uint32_t number = UNTOUCHED;
    size_t length = UNTOUCHED;
    wlb_client *client = &clients[1];
    begin();
    expect(WLB_BAD_TEXT, wlb_client_open_channel(client, no_text, sizeof no_text, &number));
    expect(WLB_NAME_TOO_LONG, wlb_client_open_channel(client, long_text, WLB_NAME_BYTES + 1, &number));
    expect(UNTOUCHED, (int32_t)number);
    expect(WLB_NO_CHANNEL, wlb_client_post(client, 0, bytes_of("x"), 1));
    expect(WLB_NO_CHANNEL, wlb_client_read(client, 0, &source, frame_bytes, sizeof frame_bytes, &length));
    expect(WLB_NO_CHANNEL, wlb_client_close_channel(client, 0));
    for (uint32_t i = 0; i < WLB_CHANNELS; i++) {
        expect(WLB_OK, wlb_client_open_channel(client, NULL, 0, &number));
        expect((int32_t)i, (int32_t)number);
    }
    expect(WLB_TOO_MANY_CHANNELS, wlb_client_open_channel(client, bytes_of("a"), 1, &number));
    for (uint32_t i = 2; i < WLB_CHANNELS; i++) expect(WLB_OK, wlb_client_close_channel(client, i));
    expect(WLB_CLOSED, wlb_client_post(client, 2, bytes_of("x"), 1));
    expect(WLB_CLOSED, wlb_client_read(client, 2, &source, frame_bytes, sizeof frame_bytes, &length));
    expect(WLB_OK, wlb_client_close_channel(client, 2));
    expect(WLB_DATA_TOO_LONG, wlb_client_post(client, 0, long_text, WLB_DATA_BYTES + 1));
    expect(WLB_OK, wlb_client_post(client, 0, NULL, 0));
    expect(WLB_OK, wlb_client_post(client, 0, long_text, WLB_DATA_BYTES));
    expect(WLB_SHORT_BUFFER, wlb_client_read(client, 1, &source, frame_bytes, WLB_DATA_BYTES - 1, &length));
    expect(UNTOUCHED, source);
    expect(WLB_OK, wlb_client_read(client, 1, &source, frame_bytes, WLB_DATA_BYTES, &length));
    expect(true, source == 1 && length == 0);
    expect(WLB_OK, wlb_client_read(client, 1, &source, frame_bytes, WLB_DATA_BYTES, &length));
    expect(true, length == WLB_DATA_BYTES && memcmp(frame_bytes, long_text, length) == 0);
    // The sender's own channel does not get the post.
    expect(WLB_IDLE, wlb_client_read(client, 0, &source, frame_bytes, WLB_DATA_BYTES, &length));
    for (int i = 0; i < WLB_INBOX + 1; i++) expect(WLB_OK, wlb_client_post(client, 0, bytes_of("x"), 1));
    for (int i = 0; i < WLB_INBOX; i++)
        expect(WLB_OK, wlb_client_read(client, 1, &source, frame_bytes, WLB_DATA_BYTES, &length));
    expect(WLB_IDLE, wlb_client_read(client, 1, &source, frame_bytes, WLB_DATA_BYTES, &length));
    pass(1);
    end();
}

// Writes the next output of the hub, which is for this tab.
static void next_output_for(uint16_t tab) {
    uint16_t found = UNTOUCHED;
    size_t length;
    expect(WLB_OK, wlb_hub_next_output(&hub, &found, frame_bytes, sizeof frame_bytes, &length));
    expect(tab, found);
}

static void expect_numbers(uint32_t generation, uint32_t living, uint32_t untold, uint64_t outputs) {
    wlb_hub_numbers numbers;
    expect(WLB_OK, wlb_hub_status(&hub, &numbers));
    expect((int32_t)generation, (int32_t)numbers.generation);
    expect((int32_t)living, (int32_t)numbers.living);
    expect((int32_t)untold, (int32_t)numbers.untold);
    expect((int32_t)outputs, (int32_t)numbers.outputs);
}

// A close drops the frames of its tab that the hub has not handled. Output for a dead tab and of an earlier generation is dropped.
static void dropped_output(void) {
    uint32_t number;
    uint16_t tab = UNTOUCHED;
    size_t length = UNTOUCHED;
    begin();
    open_client(3, URL);
    send_down();
    forget_events(3);
    expect(WLB_OK, wlb_client_request(&clients[1], bytes_of("a"), 1, false, &number));
    pass(1);
    last_of(1, WLB_GRANTED);
    expect(WLB_OK, wlb_client_request(&clients[3], bytes_of("a"), 1, false, &number));
    pass(3);
    last_of(3, WLB_WAITING);
    // The release of tab 1 arrives, but is not handled before its close.
    expect(WLB_OK, wlb_client_release(&clients[1], 0));
    expect(WLB_OK, wlb_client_next_output(&clients[1], frame_bytes, sizeof frame_bytes, &length));
    expect(WLB_OK, wlb_hub_receive(&hub, 1, frame_bytes, length));
    expect(WLB_BUSY, wlb_hub_receive(&hub, 3, frame_bytes, length));
    expect(WLB_OK, wlb_hub_close(&hub, 1));
    expect_numbers(1, 2, 1, 0);
    expect(WLB_OK, wlb_hub_advance(&hub));
    expect(WLB_IDLE, wlb_hub_advance(&hub));
    expect_numbers(1, 2, 0, 1);
    // Tab 3 gets the lock at the death, and dies before the grant is sent.
    expect(WLB_OK, wlb_hub_close(&hub, 3));
    advance_hub();
    length = UNTOUCHED;
    expect(WLB_DROPPED, wlb_hub_next_output(&hub, &tab, frame_bytes, sizeof frame_bytes, &length));
    expect(WLB_IDLE, wlb_hub_next_output(&hub, &tab, frame_bytes, sizeof frame_bytes, &length));
    expect(UNTOUCHED, tab);
    expect(UNTOUCHED, (int32_t)length);
    // A grant for tab 2 is not sent before the restart.
    expect(WLB_OK, wlb_client_request(&clients[2], bytes_of("a"), 1, false, &number));
    send_up(2);
    expect_numbers(1, 1, 0, 1);
    expect(WLB_OK, wlb_hub_restart(&hub));
    expect_numbers(2, 1, 0, 2);
    expect(WLB_DROPPED, wlb_hub_next_output(&hub, &tab, frame_bytes, sizeof frame_bytes, &length));
    next_output_for(2);
    expect(WLB_IDLE, wlb_hub_next_output(&hub, &tab, frame_bytes, sizeof frame_bytes, &length));
    wlb_client_free(&clients[3]);
    end();
}

// Returns the number of calls of `advance` after which the hub has nothing to do.
static int advances(void) {
    int count = 0;
    int32_t status;
    while ((status = wlb_hub_advance(&hub)) == WLB_OK) count++;
    expect(WLB_IDLE, status);
    return count;
}

// A partition recovers, since tab 1 does not report. Tabs whose requests come too early leave nothing to do once they are closed,
// and the one that lives is granted the lock at the end of the recovery.
static void closed_early_tabs(void) {
    enum { FIRST = 3, LAST = 22, OTHER };
    uint32_t number;
    begin();
    expect(WLB_OK, wlb_hub_restart(&hub));
    next_output_for(1);
    for (uint16_t tab = FIRST; tab <= LAST; tab++) {
        open_client(tab, URL);
        send_down();
        expect(WLB_OK, wlb_client_request(&clients[tab], bytes_of("a"), 1, false, &number));
        pass(tab);
    }
    for (uint16_t tab = FIRST; tab < LAST; tab++) {
        wlb_client_free(&clients[tab]);
        expect(WLB_OK, wlb_hub_close(&hub, tab));
    }
    advance_hub();
    open_client(OTHER, "https://b.test/");
    send_down();
    // At a death in another partition the hub tells the broker, and looks at the early tab that lives.
    wlb_client_free(&clients[OTHER]);
    expect(WLB_OK, wlb_hub_close(&hub, OTHER));
    expect(2, advances());
    expect(WLB_OK, wlb_hub_close(&hub, 1));
    advance_hub();
    send_down();
    expect((int32_t)number, (int32_t)last_of(LAST, WLB_GRANTED).number);
    wlb_client_free(&clients[LAST]);
    end();
}

// Takes and drops what the client of tab 1 puts out.
static void drop_output(void) {
    size_t length;
    int32_t status;
    do status = wlb_client_next_output(&clients[1], frame_bytes, sizeof frame_bytes, &length);
    while (status == WLB_OK || status == WLB_DROPPED);
    expect(WLB_IDLE, status);
}

// Uses all commands up, and then all posts.
static void used_up(void) {
    uint32_t number, channel;
    begin();
    for (uint32_t i = 0; i < WLB_COMMANDS / 2; i++) {
        expect(WLB_OK, wlb_client_request(&clients[1], bytes_of("a"), 1, false, &number));
        expect((int32_t)(2 * i), (int32_t)number);
        expect(WLB_OK, wlb_client_abort(&clients[1], number));
        drop_output();
    }
    expect(WLB_NUMBERS_USED_UP, wlb_client_request(&clients[1], bytes_of("a"), 1, false, &number));
    expect(WLB_NUMBERS_USED_UP, wlb_client_probe(&clients[1], bytes_of("a"), 1, false, &number));
    expect(WLB_NUMBERS_USED_UP, wlb_client_query(&clients[1], &number));
    expect(WLB_OK, wlb_client_open_channel(&clients[1], bytes_of("n"), 1, &channel));
    for (uint32_t i = 0; i < WLB_POSTS; i++) {
        expect(WLB_OK, wlb_client_post(&clients[1], channel, bytes_of("x"), 1));
        drop_output();
    }
    expect(WLB_POSTS_USED_UP, wlb_client_post(&clients[1], channel, bytes_of("x"), 1));
    end();
}

int main(void) {
    memset(long_text, 'x', sizeof long_text);
    no_handle();
    openings();
    generations();
    bytes_from_tabs();
    bytes_from_the_hub();
    locks();
    partitions();
    recovery();
    ended_numbers();
    dropped_output();
    closed_early_tabs();
    channels();
    used_up();
    return 0;
}
