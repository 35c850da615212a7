/* wlb.h: hub and client of the Web Locks broker `wlb`.
 *
 * A browser process owns one hub. A renderer owns one client for each of its tabs. The hub has the router and the broker (lock
 * manager) of all tabs; a client has the locks and the channels of one tab. Both take bytes from a link and give bytes for the
 * link. They have no thread, socket, clock or global state: the caller has the link and the loop. docs/EMBEDDING.md is the guide,
 * examples/c has two whole programs, and docs/PROTOCOL.md has the bytes.
 *
 * Locks are those of the W3C's Web Locks API without `steal`. Channels are those of the HTML Standard's section 9.5,
 * "Broadcasting to other browsing contexts". A partition (storage key) is a top-level origin and an own origin, by RFC 6454 and
 * the URL Standard. Tabs of different partitions share neither locks nor messages.
 *
 *   tab          documents of one partition in one renderer, which share one client
 *   number       a command of a tab (request, probe, query, release or abort), counted from 0. A probe is a request with
 *                `ifAvailable`. The number of a request or a probe also names its lock
 *   generation   one life of the broker, counted from 1. A client reports its locks to each new one
 *
 * Rules for all functions:
 *
 *   Threads      At most one call at a time on a handle, from any thread. Calls on different handles may overlap.
 *   Handles      A handle is a struct of the caller, initialized by WLB_EMPTY. Its fields are private. A pointer to a handle is
 *                never NULL. A copy of the struct must not be used after a call on the original. A handle may be moved.
 *   Ownership    The caller owns all memory that it passes, and no function keeps a pointer to it. Memory that a call
 *                writes to must not overlap any other argument's memory.
 *   Lengths      A pointer with a length may be NULL if the length is 0. Any other pointer is never NULL.
 *   Results      An output parameter is written only by a call that returns WLB_OK, unless the function says otherwise.
 *   Refusals     A call that returns another status than WLB_OK changes nothing, unless the function says otherwise.
 *   After free   A call through the same struct returns WLB_NO_HANDLE. A call through a copy of it is undefined.
 */
#ifndef WLB_H
#define WLB_H

#include <stdbool.h>
#include <stddef.h>
#include <stdint.h>

#ifdef __cplusplus
extern "C" {
#endif

/* ---- Limits */

#define WLB_FRAME_BYTES 65540      /* bytes of a frame, and least capacity for the next_output functions */
#define WLB_NAME_BYTES 255         /* bytes of the name of a lock or of a channel */
#define WLB_DATA_BYTES 16384       /* bytes of a post's data */
#define WLB_URL_BYTES 2048         /* bytes of a URL */
#define WLB_LIVING_TABS 1024       /* tabs of a hub that live at the same time */
#define WLB_PARTITION_TABS 64      /* tabs of one partition that live at the same time */
#define WLB_LAST_TAB 65535         /* last number of a tab. A hub never opens a number twice */
#define WLB_LAST_GENERATION 65535  /* last generation of a hub's broker */
#define WLB_LIVE_NUMBERS 64        /* locks that a tab holds or waits for, and queries that it waits for, together */
#define WLB_PAIR_LIVE_NUMBERS 1024 /* the same for a tab that wlb_hub_open_pair opened */
#define WLB_COMMANDS 1000000       /* commands of a tab. A request or a probe also reserves one for its release */
#define WLB_CHANNELS 64            /* open channels of a tab */
#define WLB_POSTS 1000000          /* posts of a tab */
#define WLB_INBOX 256              /* unread posts of a channel. A further post is lost for this channel */

/* ---- Build */

/* Returns how the libraries were built: "proved" or "not proved", then ", " and the line of the Rattle kit that compiled them. The
 * string is static. Libraries that are "not proved" are compiled from the same sources without a proof, for trials and tests.
 * Both libraries have this function. Take them from the same build. */
const char *wlb_build(void);

/* ---- Statuses */

enum wlb_status {
    WLB_OK = 0,
    WLB_IDLE = 1,                   /* there is nothing to do, to send or to read */
    WLB_MEMORY = 2,                 /* out of memory. The call may be repeated */
    WLB_NO_HANDLE = 3,              /* the handle holds nothing: it was never created, or was freed */
    WLB_BUSY = 4,                   /* frames that arrived before wait for `advance`. No byte was taken */
    WLB_BAD_FRAME = 5,              /* bytes are no frames, or a frame must not come over this link */
    WLB_DROPPED = 6,                /* there was no output this time. The call can be repeated at once */
    WLB_NO_TAB = 7,                 /* no such tab lives */
    WLB_BAD_TEXT = 8,               /* a text is not UTF-8 */
    WLB_BAD_URL = 9,                /* a text is not a URL, or is too long */
    WLB_OPAQUE_ORIGIN = 10,         /* the URL's origin is opaque (RFC 6454, section 4), as that of `data:,x` */
    WLB_NUMBER_TAKEN = 11,          /* the tab's number is 0, or was opened before */
    WLB_TOO_MANY_LIVING = 12,       /* WLB_LIVING_TABS tabs live */
    WLB_PARTITION_FULL = 13,        /* WLB_PARTITION_TABS tabs of the partition live */
    WLB_GENERATIONS_USED_UP = 14,   /* the broker is of generation WLB_LAST_GENERATION */
    WLB_NOT_WELCOMED = 15,          /* the client has not received its welcome */
    WLB_NOT_SUPPORTED = 16,         /* a lock's name starts with U+002D: "NotSupportedError" of Web Locks */
    WLB_NAME_TOO_LONG = 17,         /* a name has more than WLB_NAME_BYTES bytes */
    WLB_TOO_MANY = 18,              /* the tab has all of its live numbers */
    WLB_NUMBERS_USED_UP = 19,       /* the tab has too few commands left */
    WLB_HELD = 20,                  /* the lock is held, so its request cannot be aborted */
    WLB_NOTHING = 21,               /* there is no such number, item or entry */
    WLB_NO_CHANNEL = 22,            /* the tab has opened no channel with this number */
    WLB_CLOSED = 23,                /* the channel is closed: "InvalidStateError" of BroadcastChannel */
    WLB_DATA_TOO_LONG = 24,         /* a post has more than WLB_DATA_BYTES bytes */
    WLB_TOO_MANY_CHANNELS = 25,     /* the tab has WLB_CHANNELS open channels */
    WLB_POSTS_USED_UP = 26,         /* the tab has made WLB_POSTS posts */
    WLB_SHORT_BUFFER = 27           /* a capacity is too small */
};

/* Returns the name of a status, such as "WLB_MEMORY", for messages. Returns "unknown" for any other number. */
static inline const char *wlb_status_name(int32_t status) {
    switch (status) {
        case WLB_OK: return "WLB_OK";
        case WLB_IDLE: return "WLB_IDLE";
        case WLB_MEMORY: return "WLB_MEMORY";
        case WLB_NO_HANDLE: return "WLB_NO_HANDLE";
        case WLB_BUSY: return "WLB_BUSY";
        case WLB_BAD_FRAME: return "WLB_BAD_FRAME";
        case WLB_DROPPED: return "WLB_DROPPED";
        case WLB_NO_TAB: return "WLB_NO_TAB";
        case WLB_BAD_TEXT: return "WLB_BAD_TEXT";
        case WLB_BAD_URL: return "WLB_BAD_URL";
        case WLB_OPAQUE_ORIGIN: return "WLB_OPAQUE_ORIGIN";
        case WLB_NUMBER_TAKEN: return "WLB_NUMBER_TAKEN";
        case WLB_TOO_MANY_LIVING: return "WLB_TOO_MANY_LIVING";
        case WLB_PARTITION_FULL: return "WLB_PARTITION_FULL";
        case WLB_GENERATIONS_USED_UP: return "WLB_GENERATIONS_USED_UP";
        case WLB_NOT_WELCOMED: return "WLB_NOT_WELCOMED";
        case WLB_NOT_SUPPORTED: return "WLB_NOT_SUPPORTED";
        case WLB_NAME_TOO_LONG: return "WLB_NAME_TOO_LONG";
        case WLB_TOO_MANY: return "WLB_TOO_MANY";
        case WLB_NUMBERS_USED_UP: return "WLB_NUMBERS_USED_UP";
        case WLB_HELD: return "WLB_HELD";
        case WLB_NOTHING: return "WLB_NOTHING";
        case WLB_NO_CHANNEL: return "WLB_NO_CHANNEL";
        case WLB_CLOSED: return "WLB_CLOSED";
        case WLB_DATA_TOO_LONG: return "WLB_DATA_TOO_LONG";
        case WLB_TOO_MANY_CHANNELS: return "WLB_TOO_MANY_CHANNELS";
        case WLB_POSTS_USED_UP: return "WLB_POSTS_USED_UP";
        case WLB_SHORT_BUFFER: return "WLB_SHORT_BUFFER";
        default: return "unknown";
    }
}

/* ---- Hub */

/* Handle of a hub. */
typedef struct wlb_hub {
    void *at;
    bool full;
} wlb_hub;

/* Initializer of a handle that holds nothing, for a hub and for a client. */
#define WLB_EMPTY { 0, false }

/* Creates a hub without tabs and without a broker. A hub that the handle holds is freed first.
 * WLB_OK; WLB_MEMORY: the handle holds nothing. */
int32_t wlb_hub_new(wlb_hub *hub);

/* Frees the hub. The handle holds nothing afterwards. A handle that holds nothing stays as it is. */
void wlb_hub_free(wlb_hub *hub);

/* Opens a tab of a top-level document. The origin of the URL `own` is its own origin and its top-level origin. As `own` pass the
 * origin that the browser gives the document, such as https://a.test/. Its own URL may have another one. The caller chooses the
 * number. The hub puts out the tab's welcome. If a broker is up, the hub also puts out its generation.
 * WLB_OK, WLB_MEMORY, WLB_NO_HANDLE, WLB_BAD_TEXT, WLB_BAD_URL, WLB_OPAQUE_ORIGIN: a page of an opaque origin gets no tab, and
 * its calls fail with "SecurityError"; WLB_NUMBER_TAKEN, WLB_TOO_MANY_LIVING, WLB_PARTITION_FULL. */
int32_t wlb_hub_open(wlb_hub *hub, uint16_t tab, const uint8_t *own, size_t own_length);

/* Opens a tab of documents in frames. The origin of the URL `own` is their own origin, and the origin of the URL `top` is that of
 * the document at the top. With one origin for both, the tab is in the partition of wlb_hub_open. The tab may have
 * WLB_PAIR_LIVE_NUMBERS live numbers. In all else the call is as wlb_hub_open, with its statuses. */
int32_t wlb_hub_open_pair(wlb_hub *hub, uint16_t tab, const uint8_t *top, size_t top_length, const uint8_t *own,
                          size_t own_length);

/* Closes a tab: it is dead from then on, and its frames that the hub has not handled are dropped. The next calls of
 * wlb_hub_advance tell the broker, which passes the tab's locks on. Call it only after the tab has stopped running: another tab
 * gets its locks (Web Locks, "terminate remaining locks and requests").
 * WLB_OK; WLB_MEMORY: the tab lives, call again; WLB_NO_HANDLE; WLB_NO_TAB. */
int32_t wlb_hub_close(wlb_hub *hub, uint16_t tab);

/* Takes bytes that a tab has sent: any piece of its stream, of any length. Frames that are whole wait for wlb_hub_advance.
 * WLB_OK
 * WLB_MEMORY     no byte was taken: call again with the same bytes
 * WLB_BUSY       frames of an earlier call wait: call wlb_hub_advance until it returns WLB_IDLE, and then call again
 * WLB_BAD_FRAME  the bytes are no frames. The frames in front of the fault wait for wlb_hub_advance. Close the tab
 * WLB_NO_HANDLE, WLB_NO_TAB */
int32_t wlb_hub_receive(wlb_hub *hub, uint16_t tab, const uint8_t *bytes, size_t length);

/* Does one piece of work: tells the broker of a death, asks a tab to send again the commands that came while its partition
 * recovered (see wlb_hub_restart), or handles the oldest frame that waits. Deaths come first. Call it after wlb_hub_close, too.
 * While no broker is up, deaths wait, and frames for the broker are dropped; clients report anew to the next generation.
 * WLB_OK         something was done: call again
 * WLB_IDLE       there is nothing to do
 * WLB_MEMORY     call again
 * WLB_BAD_FRAME  a frame was dropped that a tab must not send. Close the tab whose bytes were received last
 * WLB_NO_HANDLE */
int32_t wlb_hub_advance(wlb_hub *hub);

/* Writes the oldest output, one whole frame, to `out`, its length to `length`, and the tab that it is for to `tab`. The hub
 * forgets it. Send the frames of a tab in this order.
 * WLB_OK
 * WLB_IDLE       there is no output
 * WLB_DROPPED    the output was dropped: its tab is dead, or a later generation has begun. Call again
 * WLB_MEMORY     call again
 * WLB_SHORT_BUFFER  `capacity` is below WLB_FRAME_BYTES
 * WLB_NO_HANDLE */
int32_t wlb_hub_next_output(wlb_hub *hub, uint16_t *tab, uint8_t *out, size_t capacity, size_t *length);

/* Starts the broker of the next generation with all living tabs. The first call starts the first one. A broker that is up is
 * stopped first and loses its state. Each client reports its locks to the new broker. A partition recovers, and grants nothing,
 * until each of its tabs that lived at this call has reported or is closed. Until then the broker drops commands; clients send
 * them again.
 * WLB_OK
 * WLB_MEMORY               no broker is up: call again
 * WLB_GENERATIONS_USED_UP  the broker stays up
 * WLB_NO_HANDLE */
int32_t wlb_hub_restart(wlb_hub *hub);

/* Returns whether the tab was opened and is not closed. Returns false if the handle holds nothing. */
bool wlb_hub_is_living(wlb_hub *hub, uint16_t tab);

/* Numbers of a hub. */
typedef struct wlb_hub_numbers {
    uint32_t generation; /* of the broker that is up, or 0 */
    uint32_t living;     /* living tabs */
    uint32_t untold;     /* dead tabs that the broker was not told of */
    uint64_t outputs;    /* frames for wlb_hub_next_output */
} wlb_hub_numbers;

/* Writes the numbers of the hub. WLB_OK, WLB_NO_HANDLE. */
int32_t wlb_hub_status(wlb_hub *hub, wlb_hub_numbers *numbers);

/* ---- Client */

/* Handle of a client. */
typedef struct wlb_client {
    void *at;
    bool full;
} wlb_client;

/* Kinds of events. */
enum wlb_event_kind {
    WLB_WELCOMED = 1,      /* the hub has opened the tab. number: the tab */
    WLB_ENTERED = 2,       /* a generation has begun. number: the generation; count: numbers that the restart ended, which are
                              probes that got no lock and queries that get no answer: see wlb_client_item */
    WLB_GRANTED = 3,       /* the tab holds a lock. number: of its request or probe */
    WLB_WAITING = 4,       /* a request waits. The event may come again. number: of the request */
    WLB_NOT_AVAILABLE = 5, /* a probe got no lock (Web Locks, `ifAvailable`). number: of the probe */
    WLB_LOST = 6,          /* a query gets no answer: it was sent again. number: of the query */
    WLB_ANSWERED = 7,      /* a query is answered. number: of the query; count: entries of the snapshot, see wlb_client_entry */
    WLB_POSTED = 8,        /* a post has come. count: channels that have it in their inbox, see wlb_client_item */
    WLB_OTHER = 9          /* reserved: no event has this kind */
};

/* Event of a client. `number` and `count` are 0 if the kind does not use them. */
typedef struct wlb_event {
    uint32_t kind;
    uint32_t number;
    uint32_t count;
} wlb_event;

/* Lock or request in a snapshot (Web Locks, "snapshot the lock state"). */
typedef struct wlb_entry {
    uint16_t tab; /* that holds or waits: the `clientId` of Web Locks */
    bool shared;  /* the mode: shared, or exclusive */
    bool held;    /* held, or pending */
} wlb_entry;

/* Creates a client that has not been welcomed. A client that the handle holds is freed first.
 * WLB_OK; WLB_MEMORY: the handle holds nothing. */
int32_t wlb_client_new(wlb_client *client);

/* Frees the client. The handle holds nothing afterwards. A handle that holds nothing stays as it is. The hub hears nothing of it:
 * close the tab there. */
void wlb_client_free(wlb_client *client);

/* Takes bytes that the hub has sent: any piece of the tab's stream. Frames that are whole wait for wlb_client_advance.
 * WLB_OK
 * WLB_MEMORY     no byte was taken: call again with the same bytes
 * WLB_BUSY       frames of an earlier call wait: call wlb_client_advance until it returns WLB_IDLE, and then call again
 * WLB_BAD_FRAME  the bytes are no frames. The frames in front of the fault wait for wlb_client_advance. Close the link
 * WLB_NO_HANDLE */
int32_t wlb_client_receive(wlb_client *client, const uint8_t *bytes, size_t length);

/* Handles the oldest frame that waits, which may make an event.
 * WLB_OK         a frame was handled: call again
 * WLB_IDLE       no frame waits
 * WLB_MEMORY     call again
 * WLB_BAD_FRAME  the first frame of all is no welcome, and was dropped. Close the link
 * WLB_NO_HANDLE */
int32_t wlb_client_advance(wlb_client *client);

/* Writes the oldest output, one whole frame, to `out`, and its length to `length`. The client forgets it.
 * WLB_OK
 * WLB_IDLE       there is no output
 * WLB_DROPPED    there is nothing to send this time: no generation was entered, or a report was prepared. Call again
 * WLB_MEMORY     call again
 * WLB_SHORT_BUFFER  `capacity` is below WLB_FRAME_BYTES
 * WLB_NO_HANDLE */
int32_t wlb_client_next_output(wlb_client *client, uint8_t *out, size_t capacity, size_t *length);

/* Writes the oldest event and forgets it. It is the last event from then on, for wlb_client_item and wlb_client_entry. Nothing
 * bounds the number of events that wait, so take them after each call of wlb_client_advance.
 * WLB_OK; WLB_IDLE: there is no event; WLB_NO_HANDLE. */
int32_t wlb_client_next_event(wlb_client *client, wlb_event *event);

/* Writes an item of the last event: of WLB_ENTERED a number that ended, of WLB_POSTED a channel. Items are counted from 0.
 * WLB_OK; WLB_NOTHING: the last event has no such item; WLB_NO_HANDLE. */
int32_t wlb_client_item(wlb_client *client, size_t index, uint32_t *number);

/* Writes an entry of the last event, if it is WLB_ANSWERED, and the entry's name without a NUL. Entries are counted from 0: held
 * locks in the order of granting, and then requests in the order of queueing.
 * WLB_OK; WLB_NOTHING: there is no such entry; WLB_SHORT_BUFFER: `capacity` is below WLB_NAME_BYTES; WLB_NO_HANDLE. */
int32_t wlb_client_entry(wlb_client *client, size_t index, wlb_entry *entry, uint8_t *name, size_t capacity,
                         size_t *length);

/* Requests a lock (Web Locks, "request a lock"), shared or exclusive, and writes the number of the request. Its events are
 * WLB_GRANTED, or WLB_WAITING and later WLB_GRANTED. A restart may repeat WLB_WAITING, never WLB_GRANTED. A client that was
 * welcomed keeps its requests until it enters a generation, and then sends them.
 * WLB_OK, WLB_MEMORY, WLB_NO_HANDLE, WLB_NOT_WELCOMED, WLB_BAD_TEXT, WLB_NOT_SUPPORTED, WLB_NAME_TOO_LONG, WLB_TOO_MANY,
 * WLB_NUMBERS_USED_UP. */
int32_t wlb_client_request(wlb_client *client, const uint8_t *name, size_t name_length, bool shared, uint32_t *number);

/* Requests a lock if it is available (Web Locks, `ifAvailable`), and writes the number of the probe. Its event is WLB_GRANTED or
 * WLB_NOT_AVAILABLE, or it is an item of WLB_ENTERED. The statuses are those of wlb_client_request. */
int32_t wlb_client_probe(wlb_client *client, const uint8_t *name, size_t name_length, bool shared, uint32_t *number);

/* Queries all locks and requests of the tab's partition (Web Locks, `query()`), and writes the number of the query. Its event is
 * WLB_ANSWERED or WLB_LOST, or it is an item of WLB_ENTERED.
 * WLB_OK, WLB_MEMORY, WLB_NO_HANDLE, WLB_NOT_WELCOMED, WLB_TOO_MANY, WLB_NUMBERS_USED_UP. */
int32_t wlb_client_query(wlb_client *client, uint32_t *number);

/* Aborts a request that is not held (Web Locks, `signal`). The number is over and gets no new event. A probe cannot be
 * aborted.
 * WLB_OK; WLB_HELD: the lock is held; WLB_NOTHING: no such request is live; WLB_MEMORY, WLB_NO_HANDLE, WLB_NOT_WELCOMED. */
int32_t wlb_client_abort(wlb_client *client, uint32_t number);

/* Releases a held lock (Web Locks, "release the lock"). The number is over.
 * WLB_OK; WLB_NOTHING: no lock with this number is held; WLB_MEMORY, WLB_NO_HANDLE, WLB_NOT_WELCOMED. */
int32_t wlb_client_release(wlb_client *client, uint32_t number);

/* Puts out again all that the broker has not answered. Only a link that loses frames needs this call.
 * WLB_OK, WLB_MEMORY, WLB_NO_HANDLE, WLB_NOT_WELCOMED. */
int32_t wlb_client_resend(wlb_client *client);

/* Opens a channel (a BroadcastChannel object) and writes its number. Numbers count from 0 and are not used again.
 * WLB_OK, WLB_MEMORY, WLB_NO_HANDLE, WLB_NOT_WELCOMED, WLB_BAD_TEXT, WLB_NAME_TOO_LONG, WLB_TOO_MANY_CHANNELS. */
int32_t wlb_client_open_channel(wlb_client *client, const uint8_t *name, size_t name_length, uint32_t *channel);

/* Posts data, any bytes, to all other channels of the name in the partition. The tab's own other channels have the post in their
 * inbox when the call returns, and WLB_POSTED tells of them. A post to other tabs may be lost with its link. Nothing sends it
 * again.
 * WLB_OK, WLB_MEMORY, WLB_NO_HANDLE, WLB_NOT_WELCOMED, WLB_NO_CHANNEL, WLB_CLOSED, WLB_DATA_TOO_LONG, WLB_POSTS_USED_UP. */
int32_t wlb_client_post(wlb_client *client, uint32_t channel, const uint8_t *data, size_t length);

/* Takes the oldest post out of a channel's inbox, and writes its data, the data's length and the tab that posted it.
 * WLB_OK; WLB_IDLE: the inbox is empty; WLB_SHORT_BUFFER: `capacity` is below WLB_DATA_BYTES; WLB_NO_HANDLE, WLB_NOT_WELCOMED,
 * WLB_NO_CHANNEL, WLB_CLOSED. */
int32_t wlb_client_read(wlb_client *client, uint32_t channel, uint16_t *source, uint8_t *data, size_t capacity,
                        size_t *length);

/* Closes a channel and drops its inbox. It may have been closed before.
 * WLB_OK, WLB_NO_HANDLE, WLB_NOT_WELCOMED, WLB_NO_CHANNEL. */
int32_t wlb_client_close_channel(wlb_client *client, uint32_t channel);

#ifdef __cplusplus
}
#endif

#endif
