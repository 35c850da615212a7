// Tests of the suite that run, tests that do not run and why, and subtests that are known to fail and why.

const locks = 'web-locks/', channels = 'webmessaging/broadcastchannel/';
const A = 'https://a.test', B = 'https://b.test', IDN = 'https://天気の良い日.a.test';

export const FOLDERS = [locks, channels];

/** Origins of the suite: its own, and one of another site. */
export const HOSTS = { own: A, other: B };

// `tabs`: tabs that a test needs besides its page's, as [top origin, own origin, count].
export const RUN = [
  { file: `${locks}acquire.https.any.js` },
  { file: `${locks}held.https.any.js` },
  { file: `${locks}ifAvailable.https.any.js` },
  { file: `${locks}lock-attributes.https.any.js` },
  {
    file: `${locks}mode-exclusive.https.any.js`,
    knownAtRestart: [['Requests for distinct resources can be granted', 'after a restart, grants of different names have no order']],
  },
  { file: `${locks}mode-mixed.https.any.js` },
  { file: `${locks}mode-shared.https.any.js` },
  { file: `${locks}query-empty.https.any.js` },
  { file: `${locks}query.https.any.js`, tabs: [[A, A, 2]] },
  { file: `${locks}resource-names.https.any.js` },
  { file: `${locks}signal.https.any.js` },
  {
    // It asks for the order of requests of three frames, which share an event loop. Threads: the frames share the page's thread and its
    // port. Processes: the frames take turns (run.js).
    file: `${locks}query-ordering.https.html`, tabs: [[A, A, 3]], framesAreLocal: true, framesHaveTabs: true,
    knownAtRestart: [['Requests appear in state in order made.', 'after a restart, the requests of different tabs have no order']],
  },
  { file: `${locks}frames.https.html`, tabs: [[A, A, 14]] },
  { file: `${locks}workers.https.html`, tabs: [[A, A, 5]] },
  {
    file: `${locks}partitioned-web-locks.tentative.https.html`, tabs: [[B, B, 1], [B, A, 1], [A, A, 2], [A, B, 1]],
    // The suite calls this test optional.
    known: [[
      'WebLocks of a nested iframe with a cross-site ancestor are partitioned',
      'a partition has a top-level and an own origin, and no ancestors between them',
    ]],
  },
  { file: `${locks}opaque-origin.https.html`, tabs: [[A, A, 2]] },
  { file: `${channels}basics.any.js` },
  { file: `${channels}interface.any.js` },
  { file: `${channels}workers.html`, tabs: [[A, A, 16]] },
  // It asks for the order of messages to three frames, which share an event loop. Here one tab has all of them.
  { file: `${channels}ordering.html`, framesAreLocal: true },
  { file: `${channels}cross-origin.html`, tabs: [[A, B, 1]] },
  {
    file: `${channels}cross-partition.https.tentative.html`, tabs: [[B, B, 4], [B, A, 7], [A, A, 11]],
    skip: [["BroadcastChannel messages aren't received from a cross-partition service worker", 'service workers']],
  },
  { file: `${channels}origin.window.js`, tabs: [[A, IDN, 1]] },
];

export const SKIP = [
  [`${locks}steal.https.any.js`, 'steal is not supported'],
  [`${locks}storage-buckets.tentative.https.any.js`, 'storage buckets are not supported'],
  [`${locks}idlharness.https.any.js`, 'it compares the IDL of a browser'],
  [`${locks}bfcache/*`, 'it needs the back/forward cache of a browser'],
  [`${locks}crashtests/*`, 'they look for crashes of a browser'],
  [`${locks}non-fully-active.https.html`, 'it needs documents of a browser'],
  [`${locks}non-secure-context.any.js`, 'it needs contexts of a browser'],
  [`${locks}secure-context.https.any.js`, 'it needs contexts of a browser'],
  [`${locks}clientids.https.html`, 'it needs service workers'],
  [`${channels}blobs.html`, 'a message cannot have blobs'],
  [`${channels}sandbox.html`, 'a document of an opaque origin has no tab'],
  [`${channels}opaque-origin.html`, 'a document of an opaque origin has no tab'],
  [`${channels}detached-iframe.html`, 'it needs documents of a browser'],
  [`${channels}service-worker.https.html`, 'it needs service workers'],
];
