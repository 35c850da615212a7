// The environment of a tab of the suite: a page with testharness.js, or a frame, a popup or a worker of one, in a thread or a process of
// its own. It imitates only those parts of a browser that the tests use. A context has a name; the runner passes messages between
// contexts.

import fs from 'node:fs';
import path from 'node:path';
import vm from 'node:vm';
import { Lock, LockManager } from '../src/index.js';
import { exposeHandler } from '../src/webidl.js';

// Scripts of other directories of the suite, which the stand-ins below replace.
const REPLACED = /^\/(common|service-workers|html|resources\/testharness)/;

/** A message event with any source. */
class MessageEvent extends Event {
  constructor(type, { data = null, origin = '', source = null, ports = [] } = {}) {
    super(type);
    Object.assign(this, { data, origin, source, ports, lastEventId: '' });
  }
}

/** The locks of a document of an opaque origin, which has no tab. */
const refusing = {
  request: async () => { throw new DOMException('an opaque origin has no locks', 'SecurityError'); },
  query: async () => { throw new DOMException('an opaque origin has no locks', 'SecurityError'); },
};

/** The scripts of a page's HTML, in order: {src} or {text, line}. */
function scriptsOf(html) {
  const scripts = [], pattern = /<script([^>]*)>([\s\S]*?)<\/script>/g;
  for (let match; (match = pattern.exec(html));) {
    const src = /\bsrc\s*=\s*["']?([^"'\s>]+)/.exec(match[1]);
    const line = html.slice(0, match.index).split('\n').length - 1;
    scripts.push(src ? { src: src[1] } : { text: match[2].replace(/^\s*<!--/, '').replace(/\/\/-->\s*$/, ''), line });
  }
  return scripts;
}

export function become(context, spec) {
  const { tab, tell } = context, { suite } = spec;
  const fileOf = url => path.join(suite, decodeURIComponent(new URL(url).pathname));
  const task = run => setImmediate(run);
  const url = new URL(spec.url);
  const isWorker = spec.as === 'worker' || spec.as === 'sharedworker';
  const g = globalThis;
  const define = (name, value) => Object.defineProperty(g, name, { value, writable: true, configurable: true, enumerable: true });

  // ---- the global object as an event target

  const listeners = new Map();
  const listOf = type => listeners.get(type) || listeners.set(type, []).get(type);
  const report = error => {
    const event = { type: 'error', error, message: String((error && error.message) || error), filename: '', lineno: 0, colno: 0 };
    if (!dispatch(event) && spec.as !== 'page') process.stderr.write(`${spec.ctx}: ${(error && error.stack) || error}\n`);
  };
  const dispatch = event => {
    const list = [...listOf(event.type)];
    for (const row of list) {
      if (!listOf(event.type).includes(row)) continue;
      if (row.once) listeners.set(event.type, listOf(event.type).filter(other => other !== row));
      try {
        row.run.call(g, event);
      } catch (error) {
        if (event.type === 'error') process.stderr.write(`${error.stack}\n`);
        else report(error);
      }
    }
    return list.length > 0;
  };
  define('self', g);
  define('addEventListener', (type, run, options) => {
    const once = Boolean(options && options.once);
    if (!listOf(type).some(row => row.run === run)) listOf(type).push({ run, once });
  });
  define('removeEventListener', (type, run) => { listeners.set(type, listOf(type).filter(row => row.run !== run)); });
  for (const type of ['message', 'load', 'error', 'connect', 'unhandledrejection', 'messageerror']) {
    let row = null;
    Object.defineProperty(g, `on${type}`, {
      configurable: true,
      get: () => (row && row.is) || null,
      set(run) {
        if (!row) listOf(type).push(row = { run(event) { if (row.is) row.is.call(g, event); }, is: null });
        row.is = typeof run === 'function' ? run : null;
      },
    });
  }
  // Node's own warnings, of a rejection that is handled late.
  process.removeAllListeners('warning');
  process.on('uncaughtException', report);
  process.on('unhandledRejection', reason => dispatch({ type: 'unhandledrejection', reason }));
  const fire = (type, init) => {
    const event = new MessageEvent(type, init);
    Object.defineProperty(event, 'target', { value: g });
    dispatch(event);
  };

  // ---- the platform

  const { BroadcastChannel } = tab;
  define('BroadcastChannel', BroadcastChannel);
  define('MessageEvent', MessageEvent);
  define('Lock', Lock);
  define('LockManager', LockManager);
  define('navigator', { locks: tab.locks });
  define('location', url);
  define('origin', tab.origin);
  define('isSecureContext', true);
  define('alert', message => report(new Error(`alert: ${message}`)));
  define('garbageCollect', async () => {});

  const blobs = new Map();
  define('Blob', class Blob { constructor(parts) { this.text = parts.join(''); } });
  URL.createObjectURL = blob => {
    const name = `blob:${tab.origin}/${blobs.size}`;
    blobs.set(name, blob.text);
    return name;
  };

  // ---- other contexts

  let spawned = 0;
  const windows = new Map(), ports = new Map();
  const post = (to, data) => tell({ op: 'msg', from: spec.ctx, to, data: structuredClone(data) });
  const spawn = (as, target, more = {}) => {
    const ctx = `${spec.ctx}/${spawned++}`;
    const source = blobs.get(target);
    tell({ op: 'spawn', by: spec.ctx, ctx, as, url: source === undefined ? new URL(target, url).href : url.href, source, ...more });
    return ctx;
  };
  const kill = (ctx, how) => tell({ op: 'kill', ctx, how });

  class RemoteWindow {
    #calls = new Map();
    constructor(ctx) { this.ctx = ctx; }
    postMessage(data) { post(this.ctx, data); }
    close() { kill(this.ctx, 'exit'); }
    // Only the call that the tests make on a same-origin frame's locks.
    get navigator() {
      return { locks: { request: (name, callback) => {
        const id = this.#calls.size;
        this.#calls.set(id, callback);
        post(this.ctx, { rpc: 'request', id, name });
      } } };
    }
    granted(id) { this.#calls.get(id)(); }
  }
  const windowOf = ctx => windows.get(ctx) || windows.set(ctx, new RemoteWindow(ctx)).get(ctx);

  class Port extends EventTarget {
    constructor(ctx) {
      super();
      this.ctx = ctx;
      this.isOpen = true;
    }
    postMessage(data) { post(this.ctx, data); }
    start() {}
    close() { this.isOpen = false; }
    come(data) { if (this.isOpen) this.dispatchEvent(new MessageEvent('message', { data })); }
  }
  exposeHandler(Port, 'message');
  define('Worker', class Worker extends Port {
    constructor(target) {
      super(spawn('worker', target));
      ports.set(this.ctx, this);
    }
    terminate() {
      this.close();
      kill(this.ctx, 'kill');
    }
  });
  exposeHandler(g.Worker, 'error');
  define('SharedWorker', class SharedWorker extends EventTarget {
    constructor(target) {
      super();
      this.port = new Port(spawn('sharedworker', target));
      ports.set(this.port.ctx, this.port);
    }
  });

  const run = (text, filename, lineOffset = 0) => vm.runInThisContext(text, { filename, lineOffset });
  const runFile = target => {
    const whole = new URL(target, url);
    if (REPLACED.test(whole.pathname)) return;
    run(fs.readFileSync(fileOf(whole), 'utf8'), fileOf(whole));
  };

  // ---- messages of the runner

  const elements = new Map();
  /** Tells the runner when the broker has taken this tab's earlier commands: it then answers a query. */
  const stepped = () => tab.locks.query().catch(() => {}).then(() => tell({ op: 'stepped' }));
  context.come = message => {
    switch (message.op) {
      case 'msg': return task(() => {
        const { from, data } = message;
        if (ports.has(from)) ports.get(from).come(data);
        else if (data && data.rpc === 'request') {
          navigator.locks.request(data.name, () => {
            post(from, { rpc: 'granted', id: data.id });
            return new Promise(() => {});
          });
        } else if (data && data.rpc === 'granted') windowOf(from).granted(data.id);
        else fire('message', { data, source: isWorker ? null : windowOf(from), origin: message.origin });
        if (message.isStep) task(stepped);
      });
      case 'loaded': return task(() => {
        const element = elements.get(message.ctx);
        if (element) element.dispatchEvent(new Event('load'));
      });
      case 'received': return task(() => receivers.shift()(message.data));
      case 'failed': return report(new Error(message.why));
    }
  };

  // ---- the dispatcher of the web platform tests

  const receivers = [];
  define('token', () => crypto.randomUUID());
  define('send', async (uuid, data) => tell({ op: 'send', uuid, data: String(data) }));
  define('receive', uuid => new Promise(resolve => {
    receivers.push(resolve);
    tell({ op: 'receive', by: spec.ctx, uuid });
  }));
  define('executor_path', '/common/dispatcher/executor.html?pipe=');
  define('executor_worker_path', '/common/dispatcher/executor-worker.js?pipe=');
  define('importScript', async function importScript(_url) {});
  const executor = (where, open) => {
    const uuid = g.token();
    open(`${where}${g.executor_path}&uuid=${uuid}`);
    return uuid;
  };
  define('newPopup', (t, where) => executor(where, target => {
    const popup = g.open(target);
    t.add_cleanup(() => popup.close());
  }));
  define('newIframe', where => executor(where, target => {
    const frame = document.createElement('iframe');
    frame.src = target;
    document.body.appendChild(frame);
  }));
  define('get_host_info', () => ({ HTTPS_ORIGIN: spec.hosts.own, HTTPS_NOTSAMESITE_ORIGIN: spec.hosts.other }));
  define('service_worker', undefined);
  const execute = async () => {
    for (;;) {
      const script = await g.receive(url.searchParams.get('uuid'));
      try {
        await run(`(async function() { ${script}\n })()`, 'executor');
      } catch (error) {
        report(error);
      }
    }
  };

  // ---- windows

  if (!isWorker) {
    define('window', g);
    define('open', target => windowOf(spawn('popup', target)));
    define('parent', spec.parent ? windowOf(spec.parent) : g);
    define('top', spec.top ? windowOf(spec.top) : g);
    define('opener', spec.opener ? windowOf(spec.opener) : null);
    define('close', () => context.leave());
  }

  class Element extends EventTarget {
    style = {};
    className = '';
    parentElement = null;
    children = [];
    appendChild(child) {
      child.parentElement = this;
      this.children.push(child);
      if (child.inserted) child.inserted();
      return child;
    }
    append(child) { this.appendChild(child); }
    removeChild(child) {
      this.children = this.children.filter(other => other !== child);
      child.parentElement = null;
      if (child.removed) child.removed();
      return child;
    }
    remove() { if (this.parentElement) this.parentElement.removeChild(this); }
  }

  class Frame extends Element {
    #src = 'about:blank';
    #isFirst = true;
    sandbox = '';
    srcdoc = undefined;
    ctx = null;
    contentWindow = null;
    tab = null; // of a frame in this thread
    get src() { return this.#src; }
    set src(value) {
      this.#src = value;
      if (this.parentElement) this.navigate();
    }
    inserted() { this.navigate(); }
    removed() {
      if (this.ctx) kill(this.ctx, spec.endsFramesBy);
      this.tab?.close();
      elements.delete(this.ctx);
      this.ctx = null;
    }
    navigate() {
      if (this.ctx) this.removed();
      if (spec.framesAreLocal || this.sandbox) return this.navigateHere();
      const isBlank = this.#src === 'about:blank' && this.srcdoc === undefined;
      // A frame that was navigated to about:blank has no locks and needs no tab.
      if (isBlank && !this.#isFirst) return task(() => this.dispatchEvent(new Event('load')));
      this.#isFirst = false;
      const target = isBlank || this.srcdoc !== undefined ? url.href : this.#src;
      const html = isBlank ? '' : this.srcdoc;
      this.ctx = spawn('frame', target, { html, parent: spec.ctx, topOf: spec.top || spec.ctx });
      this.contentWindow = windowOf(this.ctx);
      elements.set(this.ctx, this);
    }
    /** A frame in this thread: its own realm, with its own tab or the page's. A sandboxed frame has no tab. */
    async navigateHere() {
      const target = new URL(this.#src, url), local = {}, inner = [];
      if (spec.framesHaveTabs) this.tab = await context.openTab(target.href);
      const own = this.tab ?? tab;
      const event = (data, source) => ({ type: 'message', data, source, origin: this.sandbox ? 'null' : tab.origin });
      this.contentWindow = { postMessage: data => task(() => {
        const come = event(structuredClone(data), parent);
        if (local.onmessage) local.onmessage(come);
        for (const listener of inner) listener(come);
      }) };
      const outer = Object.create(g, { postMessage: { value: data => {
        const copy = structuredClone(data);
        task(() => fire('message', { data: copy, source: this.contentWindow, origin: event().origin }));
      } } });
      Object.assign(local, {
        window: local, self: local, parent: outer, top: outer, location: target, URLSearchParams, URL, setTimeout,
        BroadcastChannel: own.BroadcastChannel, navigator: { locks: this.sandbox ? refusing : own.locks }, console,
        addEventListener: (type, listener) => { if (type === 'message') inner.push(listener); },
      });
      vm.createContext(local);
      for (const script of scriptsOf(this.srcdoc === undefined ? fs.readFileSync(fileOf(target), 'utf8') : this.srcdoc)) {
        vm.runInContext(script.text, local, { filename: target.pathname, lineOffset: script.line });
      }
      task(() => {
        if (local.onload) local.onload();
        this.dispatchEvent(new Event('load'));
      });
    }
  }
  exposeHandler(Frame, 'load');

  const makeDocument = () => {
    const body = new Element(), root = new Element();
    define('document', {
      body, documentElement: root,
      createElement: tag => (tag === 'iframe' ? new Frame() : new Element()),
      getElementsByTagName: () => [],
      getElementsByClassName: name => [...body.children, ...root.children].filter(child => child.className === name),
    });
    define('with_iframe', target => new Promise(resolve => {
      const frame = document.createElement('iframe');
      frame.className = 'test-iframe';
      frame.src = target;
      frame.onload = () => resolve(frame);
      document.body.appendChild(frame);
    }));
  };

  const runPage = html => {
    for (const script of scriptsOf(html)) {
      try {
        if (script.src) runFile(script.src);
        else run(script.text, fileOf(url), script.line);
      } catch (error) {
        report(error);
      }
    }
    task(() => {
      dispatch({ type: 'load' });
      tell({ op: 'loaded', ctx: spec.ctx });
    });
  };

  // ---- start of the context

  if (spec.as === 'page') {
    // testharness.js runs before there is a document, so it takes this for a shell and draws nothing.
    run(fs.readFileSync(path.join(suite, 'resources/testharness.js'), 'utf8'), 'testharness.js');
    makeDocument();
    for (const verb of ['promise_test', 'async_test', 'test']) {
      const real = g[verb];
      define(verb, function(run, name, more) { return (spec.skip || []).includes(name) ? undefined : real.call(this, run, name, more); });
    }
    const names = ['PASS', 'FAIL', 'TIMEOUT', 'NOTRUN', 'PRECONDITION_FAILED'];
    const row = test => ({ name: test.name, status: names[test.status], message: test.message });
    g.add_result_callback(test => tell({ op: 'result', ...row(test) }));
    g.add_completion_callback((tests, status) => {
      const harness = { status: ['OK', 'ERROR', 'TIMEOUT', 'PRECONDITION_FAILED'][status.status], message: status.message };
      tell({ op: 'results', tests: tests.map(row), harness });
    });
    setTimeout(() => g.timeout(), spec.timeout).unref();
    if (spec.file.endsWith('.html')) runPage(fs.readFileSync(fileOf(url), 'utf8'));
    else {
      const file = path.join(suite, spec.file), text = fs.readFileSync(file, 'utf8');
      define('META_TITLE', (/^\/\/ META: title=(.*)$/m.exec(text) || [])[1]);
      for (const [, script] of text.matchAll(/^\/\/ META: script=(.*)$/gm)) runFile(script);
      run(text, file);
      task(() => dispatch({ type: 'load' }));
    }
  } else if (isWorker) {
    define('importScripts', (...targets) => targets.forEach(runFile));
    define('close', () => {
      tab.close();
      setImmediate(() => context.leave());
    });
    if (spec.as === 'worker') define('postMessage', data => post(spec.owner, data));
    if (spec.source !== undefined) run(spec.source, 'blob');
    else if (url.pathname.startsWith('/common/dispatcher/')) execute();
    else runFile(url.href);
    if (spec.as === 'sharedworker') {
      const port = new Port(spec.owner);
      ports.set(spec.owner, port);
      fire('connect', { ports: [port] });
    }
  } else {
    makeDocument();
    if (url.pathname.startsWith('/common/dispatcher/')) {
      execute();
      tell({ op: 'loaded', ctx: spec.ctx });
    } else runPage(spec.html === undefined ? fs.readFileSync(fileOf(url), 'utf8') : spec.html);
  }
}

