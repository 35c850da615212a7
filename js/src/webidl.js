// Parts of the Web IDL standard that the interfaces of this package share.

/** Key to constructors that only this package may call. */
export const INTERNAL = Symbol('internal');

export function illegal() {
  return new TypeError('Illegal constructor');
}

/** Converts to the enumeration LockMode. */
export function lockMode(value) {
  const mode = `${value}`;
  if (mode !== 'shared' && mode !== 'exclusive') throw new TypeError(`${mode} is not a LockMode`);
  return mode;
}

/** Makes members of a class enumerable, and names the class for Object.prototype.toString. */
export function expose(type, ...members) {
  for (const member of members) {
    Object.defineProperty(type.prototype, member, { ...Object.getOwnPropertyDescriptor(type.prototype, member), enumerable: true });
  }
  Object.defineProperty(type.prototype, Symbol.toStringTag, { value: type.name, configurable: true });
}

/** Defines the event handler `on<type>` of an EventTarget (HTML, "event handler IDL attributes"). */
export function exposeHandler(target, type) {
  const handlers = new WeakMap();
  Object.defineProperty(target.prototype, `on${type}`, {
    configurable: true,
    enumerable: true,
    get() { return handlers.get(this)?.callback ?? null; },
    set(value) {
      const callback = typeof value === 'function' || (typeof value === 'object' && value !== null) ? value : null;
      const handler = handlers.get(this);
      if (handler) {
        handler.callback = callback;
      } else if (callback) {
        const made = { callback };
        handlers.set(this, made);
        this.addEventListener(type, event => {
          if (typeof made.callback !== 'function') return;
          if (made.callback.call(this, event) === false) event.preventDefault();
        });
      }
    },
  });
}
