// Bytes of a message: a value as structuredClone copies it, if each part of it has a form below.
//
// A message has the byte 1, the version, and then one value. A value is a tag, an ASCII letter, and its content. Numbers are
// big-endian; length (of bytes), count and index are u32.
//
//   u n t f   undefined, null, true, false
//   d         number: float64
//   i         bigint: length, and hexadecimal digits in lower case after `-` if it is negative
//   s         string without lone surrogates: length, and UTF-8
//   w         string with lone surrogates: length, and 16-bit units
//   o         object: count, and pairs of a key (a value `s` or `w`) and a value
//   a         array: u32 length of the array, and then as an object
//   O         object of a boolean, number, string or bigint: the primitive value
//   D         Date: float64, milliseconds since 1970 or NaN
//   R         RegExp: source and flags, two values `s` or `w`
//   M         Map: count of keys and values together, then key, value, key, value ..
//   S         Set: count, and the values
//   B         ArrayBuffer: length, and the bytes
//   V         typed array, DataView: u8 type, its place in VIEWS, from 0; the buffer, a value; u32 offset in bytes; u32 length in
//             elements (DataView: in bytes). Elements have the sender's byte order, little-endian on all usual machines
//   E         Error: u8 type, its place in ERRORS, from 0 (0 for an unknown name); message, stack and cause, values, `u` if absent
//   r         object that came before: index. Values with the tags `o` to `E` are counted from 0, each at its tag

const VERSION = 1;
const encoder = new TextEncoder();
const strict = new TextDecoder('utf-8', { fatal: true, ignoreBOM: true });
const VIEWS = [
  'Int8Array', 'Uint8Array', 'Uint8ClampedArray', 'Int16Array', 'Uint16Array', 'Int32Array', 'Uint32Array', 'Float32Array',
  'Float64Array', 'BigInt64Array', 'BigUint64Array', 'DataView',
];
const ERRORS = ['Error', 'EvalError', 'RangeError', 'ReferenceError', 'SyntaxError', 'TypeError', 'URIError'];

/** Returns the bytes of a value. Throws the errors of structuredClone, and a DataCloneError if a part has no form. */
export function serialize(value) {
  const writer = new Writer();
  writer.value(structuredClone(value));
  return writer.bytes();
}

/** Returns the value of these bytes. Throws an error if they are not the bytes of a value. */
export function deserialize(bytes) {
  const reader = new Reader(bytes);
  const value = reader.value();
  reader.end();
  return value;
}

/** Returns the class of a clone, also of one from another realm, where `instanceof` is false. */
function typeOf(object) {
  return Object.prototype.toString.call(object).slice(8, -1);
}

function uncloneable(object) {
  return new DOMException(`a ${typeOf(object)} has no bytes as a message`, 'DataCloneError');
}

class Writer {
  #bytes = [VERSION];
  #seen = new Map();

  bytes() { return Uint8Array.from(this.#bytes); }

  #tag(letter) { this.#bytes.push(letter.charCodeAt(0)); }
  #u32(value) { this.#bytes.push(value >>> 24, (value >>> 16) & 255, (value >>> 8) & 255, value & 255); }
  #append(bytes) {
    this.#u32(bytes.length);
    for (const byte of bytes) this.#bytes.push(byte);
  }

  #f64(value) {
    const view = new DataView(new ArrayBuffer(8));
    view.setFloat64(0, value);
    this.#bytes.push(...new Uint8Array(view.buffer));
  }

  value(value) {
    switch (typeof value) {
      case 'undefined': return this.#tag('u');
      case 'boolean': return this.#tag(value ? 't' : 'f');
      case 'number':
        this.#tag('d');
        return this.#f64(value);
      case 'bigint':
        this.#tag('i');
        return this.#append(encoder.encode(value.toString(16)));
      case 'string': return this.#string(value);
      default: return value === null ? this.#tag('n') : this.#object(value);
    }
  }

  /** UTF-8, or 16-bit units if there are lone surrogates. */
  #string(text) {
    const utf8 = encoder.encode(text);
    if (strict.decode(utf8) === text) {
      this.#tag('s');
      return this.#append(utf8);
    }
    this.#tag('w');
    return this.#append(Array.from({ length: 2 * text.length }, (_, at) => (text.charCodeAt(at >> 1) >> (at % 2 ? 0 : 8)) & 255));
  }

  #object(object) {
    const seen = this.#seen.get(object);
    if (seen !== undefined) {
      this.#tag('r');
      return this.#u32(seen);
    }
    this.#seen.set(object, this.#seen.size);
    if (ArrayBuffer.isView(object)) return this.#view(object);
    if (Array.isArray(object)) {
      this.#tag('a');
      this.#u32(object.length);
      return this.#properties(object);
    }
    if (object instanceof Error) return this.#error(object);
    switch (typeOf(object)) {
      case 'Object':
        this.#tag('o');
        return this.#properties(object);
      case 'Boolean':
      case 'Number':
      case 'String':
      case 'BigInt':
        this.#tag('O');
        return this.value(object.valueOf());
      case 'Date':
        this.#tag('D');
        return this.#f64(object.getTime());
      case 'RegExp':
        this.#tag('R');
        this.value(object.source);
        return this.value(object.flags);
      case 'Map':
        this.#tag('M');
        return this.#list([...object].flat());
      case 'Set':
        this.#tag('S');
        return this.#list([...object]);
      case 'ArrayBuffer':
        this.#tag('B');
        return this.#append(new Uint8Array(object));
      default: throw uncloneable(object);
    }
  }

  #list(values) {
    this.#u32(values.length);
    for (const value of values) this.value(value);
  }

  #properties(object) {
    const keys = Object.keys(object);
    this.#u32(keys.length);
    for (const key of keys) {
      this.value(key);
      this.value(object[key]);
    }
  }

  #view(view) {
    const type = VIEWS.indexOf(typeOf(view));
    if (type < 0) throw uncloneable(view);
    this.#tag('V');
    this.#bytes.push(type);
    this.value(view.buffer);
    this.#u32(view.byteOffset);
    this.#u32(view.length ?? view.byteLength);
  }

  #error(error) {
    this.#tag('E');
    this.#bytes.push(Math.max(0, ERRORS.indexOf(error.name)));
    for (const key of ['message', 'stack', 'cause']) this.value(Object.hasOwn(error, key) ? error[key] : undefined);
  }
}

class Reader {
  #bytes;
  #view;
  #at = 0;
  #seen = [];

  constructor(bytes) {
    this.#bytes = bytes;
    this.#view = new DataView(bytes.buffer, bytes.byteOffset, bytes.byteLength);
    if (this.#u8() !== VERSION) throw new RangeError('this is a message of another version');
  }

  end() {
    if (this.#at !== this.#bytes.length) throw new RangeError('a message has bytes behind its end');
  }

  /** Moves past bytes, and returns where they begin. */
  #past(length) {
    const from = this.#at;
    if (length > this.#bytes.length - from) throw new RangeError('a message is cut off');
    this.#at += length;
    return from;
  }

  #u8() { return this.#view.getUint8(this.#past(1)); }
  #u32() { return this.#view.getUint32(this.#past(4)); }
  #f64() { return this.#view.getFloat64(this.#past(8)); }
  #some() {
    const length = this.#u32(), from = this.#past(length);
    return this.#bytes.subarray(from, from + length);
  }

  /** Each item takes a byte at least, so a count cannot be above the rest. */
  #count() {
    const count = this.#u32();
    if (count > this.#bytes.length - this.#at) throw new RangeError('a message is cut off');
    return count;
  }

  #text() {
    const text = this.value();
    if (typeof text !== 'string') throw new TypeError('a message has another value in the place of a string');
    return text;
  }

  value() {
    const tag = String.fromCharCode(this.#u8());
    switch (tag) {
      case 'u': return undefined;
      case 'n': return null;
      case 't': return true;
      case 'f': return false;
      case 'd': return this.#f64();
      case 'i': return bigint(strict.decode(this.#some()));
      case 's': return strict.decode(this.#some());
      case 'w': return this.#units();
      case 'r': return this.#reference();
      default: return this.#object(tag);
    }
  }

  #units() {
    const bytes = this.#some();
    if (bytes.length % 2) throw new RangeError('a message has half of a unit');
    let text = '';
    for (let at = 0; at < bytes.length; at += 2) text += String.fromCharCode((bytes[at] << 8) | bytes[at + 1]);
    return text;
  }

  #reference() {
    const object = this.#seen[this.#u32()];
    if (object === undefined) throw new RangeError('a message refers to nothing');
    return object;
  }

  #object(tag) {
    const place = this.#seen.push(undefined) - 1;
    const put = object => { this.#seen[place] = object; return object; };
    switch (tag) {
      case 'o': return this.#properties(put({}));
      case 'a': return this.#array(put);
      case 'O': return put(Object(this.#primitive()));
      case 'D': return put(new Date(this.#f64()));
      case 'R': return put(new RegExp(this.#text(), this.#text()));
      case 'M': return this.#map(put(new Map()));
      case 'S': return this.#set(put(new Set()));
      case 'B': return put(this.#some().slice().buffer);
      case 'V': return put(this.#typed());
      case 'E': return this.#error(put);
      default: throw new RangeError('a message has an unknown tag');
    }
  }

  #primitive() {
    const value = this.value();
    if (value === null || !['boolean', 'number', 'string', 'bigint'].includes(typeof value)) throw new TypeError('no primitive value');
    return value;
  }

  #properties(object) {
    for (let left = this.#count(); left > 0; left--) {
      const key = this.#text();
      Object.defineProperty(object, key, { value: this.value(), writable: true, enumerable: true, configurable: true });
    }
    return object;
  }

  #array(put) {
    const array = put([]);
    array.length = this.#u32();
    return this.#properties(array);
  }

  #map(map) {
    const count = this.#count();
    if (count % 2) throw new RangeError('a message has a key without a value');
    for (let left = count; left > 0; left -= 2) map.set(this.value(), this.value());
    return map;
  }

  #set(set) {
    for (let left = this.#count(); left > 0; left--) set.add(this.value());
    return set;
  }

  #typed() {
    const type = VIEWS[this.#u8()], buffer = this.value();
    if (type === undefined || !(buffer instanceof ArrayBuffer)) throw new TypeError('a message has a view of nothing');
    return new globalThis[type](buffer, this.#u32(), this.#u32());
  }

  #error(put) {
    const type = ERRORS[this.#u8()];
    if (type === undefined) throw new RangeError('a message has an unknown error');
    const error = put(new globalThis[type]());
    for (const key of ['message', 'stack', 'cause']) {
      const value = this.value();
      if (value === undefined) delete error[key];
      else Object.defineProperty(error, key, { value, writable: true, enumerable: false, configurable: true });
    }
    return error;
  }
}

function bigint(text) {
  const [, sign, digits] = /^(-?)([0-9a-f]+)$/.exec(text) ?? [];
  if (digits === undefined) throw new SyntaxError('a message has an integer of another form');
  return sign ? -BigInt(`0x${digits}`) : BigInt(`0x${digits}`);
}
