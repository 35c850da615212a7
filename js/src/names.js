// Names on the wire. A DOMString may have lone surrogates, and a name of the protocol is UTF-8.
//
// The rule: a lone surrogate is written as U+FDD0, a noncharacter, and its four hexadecimal digits in lower case. U+FDD0 itself is
// written in the same way. So each DOMString has one form, and two names are equal if their forms are.

const ESCAPE = '\uFDD0';
const ESCAPED = /\uFDD0|[\uD800-\uDBFF](?![\uDC00-\uDFFF])|(?<![\uD800-\uDBFF])[\uDC00-\uDFFF]/g;
const encoder = new TextEncoder(), decoder = new TextDecoder('utf-8', { ignoreBOM: true });

/** Returns the bytes of a name. */
export function encodeName(name) {
  return encoder.encode(name.replace(ESCAPED, unit => ESCAPE + unit.charCodeAt(0).toString(16)));
}

/** Returns the name with these bytes. */
export function decodeName(bytes) {
  return decoder.decode(bytes).replace(/\uFDD0(fdd0|d[89a-f][0-9a-f]{2})/g, (_, digits) => String.fromCharCode(parseInt(digits, 16)));
}
