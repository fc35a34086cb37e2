const encoder = new TextEncoder();
const NONE = new Uint8Array(0);
const PLAIN = Uint8Array.prototype, BUFFER = globalThis.Buffer?.prototype;
const { hasOwnProperty } = PLAIN;
// What an array itself says of its kind and of where its bytes are: a property of an object, or of a class, may say
// something else, and a Proxy says nothing.
export const [kindOf, bufferOf, offsetOf, lengthOf] = [Symbol.toStringTag, 'buffer', 'byteOffset', 'length'].map((name) =>
  Object.getOwnPropertyDescriptor(Object.getPrototypeOf(PLAIN), name).get);

/** A part of an array, without the array's own `subarray`. */
export const part = (array, from, to) => new Uint8Array(bufferOf.call(array), offsetOf.call(array) + from, to - from);

const seen = (array) => (lengthOf.call(array) ? part(array, 0, lengthOf.call(array)) : NONE);

/**
 * The same bytes, after the checks of @noble/hashes; none, where the array has lost its buffer. Those of another class
 * than these, or with a `length` of their own, are seen as a plain array, so that nothing of theirs is used.
 */
export function abytes(given, length) {
  if (kindOf.call(given) !== 'Uint8Array') throw new TypeError('Uint8Array expected');
  const prototype = Object.getPrototypeOf(given);
  const isPlain = (prototype === PLAIN || prototype === BUFFER) && !hasOwnProperty.call(given, 'length');
  const bytes = isPlain ? given : seen(given);
  if (length !== undefined && bytes.length !== length)
    throw new Error(`Uint8Array expected of length ${length}, got length=${bytes.length}`);
  return bytes.length ? bytes : NONE;
}

/** The checks of @noble/hashes, which also name what is wrong. */
export function anumber(name, n, least = 0, most = Infinity) {
  if (!Number.isSafeInteger(n) || n < 0) throw new TypeError(`${name}: positive integer expected, got ${n}`);
  if (n < least) throw new TypeError(`${name} should be >= ${least}`);
  if (n > most) throw new TypeError(`${name} should be <= ${most}`);
}

/** The bytes of a message: of a text, its UTF-8. */
export function toBytes(data) {
  return abytes(typeof data === 'string' ? encoder.encode(data) : data);
}
