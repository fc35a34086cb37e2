// Hash functions in the form of @noble/hashes 1.x, over an engine (`run`). A kind says how the module is called for
// one function: `size` bytes of a digest or a tag, `length` of a state, whether it is `keyed`, and the calls.
import { IN, OUT, PIECE, STATE, big } from './engine.js';
import { abytes, part, toBytes } from './input.js';

/** How many bits the digests of a hash function of this package have. */
export const bitsOf = new WeakMap();

/** The state before the first byte; for an HMAC, that of a key of at most PIECE bytes. */
export const init = (run, kind, key = new Uint8Array(0)) => run(key.length, kind.keyed, (calls, memory) => {
  memory.set(key, IN);
  kind.init(calls, big(key.length));
  return memory.slice(STATE, STATE + kind.length);
});

/** Appends bytes to the state in its place. */
export function append(kind, calls, memory, bytes) {
  for (let i = 0; i < bytes.length; i += PIECE) {
    const piece = part(bytes, i, Math.min(i + PIECE, bytes.length));
    memory.set(piece, IN);
    kind.update(calls, big(piece.length));
  }
}

/** Appends bytes to a state. */
export const update = (run, kind, state, bytes) => run(Math.min(bytes.length, PIECE), kind.keyed, (calls, memory) => {
  memory.set(state, STATE);
  append(kind, calls, memory, bytes);
  state.set(memory.subarray(STATE, STATE + kind.length));
});

/** The digest or the tag of a state. */
export const final = (run, kind, state) => run(0, kind.keyed, (calls, memory, output) => {
  memory.set(state, STATE);
  kind.final(calls);
  return output(kind.size);
});

/** What `run` does for the digest of a message of at most PIECE bytes, which it is given. */
export const whole = (kind) => (calls, memory, output, bytes) => {
  memory.set(bytes, IN);
  kind.digest(calls, big(bytes.length));
  return output(kind.size);
};

// The bytes that a state is saved as, which are one fewer than those of the state.
const save = (run, kind, state) => run(kind.length, kind.keyed, (calls, memory) => {
  memory.set(state, STATE);
  kind.save(calls, big(kind.length - 1));
  return memory.slice(IN, IN + kind.length - 1);
});

/** A message in pieces, as its state between the calls. */
export class Hash {
  blockLen = 64;
  #run;
  #kind;
  #state;
  #ended;

  constructor(run, kind, state) {
    this.outputLen = kind.size;
    this.#run = run;
    this.#kind = kind;
    this.#state = state;
  }

  #check() {
    if (this.#ended) throw new Error(this.#ended);
  }

  update(data) {
    this.#check();
    update(this.#run, this.#kind, this.#state, toBytes(data));
    return this;
  }

  digest(encoding) {
    if (encoding !== undefined) throw new TypeError('digest() takes no encoding, and returns bytes');
    this.#check();
    const digest = final(this.#run, this.#kind, this.#state);
    this.destroy();
    return digest;
  }

  digestInto(out) {
    const { keyed, size } = this.#kind;
    this.#check();
    const place = abytes(out, keyed ? size : undefined);
    if (place.length < size) throw new Error(`digestInto() expects output buffer of length at least ${size}`);
    place.set(final(this.#run, this.#kind, this.#state));
    this.#ended = 'Hash#digest() has already been called';
    if (keyed) this.destroy();
  }

  clone() {
    return this._cloneInto();
  }

  _cloneInto(to) {
    to ||= new this.constructor(this.#run, this.#kind, this.#state.slice());
    if (to.#kind !== this.#kind) throw new TypeError('Hash of the same function expected');
    to.#state.set(this.#state);
    to.#ended = this.#ended;
    return to;
  }

  save() {
    this.#check();
    return save(this.#run, this.#kind, this.#state);
  }

  destroy() {
    this.#ended = 'Hash instance has been destroyed';
    this.#state.fill(0);
  }
}

/** The state that was saved as these bytes, as a Hash or an Hmac. */
export function loaded(type, run, kind, saved) {
  const bytes = abytes(saved, kind.length - 1);
  const state = run(bytes.length, kind.keyed, (calls, memory) => {
    memory.set(bytes, IN);
    return kind.load(calls, big(bytes.length)) && memory.slice(STATE, STATE + kind.length);
  });
  if (!state) throw new Error('saved state expected');
  return new type(run, kind, state);
}

export function hasher(run, kind) {
  const create = () => new Hash(run, kind, init(run, kind));
  const short = whole(kind);
  const hash = (message) => {
    const bytes = toBytes(message);
    return bytes.length > PIECE ? create().update(bytes).digest() : run(0, false, short, bytes);
  };
  bitsOf.set(hash, kind.size * 8);
  return Object.assign(hash, {
    outputLen: kind.size,
    blockLen: 64,
    create,
    load: (saved) => loaded(Hash, run, kind, saved),
  });
}
