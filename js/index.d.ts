/** Bytes, or a text, which stands for its UTF-8. Anything else is refused by a TypeError. */
export type Input = Uint8Array | string;

/** A source of bytes: a Blob or File, a stream of bytes, or an iterable of bytes and texts. */
export type Source = Blob | ReadableStream<Uint8Array> | Iterable<Input> | AsyncIterable<Input>;

export interface StreamOptions {
  /** Called after each piece with the bytes so far, and with the bytes of all where the source is a Blob. */
  progress?: (done: number, total: number | undefined) => void;
  /** Stops when it is aborted: the source is cancelled, and the signal's reason thrown. */
  signal?: AbortSignal;
}

/** A message in pieces. After `digest`, `digestInto` or `destroy`, all but `clone` and `destroy` throw an Error. */
export interface Hash {
  /** 64 bytes. */
  readonly blockLen: number;
  /** The size of the digest in bytes. */
  readonly outputLen: number;
  /** Appends bytes. */
  update(data: Input): this;
  /** Ends the message, and returns its digest. */
  digest(): Uint8Array;
  /** Ends the message, and writes its digest to the front of `out`; an Error where that is shorter. */
  digestInto(out: Uint8Array): void;
  /** One that goes on from here by itself. */
  clone(): this;
  /** The same into `to`, which has to be of the same function. */
  _cloneInto(to?: this): this;
  /** The state as `outputLen` + 72 bytes, as C, Python and Rust save it. An HMAC's has twice as many. */
  save(): Uint8Array;
  /** Overwrites the state. */
  destroy(): void;
}

/** A text in pieces under a key. Its `digestInto` wants exactly `outputLen` bytes. */
export interface Hmac extends Hash {
  /** Whether these bytes are the tag of the text so far. All bytes of a tag of the right size are compared. */
  verify(tag: Uint8Array): boolean;
}

export interface HashFunction {
  /** The digest of a message. */
  (message: Input): Uint8Array;
  /** 64 bytes. */
  readonly blockLen: number;
  /** The size of a digest in bytes. */
  readonly outputLen: number;
  /** Begins a message in pieces. */
  create(): Hash;
  /** Goes on from the bytes of `save`. An Error where they are no state of this function. */
  load(saved: Uint8Array): Hash;
}

export interface Hasher extends HashFunction {
  /** The digests of records of `size` bytes that lie one after another. An Error where the last is not whole. */
  each(records: Uint8Array, size: number): Uint8Array[];
  /** The digests of messages. */
  list(messages: Iterable<Input> & object): Uint8Array[];
}

export interface HmacFunction {
  /** The tag of a message under a key (RFC 2104). */
  (hash: HashFunction, key: Input, message: Input): Uint8Array;
  /** Whether these bytes are that tag. All bytes of a tag of the right size are compared. */
  verify(hash: HashFunction, key: Input, message: Input, tag: Uint8Array): boolean;
  /** Begins a text in pieces. */
  create(hash: HashFunction, key: Input): Hmac;
  /** Goes on from the bytes of `save`, which are as secret as the key. An Error where they are no such state. */
  load(hash: HashFunction, saved: Uint8Array): Hmac;
  /** The tags of records of `size` bytes that lie one after another. */
  each(hash: HashFunction, key: Input, records: Uint8Array, size: number): Uint8Array[];
  /** The tags of messages. */
  list(hash: HashFunction, key: Input, messages: Iterable<Input> & object): Uint8Array[];
}

export interface Pbkdf2Options {
  /** How many rounds: 1 to 2^32 - 1. */
  c: number;
  /** The size of the key in bytes, at least 1; 32, if left out, whatever the function. */
  dkLen?: number;
}

export interface Pbkdf2AsyncOptions extends Pbkdf2Options {
  /** After so many milliseconds, other tasks have their turn; 10, if left out. */
  asyncTick?: number;
}

export declare const ripemd128: Hasher;
export declare const ripemd160: Hasher;
export declare const ripemd256: Hasher;
export declare const ripemd320: Hasher;
export declare const hmac: HmacFunction;

/** Derives a key from a password (RFC 8018). A TypeError for numbers out of range, an Error where memory is too small. */
export declare function pbkdf2(hash: HashFunction, password: Input, salt: Input, options: Pbkdf2Options): Uint8Array;

/** The same key, derived in turns with other tasks. */
export declare function pbkdf2Async(
  hash: HashFunction, password: Input, salt: Input, options: Pbkdf2AsyncOptions): Promise<Uint8Array>;

/** Appends all bytes of a source, and returns the digest or the tag. In any case the hash is destroyed. */
export declare function stream(hash: Hash, source: Source, options?: StreamOptions): Promise<Uint8Array>;

/** The bytes of a source, piece by piece. An Error where it gives anything but bytes and texts. */
export declare function pieces(source: Source, options?: StreamOptions): AsyncGenerator<Uint8Array, void, undefined>;
