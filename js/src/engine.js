// The memory of the WebAssembly module. Below STATE is the module's stack. Behind it are places for a state, for a
// digest or a tag, and for what a call reads or what it saves a state as. No call needs what an earlier one left there.
export const STATE = 65536, OUT = STATE + 256, IN = STATE + 320;

/** The same addresses for the module. */
export const AT = { state: BigInt(STATE), out: BigInt(OUT), in: BigInt(IN) };

// A short length is faster found here than made a BigInt.
const SHORT = Array.from({ length: 257 }, (_, i) => BigInt(i));

/** A length for the module. */
export const big = (length) => SHORT[length] ?? BigInt(length);

/** Longer messages go through the memory in pieces of so many bytes. */
export const PIECE = 65536;

// Below so many bytes of the stack calls leave nothing of secrets, as tests/machine/wasm.py shows.
const STACK = 8192;

/**
 * Gives a function that runs calls of a module: `action` gets the module's functions and its memory, with room for
 * `size` bytes at IN, a function that copies an output of some size, and what it is `given`. If this is `secret`,
 * the parts of the memory that it used are overwritten afterwards. An instance in which a call did not return
 * refuses all further calls, and so it gets a successor.
 * @param {() => WebAssembly.Module} module
 */
export function engine(module) {
  let calls, memory, outputs, returned;
  const renew = () => {
    memory = new Uint8Array(calls.memory.buffer);
    outputs = []; // views, by their sizes: a copy of one takes half the time of a slice of the memory
  };
  const output = (length) => new Uint8Array(outputs[length] ??= memory.subarray(OUT, OUT + length));
  return (size, secret, action, given) => {
    if (!returned) {
      calls = { ...new WebAssembly.Instance(module()).exports };
      renew();
    }
    returned = false;
    const lacking = IN + Math.max(size, PIECE) - memory.length;
    if (lacking > 0) {
      calls.memory.grow(Math.min(Math.ceil(lacking / 65536), 65536)); // a RangeError, where there is no more
      renew();
    }
    try {
      const result = action(calls, memory, output, given);
      returned = true;
      return result;
    } finally {
      if (secret) memory.fill(0, STATE - STACK, IN + size);
    }
  };
}
