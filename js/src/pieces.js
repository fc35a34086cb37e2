import { toBytes } from './input.js';

// An iterator over what a source gives. Not all browsers have one of streams: here it is their reader.
function iterator(source, signal) {
  if (typeof source?.getReader === 'function') {
    const reader = source.getReader();
    return {
      next: async () => {
        const result = await reader.read();
        if (result.done) reader.releaseLock();
        return result;
      },
      return: () => reader.cancel(signal?.reason).finally(() => reader.releaseLock()),
    };
  }
  const iterate = source?.[Symbol.asyncIterator] ?? source?.[Symbol.iterator];
  if (!iterate) throw new TypeError('Blob, ReadableStream or iterable expected');
  return iterate.call(source);
}

// The next result of an iterator, or the reason of a signal that is aborted first.
function next(from, signal) {
  return new Promise((resolve, reject) => {
    const stop = () => reject(signal.reason);
    if (signal?.aborted) return stop();
    signal?.addEventListener('abort', stop);
    Promise.resolve(from.next()).then(resolve, reject).finally(() => signal?.removeEventListener('abort', stop));
  });
}

/** Ends when the event loop has had a turn. */
export const otherTasks = () => new Promise((resolve) => {
  const { port1, port2 } = new MessageChannel();
  port1.onmessage = () => resolve(port1.close());
  port2.postMessage(undefined);
});

// After so many milliseconds, other tasks have their turn: where hashing is slower than reading, a Blob's stream in
// Chromium gives them none.
const TICK = 50;

/** The bytes of a source, piece by piece. */
export async function* pieces(source, { progress, signal } = {}) {
  const isBlob = typeof source?.stream === 'function';
  const from = iterator(isBlob ? source.stream() : source, signal);
  let done = 0, ended = false, end = performance.now() + TICK;
  try {
    for (;;) {
      const result = await next(from, signal);
      ended = result.done;
      if (ended) return;
      const bytes = toBytes(result.value);
      done += bytes.length;
      yield bytes;
      progress?.(done, isBlob ? source.size : undefined);
      if (performance.now() < end) continue;
      await otherTasks();
      end = performance.now() + TICK;
    }
  } finally {
    // Not awaited, since a source may never answer.
    if (!ended) (async () => from.return?.())().catch(() => {});
  }
}

/** The digest or the tag of what a source gives, by a message or text in pieces, which ends with it. */
export async function stream(hash, source, options) {
  if (typeof hash?.digest !== 'function') throw new TypeError('Hash expected');
  try {
    for await (const piece of pieces(source, options)) hash.update(piece);
    return hash.digest();
  } finally {
    hash.destroy();
  }
}
