// Hashes a file that the page sends, off the page's thread: it is read once, in pieces, for all four digests.
import * as nattizhu from '../index.js';

const CHANGED = 'it has changed since it was chosen';
const REASONS = { NotFoundError: 'it is no longer there', NotReadableError: `${CHANGED}, or may not be read` };
let reading;

const hex = (bytes) => Array.from(bytes, (byte) => byte.toString(16).padStart(2, '0')).join('');

onmessage = async ({ data: file }) => {
  if (file === 'cancel') return reading.abort();
  reading = new AbortController();
  const start = performance.now(), seconds = () => (performance.now() - start) / 1000;
  let done = 0, told = 0;
  try {
    const hashes = [128, 160, 256, 320].map((bits) => [bits, nattizhu[`ripemd${bits}`].create()]);
    for await (const piece of nattizhu.pieces(file, { signal: reading.signal })) {
      for (const [, hash] of hashes) hash.update(piece);
      done += piece.length;
      if (seconds() - told < 0.1) continue;
      told = seconds();
      postMessage({ done, seconds: told });
    }
    if (done !== file.size) throw new Error(CHANGED);
    const digests = Object.fromEntries(hashes.map(([bits, hash]) => [bits, hex(hash.digest())]));
    postMessage({ digests, seconds: seconds() });
  } catch (error) {
    // Only a FileReader says in every browser why a file cannot be read.
    const reader = new FileReader();
    reader.onloadend = () => postMessage({ error: REASONS[reader.error?.name] ?? error.message });
    reader.readAsArrayBuffer(file.slice(0, 1));
  }
};

try {
  nattizhu.ripemd160(''); // compiles the module
  postMessage({ ready: true });
} catch (error) {
  postMessage({ failed: error.message });
}
