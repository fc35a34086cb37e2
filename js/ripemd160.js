import { hasher } from './src/hash.js';
import { kind, run } from './src/ripemd160.js';

export const ripemd160 = hasher(run, kind);
