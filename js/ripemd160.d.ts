import type { HashFunction } from './index.js';

/** RIPEMD-160 over a module of its own, which is smaller. */
export declare const ripemd160: HashFunction;
