import type * as nattizhu from './index.js';

/** The functions of the package. */
export type Nattizhu = Pick<typeof nattizhu,
  'ripemd128' | 'ripemd160' | 'ripemd256' | 'ripemd320' | 'hmac' | 'pbkdf2' | 'pbkdf2Async' | 'pieces' | 'stream'>;

/**
 * The same functions over nattizhu.wasm, which the source names or holds: a URL, a Response, bytes,
 * or a module. An Error where it is none, another module, or not found.
 */
export declare function load(source: string | URL | Response | PromiseLike<Response> | Uint8Array | ArrayBuffer
  | WebAssembly.Module): Promise<Nattizhu>;
