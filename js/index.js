import { over } from './src/all.js';
import { embedded } from './src/embedded.js';
import { engine } from './src/engine.js';
import module from './src/nattizhu.wasm.js';

export const { ripemd128, ripemd160, ripemd256, ripemd320, hmac, pbkdf2, pbkdf2Async, pieces, stream } =
  over(engine(embedded(module)));
