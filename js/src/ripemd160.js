// RIPEMD-160 by the smaller module.
import { embedded } from './embedded.js';
import { AT, engine } from './engine.js';
import module from './ripemd160.wasm.js';

export const run = engine(embedded(module));

export const kind = {
  size: 20,
  length: 93,
  digest: (calls, length) => calls.nattizhu_ripemd160_digest(AT.in, length, AT.out, 20n),
  init: (calls) => calls.nattizhu_ripemd160_init(AT.state),
  update: (calls, length) => calls.nattizhu_ripemd160_update(AT.state, AT.in, length),
  final: (calls) => calls.nattizhu_ripemd160_final(AT.state, AT.out, 20n),
  save: (calls, length) => calls.nattizhu_ripemd160_save(AT.state, AT.in, length),
  load: (calls, length) => calls.nattizhu_ripemd160_load(AT.state, AT.in, length),
};
