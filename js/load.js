import { over } from './src/all.js';
import { engine } from './src/engine.js';

export async function load(source) {
  source = await source;
  if (typeof source === 'string' || source instanceof URL) source = await fetch(source);
  if (source instanceof Response) {
    if (!source.ok) throw new Error(`${source.url}: ${source.status}`);
    source = await source.arrayBuffer(); // not compileStreaming, which wants a type that not all servers send
  }
  const module = source instanceof WebAssembly.Module ? source : await WebAssembly.compile(source);
  if (!WebAssembly.Module.exports(module).some(({ name }) => name === 'nattizhu_digest_nonnull'))
    throw new Error('nattizhu.wasm expected');
  return over(engine(() => module));
}
