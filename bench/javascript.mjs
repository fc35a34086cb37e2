// The speed of calls from JavaScript, RIPEMD-160, beside Node's crypto, and Debian's hash.js and ripemd160 where they
// are there, as a table in Markdown. Then that of the package ripemd160 beside the one that it replaces.
//   NODE_PATH=/usr/share/nodejs node bench/javascript.mjs FOLDER FOLDER
//     the project in which nattizhu is installed, and the package ripemd160
import crypto from 'node:crypto';
import { createRequire } from 'node:module';
import { pathToFileURL } from 'node:url';
import { resolve } from 'node:path';

const project = createRequire(pathToFileURL(resolve(process.argv[2], 'package.json')));
const { ripemd160, pbkdf2 } = await import(resolve(project.resolve('nattizhu/package.json'), '../index.js'));

const SHORT = new Uint8Array(32), LONG = new Uint8Array(2 ** 20), RECORDS = new Uint8Array(8192 * 32);
const PASSWORD = new Uint8Array(8), SALT = new Uint8Array(64), ROUNDS = 2000;

// What hashes a message, by the column's name.
const hashes = { nattizhu: ripemd160 };
const theirs = {
  "Node's crypto": () => (crypto.hash ? (message) => crypto.hash('ripemd160', message, 'buffer')
    : (message) => crypto.createHash('ripemd160').update(message).digest()),
  'hash.js': (require) => {
    const { ripemd160: Theirs } = require('hash.js');
    return (message) => new Theirs().update(message).digest();
  },
  ripemd160: (require) => {
    const Theirs = require('ripemd160');
    return (message) => new Theirs().update(Buffer.from(message.buffer, message.byteOffset, message.length)).digest();
  },
};
for (const [name, make] of Object.entries(theirs)) {
  try {
    const hash = make(project);
    if (Buffer.from(hash(SHORT)).equals(Buffer.from(ripemd160(SHORT)))) hashes[name] = hash;
  } catch {
    console.error(`javascript.mjs: there is no ${name}`);
  }
}

// The least of many slices in turn, in ns a call, for each of some calls.
function least(calls, times, turns = 200) {
  const least = calls.map(() => Infinity);
  for (let turn = 0; turn < turns; turn++) {
    calls.forEach((call, i) => {
      const start = process.hrtime.bigint();
      for (let j = 0; j < times; j++) call();
      least[i] = Math.min(least[i], Number(process.hrtime.bigint() - start) / times);
    });
  }
  return least;
}

// Prints a row: the figures, and how many times as fast ours is as the fastest of the other packages, and as Node's
// crypto.
function row(what, calls, times, figure) {
  const names = Object.keys(hashes), used = names.filter((name) => calls[name]);
  const found = Object.fromEntries(least(used.map((name) => calls[name]), times).map((ns, i) => [used[i], ns]));
  const packages = used.filter((name) => name in theirs && name !== "Node's crypto").map((name) => found[name]);
  const ratio = (ns) => (Number.isFinite(ns) ? (ns / found.nattizhu).toFixed(1) : '');
  const cells = names.map((name) => (found[name] ? figure(found[name]) : ''));
  print([what, ...cells, ratio(Math.min(...packages)), ratio(found["Node's crypto"])]);
}

function print(cells) {
  console.log(`| ${cells.join(' | ')} |`.replace(/ {2,}/g, ' '));
}

const each = (action) => Object.fromEntries(Object.entries(hashes).map(([name, hash]) => [name, () => action(hash)]));
const oneByOne = (hash) => {
  for (let i = 0; i < RECORDS.length; i += 32) hash(RECORDS.subarray(i, i + 32));
};

const heads = ['', ...Object.keys(hashes), 'times as fast as the faster package', "as Node's crypto"];
print(heads);
console.log(`${'|---'.repeat(heads.length)}|`);
row('digest of 1 MiB, MB/s', each((hash) => hash(LONG)), 1, (ns) => Math.round(LONG.length / ns * 1000));
row('digest of 32 bytes, ns', each((hash) => hash(SHORT)), 5000, Math.round);
row('8,192 records of 32 bytes, ns each', { ...each(oneByOne), nattizhu: () => ripemd160.each(RECORDS, 32) }, 1,
  (ns) => Math.round(ns / 8192));
row('key by 2,000 rounds, ms', {
  nattizhu: () => pbkdf2(ripemd160, PASSWORD, SALT, { c: ROUNDS, dkLen: 20 }),
  "Node's crypto": () => crypto.pbkdf2Sync(PASSWORD, SALT, ROUNDS, 20, 'ripemd160'),
}, 1, (ns) => (ns / 1e6).toFixed(2));

try {
  const [Ours, Theirs] = [resolve(process.argv[3]), 'ripemd160'].map(project);
  console.log('\nThe package `ripemd160`, ours beside theirs:\n');
  print(['message of', 'ours, ns', 'theirs, ns', 'times as fast']);
  console.log('|---|---|---|---|');
  for (const [length, times] of [[32, 5000], [84, 5000], [1024, 500], [2 ** 20, 1]]) {
    const message = Buffer.alloc(length);
    const [ours, theirs] = least([Ours, Theirs].map((Kind) => () => new Kind().update(message).digest()), times);
    print([`${length} bytes`, Math.round(ours), Math.round(theirs), (theirs / ours).toFixed(1)]);
  }
} catch {
  console.error('javascript.mjs: there is no ripemd160 to compare with');
}
