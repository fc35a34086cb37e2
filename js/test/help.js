// What the tests share.
import { readFileSync } from 'node:fs';
import { createHash, createHmac, pbkdf2Sync } from 'node:crypto';
import { join } from 'node:path';

export const BITS = [128, 160, 256, 320];

/** The words of each line of a file of the folder that NATTIZHU_DATA names, tests/data of the repository. */
export const lines = (name) => readFileSync(join(process.env.NATTIZHU_DATA, name), 'utf8').split('\n')
  .filter((line) => line && !line.startsWith('#')).map((line) => line.split(/\s+/));

/** So many bytes that count up. */
export const count = (length, first = 0) => Uint8Array.from({ length }, (_, i) => first + i);

export const hex = (bytes) => Buffer.from(bytes).toString('hex');
export const unhex = (text) => new Uint8Array(Buffer.from(text, 'hex'));
export const concat = (...parts) => new Uint8Array(Buffer.concat(parts.map((part) => Buffer.from(part))));

/** What OpenSSL computes, by Node. */
export const digestOf = (message) => createHash('ripemd160').update(message).digest('hex');
export const tagOf = (key, text) => createHmac('ripemd160', key).update(text).digest('hex');
export const keyOf = (password, salt, c, dkLen) => pbkdf2Sync(password, salt, c, dkLen, 'ripemd160').toString('hex');
