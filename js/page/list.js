// Lists of digests, as the program rmdsum reads them: crates/ripemd_files says how.

const BITS = { 32: 128, 40: 160, 64: 256, 80: 320 }; // by the number of digits
const TAG = /^(?:RMD|RIPEMD-?)(128|160|256|320)/;
const TAGGED = /^ ?\((?<text>.*)\)[ \t]*=[ \t]*(?<hex>[0-9a-f]+)$/is;
const STANDARD = /^(?<hex>[0-9a-f]+)[ \t][ *](?<text>.+)$/is;
const REVERSED = /^(?<hex>[0-9a-f]+)[ \t](?<text>.+)$/is;
const ESCAPED = { '\\': '\\', n: '\n', r: '\r' };

// The name that the text of a line spells, or undefined.
function spelled(text, isMarked) {
  let isName = !text.includes('\0');
  const name = isMarked ? text.replace(/\\(.?)/gs, (_, letter) => ESCAPED[letter] ?? (isName = false)) : text;
  return isName ? name : undefined;
}

// What a line is that is none of a list.
function described(body) {
  const hash = /^([\w-]+) ?\(/.exec(body)?.[1], hex = /(?:^|=)[ \t]*([0-9a-f]+)(?=[ \t]|$)/i.exec(body)?.[1];
  if (hash && !TAG.test(hash)) return `no digest by RIPEMD but by ${hash}`;
  if (!hex) return 'no digest';
  if (hash) return `no digest by ${hash}: it has ${hex.length} digits`;
  return BITS[hex.length] ? 'a digest without a name'
    : `no digest: it has ${hex.length} digits, not 32, 40, 64 or 80`;
}

/**
 * The lines of a list, or else the digests that stand alone, as { bits, hex, name }, and what is wrong with other lines,
 * in time that is linear in the length of the text.
 */
export function read(text) {
  const lines = [], others = [];
  let layout;
  text.split('\n').forEach((line, at) => {
    const body = line.replace(/\r$/, '');
    if (!body || line.startsWith('#')) return;
    const [, mark, rest] = /^[ \t]*(\\?)(.*)$/s.exec(body), tag = TAG.exec(rest);
    if (!tag) layout ??= [STANDARD, REVERSED].find((form) => BITS[form.exec(rest)?.groups.hex.length]);
    const found = tag ? TAGGED.exec(rest.slice(tag[0].length)) : (layout ?? STANDARD).exec(rest);
    const { hex, text: spelling } = found?.groups ?? {}, bits = BITS[hex?.length];
    const name = bits && (!tag || +tag[1] === bits) ? spelled(spelling, mark) : undefined;
    if (name === undefined) others.push([at + 1, body.trim()]);
    else lines.push({ bits, hex: hex.toLowerCase(), name });
  });
  const isList = lines.length > 0, faults = [];
  for (const [number, body] of others) {
    const bits = !isList && /^[0-9a-f]+$/i.test(body) && BITS[body.length];
    if (bits) lines.push({ bits, hex: body.toLowerCase() });
    else if (isList || body) faults.push(`line ${number} is ${described(body)}`);
  }
  return { isList, lines, faults };
}
