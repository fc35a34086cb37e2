// The page: takes files, has the worker hash them one after another, and compares their digests with the expected
// ones.
import { read } from './list.js';
import program from './worker.txt'; // build/js makes it of worker.js

const VARIANTS = [128, 160, 256, 320];
const byId = (id) => document.getElementById(id);
const decoder = new TextDecoder('utf-8', { ignoreBOM: true });
const cards = [], queue = [];
// The lines of the list, in groups by the names of their files without folders, and the card that it came by; or, where
// there is no list, digests that stand alone.
let listed = [], groups = new Map(), source, bare = [], current, judging, ready = false;

byId('early').remove();

// A worker of a blob is under this page's policy.
const worker = new Worker(URL.createObjectURL(new Blob([program], { type: 'text/javascript' })));
worker.onerror = (event) => fail(event.message ?? 'its worker does not start');
worker.onmessage = ({ data }) => {
  if (data.failed) return fail(data.failed);
  if (data.done !== undefined) return current.progress(data);
  if (data.ready) ready = true;
  else {
    current.answer(data);
    current = undefined;
  }
  next();
};

function fail(reason) {
  byId('problem').textContent = typeof WebAssembly === 'object' ? `This page does not work: ${reason}.`
    : 'This page needs WebAssembly, which this browser lacks or has switched off.';
  byId('problem').hidden = false;
}

function next() {
  if (!ready || current) return;
  do current = queue.shift(); while (current && !current.verdict); // those that were cancelled have none
  if (current) worker.postMessage(current.file);
}

// A list among the files is taken if it is the only one and nothing is expected yet: no file that is checked may bring
// what it is compared with.
async function take(files) {
  const lists = [];
  for (const card of Array.from(files, (file) => new Card(file))) {
    if (await card.isList()) lists.push(card);
    queue.push(card);
    next();
  }
  if (lists.length === 1 && !byId('expected').value.trim()) lists[0].use();
}

const element = (tag, text, set) => Object.assign(document.createElement(tag), { textContent: text }, set);
const said = (text, kind) => element('p', text, kind && { className: kind });
const speed = (bytes, seconds) => `${(bytes / 1e6 / seconds).toFixed(0)} MB/s`;
const base = (name) => name.split(/[\\/]/).pop().normalize();

// What stands on the page for one file.
class Card {
  constructor(file) {
    this.file = file;
    const article = byId('card').content.cloneNode(true).firstElementChild;
    [this.title, this.work, this.bar, this.cancel, this.speed, this.outcome, this.table] =
      ['h3', '.work', 'progress', 'button', '.speed', '.outcome', 'table'].map((name) => article.querySelector(name));
    this.title.textContent = file.name;
    this.base = base(file.name);
    const unit = file.size === 1 ? 'byte' : 'bytes';
    article.querySelector('.size').textContent = `${file.size.toLocaleString('en')} ${unit}`;
    this.table.caption.textContent = `Digests of ${file.name}`;
    this.bar.ariaLabel = `Progress of ${file.name}`;
    this.bar.max = file.size || 1;
    this.bar.value = 0;
    this.cancel.ariaLabel = `Cancel ${file.name}`;
    this.cancel.onclick = () => {
      if (this === current) worker.postMessage('cancel');
      this.end('cancelled');
    };
    article.ariaLabel = file.name;
    byId('results').append(article);
    byId('results').hidden = false;
    this.verdict = 'waiting';
    cards.push(this);
    judge();
  }

  // Whether it is a list, by the lines at its front. Its text is kept.
  async isList() {
    const text = async (size) => decoder.decode(await this.file.slice(0, size).arrayBuffer());
    try {
      const front = this.file.size < 2 ** 24 ? await text(65536) : '';
      if (!front.includes('\0') && read(front).isList) this.list = await text(this.file.size);
    } catch { // the worker says why
    }
    return this.list !== undefined;
  }

  use() {
    byId('expected').value = this.list;
    expect(this.list, this);
  }

  // The lines that count for it, and whether it has the digest of one.
  lines() {
    return listed.length ? groups.get(this.base) ?? [] : bare;
  }

  has({ bits, hex }) {
    return this.digests?.[bits] === hex;
  }

  progress({ done, seconds }) {
    this.bar.value = done;
    this.speed.textContent = `${Math.floor(100 * done / this.bar.max)} %, ${speed(done, seconds)}`;
  }

  // Says how it ended, and takes away the bar and the button, whose focus goes to the title.
  end(text, kind, verdict) {
    if (this.work.contains(document.activeElement)) this.title.focus();
    this.work.hidden = true;
    this.outcome.append(said(text, kind));
    this.verdict = verdict;
    judge();
  }

  // Shows what the worker answered, unless the file was cancelled before.
  answer({ digests, seconds, error }) {
    if (this.work.hidden) return;
    if (error) return this.end(`✗ could not be read: ${error}`, 'differs', 'could not be read');
    const short = seconds < 0.1 || this.file.size < 1e6; // too short for a speed
    this.end(short ? 'read' : `read in ${seconds.toFixed(1)} s, ${speed(this.file.size, seconds)}`, '', 'FAILED');
    this.digests = digests;
    for (const bits of VARIANTS) {
      const row = this.table.tBodies[0].insertRow(), name = `RIPEMD-${bits}`;
      const code = element('code'), copy = element('button', '', { type: 'button' });
      for (const part of digests[bits].match(/.{8}/g)) code.append(part, element('wbr'));
      const word = element('span', 'Copy', { ariaLive: 'polite' });
      copy.append(word, element('span', ` ${name} of ${this.file.name}`, { className: 'unseen' }));
      copy.onclick = () => copied(word, code);
      row.append(element('th', name, { scope: 'row' }));
      row.insertCell().append(code);
      row.insertCell().append(copy);
    }
    this.table.hidden = false;
    this.compare();
  }

  // Says for each variant of which a digest is expected whether it is this file's, and of which name, if the lines have
  // several.
  compare() {
    if (!this.digests) return;
    const own = this.lines(), has = (line) => this.has(line);
    const texts = VARIANTS.flatMap((bits, at) => {
      const lines = own.filter((line) => line.bits === bits), match = lines.find(has), name = `RIPEMD-${bits}`;
      const kind = match ? 'matches' : lines.length ? 'differs' : '';
      this.table.tBodies[0].rows[at].className = kind;
      if (!kind) return [];
      if (match) return said(`✓ matches ${name}${haveOneName(own) ? '' : ` of ${match.name}`}`, kind);
      return said(`✗ does not match ${lines.length > 1 ? `any of ${lines.length} digests by ` : ''}${name}`, kind);
    });
    if (listed.length && !own.length) texts.push(said(this === source ? 'this is the list' : 'not in the list'));
    const other = !own.some(has) && listed.find(has);
    if (other) texts.push(said(`its digest is that of ${other.name}`));
    if (this.list && this !== source) {
      const use = element('button', 'Check by this list', { type: 'button' });
      use.onclick = () => {
        this.use();
        byId('list-title').focus();
      };
      texts.push(use);
    }
    this.outcome.replaceChildren(this.outcome.firstChild, ...texts);
  }
}

const KINDS = { OK: 'matches', FAILED: 'differs', 'could not be read': 'differs' };
const haveOneName = (lines) => lines.every(({ name }) => name === lines[0].name);

// Soon has the rows of the list say what the chosen files show and, when all are through, what that comes to. Browsers
// do not give folders: a file of which lines have several names counts for those that it matches, or else for all.
function judge() {
  byId('sum').textContent = '';
  judging ??= setTimeout(() => {
    judging = undefined;
    for (const line of listed) line.verdict = 'not yet chosen';
    for (const card of listed.length ? cards.filter(({ verdict }) => verdict) : []) {
      const own = card.lines(), isSure = haveOneName(own);
      const matched = new Set(own.filter((line) => card.has(line)).map(({ bits }) => bits));
      for (const line of own) {
        if (card.has(line)) line.verdict = 'OK';
        else if (isSure || (line.verdict !== 'OK' && !matched.has(line.bits))) line.verdict = card.verdict;
      }
    }
    for (const { cell, verdict } of listed) {
      if (cell.textContent === verdict) continue;
      cell.textContent = verdict;
      cell.parentNode.className = KINDS[verdict] ?? '';
    }
    const all = listed.length, count = (verdict) => listed.filter((line) => line.verdict === verdict).length;
    if (!all || count('waiting')) return;
    const [good, bad, unread, rest] = ['OK', 'FAILED', 'could not be read', 'not yet chosen'].map(count);
    byId('sum').textContent = [
      `${good} of ${all} listed ${all > 1 ? 'files' : 'file'} ${good === 1 || all === 1 ? 'matches' : 'match'}`,
      bad && `${bad} ${bad > 1 ? 'do' : 'does'} not`,
      unread && `${unread} could not be read`,
      rest && `${rest} ${rest > 1 ? 'were' : 'was'} not chosen`,
    ].filter(Boolean).join('; ');
    byId('sum').className = bad || unread ? 'differs' : rest ? '' : 'matches';
  }, 50);
}

async function copied(word, code) {
  try {
    await navigator.clipboard.writeText(code.textContent);
    word.textContent = 'Copied';
  } catch { // the page may not: the user can copy what is selected
    getSelection().selectAllChildren(code);
    word.textContent = 'Selected';
  }
  setTimeout(() => { word.textContent = 'Copy'; }, 2000);
}

// Takes what is expected, of the field or of a card's list.
function expect(text, card) {
  const { isList, lines, faults } = read(text);
  [listed, bare, source] = isList ? [lines, [], card] : [[], lines, undefined];
  const rows = byId('list').querySelector('tbody');
  rows.replaceChildren();
  groups = new Map();
  for (const line of listed) {
    const row = element('tr'), key = base(line.name);
    line.cell = element('td');
    row.append(element('th', line.name, { scope: 'row' }), element('td', `RIPEMD-${line.bits}`), line.cell);
    rows.append(row);
    if (!groups.get(key)?.push(line)) groups.set(key, [line]);
  }
  byId('list').hidden = !isList;
  if (faults.length > 3) faults.splice(3, faults.length, `${faults.length - 3} more lines are no digests`);
  const what = isList ? 'listed file' : 'digest';
  const by = [...new Set(lines.map((line) => `RIPEMD-${line.bits}`))].join(', ');
  if (by) faults.unshift(`${lines.length} ${what}${lines.length > 1 ? 's' : ''}: ${by}`);
  byId('reading').textContent = faults.join('; ');
  byId('reading').className = faults.length > (by ? 1 : 0) ? 'differs' : '';
  for (const each of cards) each.compare();
  judge();
}

byId('expected').oninput = () => expect(byId('expected').value);

byId('files').onchange = () => {
  take(byId('files').files);
  byId('files').value = ''; // so that the same file can be chosen again
};

// Files may be dropped anywhere; a text goes where it is dropped.
const bringsFiles = (event) => event.dataTransfer?.types.includes('Files');
ondragover = (event) => {
  if (!bringsFiles(event)) return;
  event.preventDefault();
  document.body.classList.add('dropping');
};
ondragleave = (event) => event.relatedTarget ?? document.body.classList.remove('dropping');
ondrop = (event) => {
  document.body.classList.remove('dropping');
  if (!bringsFiles(event)) return;
  event.preventDefault();
  const files = [];
  for (const item of event.dataTransfer.items) {
    const file = item.getAsFile();
    if (item.webkitGetAsEntry()?.isDirectory) new Card(file).end('✗ is a folder: choose the files in it', 'differs');
    else if (file) files.push(file);
  }
  take(files);
};
