// What the pack desk does. It asks the questions of openapi.json, of the origin that it came from; its words stand in desk-words.js.
// Every pack that was scanned is a record in a database of the browser before it is asked, so a closed tab or a crash loses none.
'use strict';
const $ = id => document.getElementById(id);
const make = (tag, kind, ...inside) => { const it = document.createElement(tag); it.className = kind; it.append(...inside); return it };
const ended = signal => new Promise(end => signal.addEventListener('abort', end, { once: true }));
const HOUR = 3_600_000, DAY = 24 * HOUR;

// ---- What this browser remembers of a person's choices; where it keeps nothing, an object of this page.
const store = (() => { try { localStorage['desk.try'] = ''; return localStorage } catch { return {} } })();

// ---- Words
const wished = navigator.languages.map(it => it.split('-')[0]).find(it => WORDS[it]);
let language = WORDS[store['desk.language']] ? store['desk.language'] : wished ?? 'en';
function say(name, values = {}) {
  const path = name.split('.'), words = path.reduce((it, part) => it?.[part], WORDS[language]) ?? path.at(-1);
  return words.replace(/\{(\w+)\}/g, (_, value) => values[value]);
}
const has = (group, name) => Object.hasOwn(WORDS[language][group], name);

// ---- The time: that of the gateway, once it gave its own. An expiry date and the age of a key hang on it.
let offset = 0;
const now = () => Date.now() + offset;
const today = () => new Date(now()).toISOString().slice(0, 10);
function clock(moment) {
  const here = new Date(moment), sameDay = here.toDateString() === new Date().toDateString();
  return new Intl.DateTimeFormat(language, sameDay ? { timeStyle: 'short' } : { dateStyle: 'medium', timeStyle: 'short' }).format(here);
}
// Dates of a pack: YYMMDD of the years 2000 to 2099; day 00 is the last of the month.
function lastDay(date) {
  const [year, month, day] = [date.slice(0, 2), date.slice(2, 4), date.slice(4)].map(Number);
  return new Date(Date.UTC(2000 + year, day ? month - 1 : month, day)).toISOString().slice(0, 10);
}
const isPast = date => lastDay(date) < today();
function dated(date) {
  const format = form => new Intl.DateTimeFormat(language, { year: 'numeric', month: 'long', timeZone: 'UTC', ...form }).format(new Date(lastDay(date)));
  return date.endsWith('00') ? say('monthEnd', { month: format({}) }) : format({ day: 'numeric' });
}

// ---- A scan, read as read_scan of nmvs_elements reads it: in one way, or refused with words for the person who scanned.
const NATION = document.documentElement.dataset.nation, SEPARATOR = '\u001d';
const ELEMENTS = ['01', '21', '10', '17', ...(NATION ? [NATION] : [])], LENGTHS = { '01': 14, 17: 6 };
class ScanFault extends Error {
  constructor(reason, identifier) { super(reason); this.identifier = identifier }
  text() { return say(`scanned.${this.message}`, { part: this.identifier && `${say(`part.${this.identifier === NATION ? 'nation' : this.identifier}`)} (${this.identifier})` }) }
}
function readScan(scan) {
  if (scan.length > 100) throw new ScanFault('long');
  const found = new Map();
  let rest = after(SEPARATOR, afterSymbology(scan));
  while (rest) {
    const identifier = ELEMENTS.find(it => rest.startsWith(it));
    if (!identifier) throw new ScanFault(found.size ? 'element' : 'other');
    const content = rest.slice(identifier.length), run = content.split(SEPARATOR, 1)[0], length = LENGTHS[identifier] ?? run.length;
    if (run.length < length) throw new ScanFault('cut', identifier);
    if (found.has(identifier)) throw new ScanFault('twice', identifier);
    found.set(identifier, content.slice(0, length));
    rest = after(SEPARATOR, content.slice(length));
  }
  for (const identifier of ELEMENTS) if (!found.has(identifier)) throw new ScanFault('missing', identifier);
  const pack = checked({ code: found.get('01'), serial: found.get('21'), batch: found.get('10'), expiry: found.get('17') });
  if (NATION && !isText(found.get(NATION))) throw new ScanFault('misread', NATION);
  return pack;
}
const after = (front, text) => text.startsWith(front) ? text.slice(front.length) : text;
function afterSymbology(scan) {
  const front = [']d2', ']C1', ']Q3', ']e0'].find(it => scan.startsWith(it));
  if (!front && scan.startsWith(']')) throw new ScanFault('symbology');
  return scan.slice(front ? 3 : 0);
}
const isText = value => /^[!"%&'()*+,./0-9:;<=>?A-Z_a-z-]{1,20}$/.test(value);
const isCode = code => /^[0-9]{14}$/.test(code) && [...code].reduce((sum, digit, place) => sum + digit * (place % 2 ? 1 : 3), 0) % 10 === 0;
const isExpiry = date => /^[0-9]{2}(0[1-9]|1[0-2])[0-9]{2}$/.test(date) && lastDay(date).slice(5, 7) === date.slice(2, 4);
function checked(pack) {
  for (const [identifier, holds] of [['01', isCode(pack.code)], ['21', isText(pack.serial)], ['10', isText(pack.batch)], ['17', isExpiry(pack.expiry)]]) if (!holds) throw new ScanFault('misread', identifier);
  return pack;
}

// ---- Records: { key, at, tab, user, word, pack }, and
//   tried    when it was sent first; a server remembers the key for a day from then
//   sure     a person wants it asked, whatever speaks against it
//   stopped  a person stopped it before a reply came
//   handed   when a person handed the pack over without a reply: to be sent
//   said     the reply, a fault, or { page } where the desk itself answered; done is its time
//   seen     a person has seen what came back of a pack that was handed over
const TAB = newKey(), packs = new Map(), changes = new BroadcastChannel('desk');
function newKey() { return [...crypto.getRandomValues(new Uint8Array(10))].map(byte => byte.toString(16).padStart(2, '0')).join('') }
const records = () => [...packs.values()].sort((one, other) => one.at - other.at);
let base = null, kept = true, latest = 0;
function newRecord(word, pack) {
  latest = Math.max(now(), latest + 1);
  return { key: newKey(), at: latest, tab: TAB, user: $('user').textContent, word, pack };
}
const settled = request => new Promise((good, bad) => { request.onsuccess = () => good(request.result); request.onerror = () => bad(request.error) });
// Reads what the database has: at the start, and when another tab has changed it.
async function load() {
  try {
    const opening = base ?? indexedDB.open('desk', 1);
    if (!base) opening.onupgradeneeded = () => opening.result.createObjectStore('packs', { keyPath: 'key' });
    base ??= await settled(opening);
    for (const it of await settled(base.transaction('packs').objectStore('packs').getAll())) if (!packs.has(it.key) || it.said) packs.set(it.key, it);
  } catch { kept = false }
}
// Writes to the disk: what was awaited here survives a crash.
async function write(change) {
  try {
    const transaction = base.transaction('packs', 'readwrite', { durability: 'strict' });
    change(transaction.objectStore('packs'));
    await new Promise((good, bad) => { transaction.oncomplete = good; transaction.onerror = transaction.onabort = bad });
    changes.postMessage('');
  } catch { kept = false }
}
function keep(record) { packs.set(record.key, record); list(); return write(it => it.put(record)) }
function forget(record) { packs.delete(record.key); list(); return write(it => it.delete(record.key)) }
// What is answered stays for a day, at most 50 of it; what is not stays for ten days, or for ever if it is to be sent.
function prune() {
  const past = records().filter(it => !isUnsent(it) && !isBack(it)).reverse();
  past.forEach((it, place) => { if (place >= 50 || now() - it.at > (it.said ? DAY : 10 * DAY)) forget(it) });
}
const isUnsent = record => record.handed && !record.said;
const isBack = record => record.handed && record.said && !record.seen && STOPS.includes(verdictOf(record).kind);
const isPack = (one, other) => one.code === other.code && one.serial === other.serial;
// What changed a pack last, may have changed it, or raised an alert, as far as this browser knows.
function lastOf(pack) {
  const CHANGES = ['DECOMMISSIONED', 'HANDED_OVER', 'STOLEN', 'ALERT', 'REVERTED', 'PERHAPS'], when = it => it.done ?? it.handed ?? it.at;
  const open = it => !it.said && (it.handed || (it.stopped && it.tried && LEFT[it.word]));
  const those = records().filter(it => isPack(it.pack, pack) && (open(it) || CHANGES.includes(it.said?.reply ?? it.said?.page)));
  const last = those.sort((one, other) => when(one) - when(other)).at(-1);
  return last?.said?.reply === 'REVERTED' ? undefined : last;
}

// ---- What a person reads of a record: kind, head, then, steps, facts.
const STOPS = ['bad', 'warn'];
// The words that take a pack out, those that take it out for good or from the Union, and those that need the print of the upload.
const TAKES = ['supply', 'hold', 'export', 'sample', 'destroy'], ASKS = ['destroy', 'theft', 'export', 'sample'], LEAVES = ['supply', 'hold', 'export', 'handover'];
const uploaded = said => [[say('fact.batch'), said.batch], [say('fact.expiry'), dated(said.expiry)]];
const nothing = () => [[say('fact.recorded'), say('nothing')]];
const differ = (pack, said) => ({ batch: said.batch !== undefined && said.batch !== pack.batch, expiry: said.expiry !== undefined && lastDay(said.expiry) !== lastDay(pack.expiry) });
const differs = said => ({ kind: 'bad', head: say('wrong.head'), then: say('wrong.differs'), steps: ['compare', 'aside', 'person'], facts: said.expiry ? uploaded(said) : [] });
const expired = facts => ({ kind: 'warn', head: say('wrong.expired'), then: say('wrong.past'), facts });
// Why a pack is not what its print says, or not in date: nothing where it is.
function objection(pack, said) {
  const wrong = differ(pack, said);
  if (wrong.batch || wrong.expiry) return differs(said);
  return said.validity === 'EXPIRED' || (said.own === 'HELD' && isPast(said.expiry)) ? expired(uploaded(said)) : null;
}
const done = ({ word, pack }) => ({ kind: ASKS.includes(word) ? 'gone' : word === 'revert' ? 'calm' : 'good', head: say(`done.${word}`), then: say(`after.${word}`), undo: ['hold', 'export', 'sample'].includes(word) && !isPast(pack.expiry) });
const READ = {
  AUTHENTIC: ({ pack, said }) => objection(pack, said) ?? { kind: 'good', head: say('done.verify'), then: say('after.verify'), facts: uploaded(said) },
  ALERT: ({ pack, said }) => ({ kind: 'bad', head: say('wrong.head'), then: say(`cause.${said.cause}`), steps: said.flag === 'FLAGGED' ? ['aside', 'person', 'authority'] : ['disposal'], facts: [[say('fact.alert'), said.alert ?? `${pack.code}-${said.number}`, true], [say('fact.flag'), say(said.flag === 'FLAGGED' ? 'yes' : 'no')]] }),
  REFUSED: ({ said }) => ({ kind: 'warn', head: say('wrong.undone'), then: say(`refusal.${said.refusal}`), facts: [[say('fact.refusal'), said.number]] }),
  DECOMMISSIONED: done, HANDED_OVER: done, REVERTED: done, STOLEN: done,
  NOPACK: () => ({ kind: 'warn', head: say('done.none'), then: say('after.none') }),
  STATUS: ({ pack, said }) => objection(pack, said) ?? { kind: said.lock === 'FREE' ? 'calm' : 'warn', head: say(`own.${said.own}`), then: `${say(`lock.${said.lock}`)} ${say(`onward.${said.onward}`)}`, facts: uploaded(said) },
  DIFFERS: ({ said }) => ({ ...differs(said), facts: [...(said.expiry ? uploaded(said) : []), ...nothing()] }),
  EXPIRED: () => expired(nothing()),
  UNDO: ({ said }) => ({ kind: 'warn', head: say('wrong.undo'), then: say(`refusal.${said.refusal}`) }),
  PERHAPS: ({ key }) => ({ kind: 'warn', head: say('quiet.perhaps'), then: say('quiet.older'), facts: [[say('fact.key'), key]] }),
};
function faulty({ said }) {
  const fault = has('fault', said.fault) ? said.fault : ['CODE', 'SERIAL', 'BATCH', 'EXPIRY'].includes(said.fault) ? 'misread' : 'other';
  return { kind: 'warn', head: say('wrong.unasked'), then: say(`fault.${fault}`), facts: said.recorded === 'no' ? nothing() : [] };
}
function verdictOf(record) {
  const { said, handed, key } = record;
  if (!said) return { kind: 'warn', head: say(handed ? 'quiet.handed' : 'quiet.stopped'), then: say(handed ? 'quiet.later' : 'quiet.unknown'), facts: [[say('fact.key'), key]] };
  const v = (READ[said.reply ?? said.page ?? said.fault] ?? faulty)(record), steps = (v.steps ?? []).map(step => say(`step.${step}`));
  return { ...v, steps: handed && STOPS.includes(v.kind) ? [say('step.handed', { time: clock(handed) }), ...steps] : steps };
}
const quiet = ({ word, key }) => ({ kind: 'warn', head: say('quiet.head'), then: say('quiet.then') + (goes(word) ? ` ${say('quiet.patient')}` : ''), facts: [[say('fact.key'), key]] });
const goes = word => ['supply', 'handover'].includes(word);
const ready = () => ({ kind: 'idle', head: say('ready.head'), then: say(`ready.${doing()}`) });
const asking = () => ({ kind: 'idle', head: say('asking.head'), then: say('asking.then') });
function known(last) {
  const values = { time: clock(last.done ?? last.handed ?? last.at), user: last.user, reply: verdictOf(last).head };
  const more = last.word === 'hold' && last.said?.reply === 'DECOMMISSIONED' ? ` ${say('known.held')}` : '';
  return { kind: 'calm', head: say('known.head'), then: say(isUnsent(last) ? 'known.handed' : 'known.then', values) + more };
}
const sure = ({ word }) => ({ kind: 'warn', head: say(`sure.${word}`), then: say(`sure.${['destroy', 'theft'].includes(word) ? 'never' : 'tenDays'}`) });

// ---- The screen
const icon = kind => {
  const [svg, use] = ['svg', 'use'].map(tag => document.createElementNS('http://www.w3.org/2000/svg', tag));
  svg.setAttribute('aria-hidden', 'true'); use.setAttribute('href', `#${kind}`); svg.append(use);
  return svg;
};
function button(text, does, more) {
  const it = make('button', '', text);
  it.type = 'button'; it.onclick = () => { does(); if (!document.querySelector('dialog[open]')) $('scan').focus() };
  if (more) it.setAttribute('aria-label', `${text} ${more}`);
  return it;
}
let shown = ready, note = null;
// Shows a verdict, made in the language of the moment, with what may be pressed. A hint stands above it until the next one.
function show(verdict, hint = null) {
  shown = verdict; note = hint;
  const v = verdict(), text = make('div', '', make('h2', '', v.head), make('p', '', v.then)), pressed = [];
  for (const [press, key] of [['yes', 'F10'], ['no', 'Esc']]) if (turn?.[press]?.text) { const it = button(`${turn[press].text()} `, () => turn?.[press]?.()); it.append(make('kbd', '', key)); pressed.push(it) }
  if (pressed.length) text.append(make('div', 'row', ...pressed));
  if (v.steps?.length) text.append(make('ol', '', ...v.steps.map(step => make('li', '', step))));
  const hints = [...(note ? [note()] : []), ...(kept ? [] : [say('hint.unkept')]), ...(caps ? [say('hint.caps')] : [])].map(it => make('p', 'hint', it));
  $('verdict').className = v.kind;
  $('verdict').replaceChildren(...hints, icon(v.kind), text);
  if (v.facts?.length) $('verdict').append(make('div', 'facts', ...v.facts.map(([name, value, copies]) => make('span', copies ? 'quoted' : '', make('span', '', name), ' ', make('b', 'code', value), ...(copies ? [button(say('act.copy'), () => navigator.clipboard?.writeText(value), value)] : [])))));
}
const hinted = hint => show(shown, hint);
function showPack(pack, said = {}) {
  const wrong = pack && differ(pack, said);
  for (const name of ['code', 'serial', 'batch', 'expiry']) {
    $(`p-${name}`).textContent = !pack ? '' : name === 'expiry' ? dated(pack.expiry) : pack[name];
    $(`p-${name}`).classList.toggle('differs', Boolean(wrong?.[name]));
  }
  $('medicine').hidden = true;
  if (pack) medicine(pack.code).then(name => { if (name && $('p-code').textContent === pack.code) { $('p-medicine').replaceChildren(name); $('medicine').hidden = false } });
}
function showWaiting() {
  $('waiting').hidden = !waiting.length;
  $('waiting').replaceChildren(say('hint.waiting', { count: waiting.length }), ...waiting.map(it => make('span', 'code', it.pack.serial)));
}
function linked(is) { if (is && away) later(0); away = !is; $('link').hidden = false; $('link').className = is ? '' : 'away'; $('link').textContent = say(is ? 'connected' : 'away') }
function list() {
  const all = records().reverse().filter(it => it.said || it.stopped || it.handed);
  $('log').replaceChildren(...all.map(row));
  for (const serial of $('log').querySelectorAll('[data-code]')) medicine(serial.dataset.code).then(name => { if (name) serial.replaceChildren(name.split(' · ')[0], ' ') });
  const unsent = all.filter(isUnsent).length, back = all.filter(isBack).length;
  $('unsent').hidden = !unsent && !back;
  $('unsent').className = back ? 'bad' : 'warn';
  $('unsent').textContent = [unsent && say('unsent', { count: unsent }), back && say('unseen', { count: back })].filter(Boolean).join(' · ');
  if ($('sheet').open) showSheet();
}
function row(record) {
  const v = verdictOf(record), { pack, word } = record, name = make('span', 'name');
  name.dataset.code = pack.code;
  const text = make('div', '', make('b', '', v.head), document.createElement('br'), make('small', '', name, make('span', 'code', pack.serial), ' ', make('time', '', clock(record.done ?? record.handed ?? record.at)), ' ', make('span', '', say(`mode.${word}`))));
  const actions = [];
  if (record.stopped && !record.said) actions.push(['act.again', () => again(record)]);
  if (record.stopped && !record.said && goes(word)) actions.push(['act.handed', () => hand(record)]);
  if (v.undo && lastOf(pack)?.key === record.key) actions.push(['act.undo', () => enqueue(newRecord('revert', pack))]);
  const buttons = record.handed ? [] : actions.map(([act, does]) => button(say(act), does, pack.serial));
  return make('li', '', make('span', `icon ${v.kind}`, icon(v.kind)), make('div', '', text, ...buttons));
}
function showSheet() {
  const line = (tag, ...cells) => make('tr', '', ...cells.map(it => it instanceof Node ? make(tag, '', it) : make(tag, tag === 'td' ? 'code' : '', it)));
  const those = records().filter(it => isUnsent(it) || isBack(it));
  const rows = those.map(record => {
    const v = verdictOf(record), { pack } = record, state = make('div', '', make('b', v.kind, v.head), ' ', record.said ? v.then : '', ' ');
    if (record.said) state.append(record.said.fault ? button(say('act.send'), () => { delete record.said; keep(record); sendKept() }, pack.serial) : button(say('act.seen'), () => { record.seen = true; keep(record) }, pack.serial));
    const name = make('span', 'name');
    medicine(pack.code).then(it => name.append(it));
    return line('td', make('time', '', clock(record.handed)), record.user, make('div', '', make('span', 'code', pack.code), ' ', name), pack.serial, pack.batch, make('span', '', dated(pack.expiry)), state);
  });
  const head = ['time', 'user', 'code', 'serial', 'batch', 'expiry', 'verdict'].map(it => say(it));
  $('packs').replaceChildren(make('thead', '', line('th', ...head)), make('tbody', '', ...rows));
  if (!rows.length) $('packs').replaceChildren(make('caption', '', say('sheet.none')));
}

// ---- Names of medicines: what a table of the gateway says of a product code. They are no part of any question.
const names = new Map();
function medicine(code) {
  if (!names.has(code)) names.set(code, fetch(`/desk/product/${code}`).then(it => it.ok ? it.text() : '').then(text => cells(text).filter(Boolean).join(' · ')).catch(() => { names.delete(code); return '' }));
  return names.get(code);
}
// The cells of a line of comma-separated values: a cell with a comma stands between quotation marks.
const cells = line => (line.trim().match(/("([^"]|"")*"|[^,"]+)(?=,|$)/g) ?? []).map(it => it.replace(/^"|"$/g, '').replaceAll('""', '"').trim());

// ---- Sounds
const TONES = { good: [[880, 0.1]], stop: [[220, 0.3], [220, 0.3]], untaken: [[440, 0.07], [440, 0.07], [440, 0.07]] };
let audio = null;
function sound(name) {
  if (store['desk.sound'] === 'off' || !globalThis.AudioContext) return;
  audio ??= new AudioContext();
  const gain = audio.createGain();
  gain.gain.value = 0.2; gain.connect(audio.destination);
  let at = audio.currentTime;
  for (const [frequency, length] of TONES[name]) {
    const it = audio.createOscillator();
    it.frequency.value = frequency; it.connect(gain); it.start(at); it.stop(at + length);
    at += length + 0.06;
  }
}

// ---- One request. Nothing comes back where no reply of the server did: then it may be carried out or not.
let away = false;
async function post(word, { user, key, pack: { code, serial } }, more = {}, signal) {
  if (signal?.aborted) return null;
  const attempt = new AbortController(), timer = setTimeout(() => attempt.abort(), 15_000);
  signal?.addEventListener('abort', () => attempt.abort());
  try {
    const headers = { 'Content-Type': 'application/json', ...(word === 'status' ? {} : { 'Idempotency-Key': key }) };
    const response = await fetch(`/v1/${word}`, { method: 'POST', headers, body: JSON.stringify({ user, code, serial, ...more }), signal: attempt.signal });
    const said = await response.json();
    if ([429, 503].includes(response.status) || !(said.reply || said.fault)) throw new Error('no reply');
    linked(true);
    return said;
  } catch {
    if (!signal?.aborted) linked(false);
    return null;
  } finally { clearTimeout(timer) }
}
const printed = ({ batch, expiry }) => ({ scanned: { batch, expiry }, if_scanned: 'matches' });
// One attempt at a question. A supply is one question, put only if the print is that of the upload.
async function attempt(record, signal) {
  const { word, pack } = record, ask = (it, more) => post(it, record, more, signal);
  const before = await beforehand(record, ask);
  if (!before || before.page || before.fault) return before;
  record.tried ??= now();
  await keep(record);
  const said = await ask(word, LEAVES.includes(word) ? printed(pack) : {});
  return said?.fault === 'DIFFERS' ? differing(record, said, ask) : said;
}
// The status that a question leaves. A key is remembered for a day: after that the status says whether an older attempt was carried
// out, since the question once more would be an alert. An undo that the rules refuse is not tried either.
const LEFT = { supply: 'SUPPLIED', handover: 'SUPPLIED', hold: 'HELD', export: 'EXPORTED', sample: 'SAMPLED', destroy: 'DESTROYED', theft: 'STOLEN', revert: 'ACTIVE' };
async function beforehand(record, ask) {
  const { word, tried } = record, old = tried && now() - tried > DAY - HOUR && LEFT[word];
  if (!old && (word !== 'revert' || tried)) return {};
  const status = await ask('status');
  if (!status || status.fault) return status;
  if (old && status.own === old) return { page: 'PERHAPS' };
  if (word === 'revert') { const refusal = whyNot(status); if (refusal) return { page: 'UNDO', refusal } }
  delete record.tried;
  return {};
}
const whyNot = ({ reply, own, lock, expiry }) => reply === 'NOPACK' ? 'UNKNOWN' : lock !== 'FREE' ? 'LOCKED' : { ACTIVE: 'STILL_ACTIVE', STOLEN: 'IS_STOLEN', DESTROYED: 'IS_DESTROYED', SUPPLIED: 'WAS_SUPPLIED' }[own] ?? (isPast(expiry) ? 'EXPIRED' : null);
// The print is not that of the upload, as texts. The status says what was uploaded: where that is the same day in another spelling
// (day 00), the question is put with it.
async function differing({ word, pack }, said, ask) {
  const status = await ask('status');
  if (!status) return null;
  const wrong = differ(pack, status);
  if (status.reply === 'STATUS' && !wrong.batch && !wrong.expiry) return ask(word, printed(status));
  return { ...said, batch: status.batch, expiry: status.expiry };
}

// ---- Turns: one pack after another. What is scanned meanwhile waits, in order. A turn has what a person may press: yes and no.
let turn = null, last = null;
const waiting = [], MOST = 10;
const press = (text, does) => Object.assign(() => does(), { text });
function take(read) {
  let pack;
  try { pack = read() } catch (fault) { if (!(fault instanceof ScanFault)) throw fault; untaken(fault); return }
  const isTwin = it => it?.word === doing() && it.user === $('user').textContent && JSON.stringify(it.pack) === JSON.stringify(pack);
  const isHand = isTwin(last) && now() - last.at < 2000;
  last = { pack, word: doing(), user: $('user').textContent, at: now() };
  if (isHand || isTwin(turn?.record) || waiting.some(isTwin)) { hinted(() => say('hint.again')); return }
  makeRoom();
  const stopped = records().find(it => it.stopped && isTwin(it)); // with its key
  if (stopped) again(stopped); else enqueue(newRecord(doing(), pack));
}
// A question that a person has not answered is dropped for the next pack, unless others wait after it.
function makeRoom() { if (turn?.drop && !waiting.length) turn.drop() }
function again(record) { delete record.stopped; record.sure = true; enqueue(record) }
function untaken(fault) {
  sound('untaken');
  if (turn) { hinted(() => say('hint.untaken', { why: fault.text() })); return }
  showPack(null); show(() => ({ kind: 'warn', head: say('scanned.head'), then: fault.text(), facts: nothing() }));
}
function enqueue(record) {
  record.tab = TAB;
  makeRoom();
  if (!turn) { begin(record); return }
  if (waiting.length >= MOST) {
    if (packs.has(record.key)) { record.stopped = true; keep(record) }
    last = null; sound('untaken'); hinted(() => say('hint.full'));
    return;
  }
  waiting.push(record); keep(record); showWaiting();
}
function next() {
  turn = null;
  const record = waiting.shift();
  showWaiting();
  if (record) begin(record);
}
// What speaks against a question before it is asked: that is said, and a person decides.
function begin(record) {
  const { word, pack } = record, before = lastOf(pack);
  keep(record); showPack(pack);
  if (record.sure || record.tried) put(record);
  else if (LEAVES.includes(word) && isPast(pack.expiry)) finish(record, { page: 'EXPIRED' });
  else if (word === 'revert' && before && !before.said?.cause && ['supply', 'handover', 'destroy'].includes(before.word)) finish(record, { page: 'UNDO', refusal: before.word === 'destroy' ? 'IS_DESTROYED' : 'WAS_SUPPLIED' });
  else if (before && (word === 'verify' || TAKES.includes(word) || (word === 'handover' && goes(before.word) && !before.said?.cause))) person(record, () => known(before), 'act.ask');
  else if (ASKS.includes(word)) person(record, () => sure(record), 'act.yes');
  else put(record);
}
function person(record, verdict, yes) {
  const leave = () => { forget(record); fallBack(record); turn = null };
  turn = {
    record, drop: leave,
    yes: press(() => say(yes, { mode: say(`mode.${record.word}`) }), () => { record.sure = true; put(record) }),
    no: press(() => say('leave'), () => { leave(); show(ready); next() }),
  };
  sound('untaken'); show(verdict);
}
async function put(record) {
  const stop = new AbortController();
  // What a person decides is said to be done once the disk has it.
  const leave = does => async () => {
    if (stop.signal.aborted) return;
    stop.abort();
    await does(record);
    turn = null; show(() => verdictOf(record)); next();
  };
  const mine = turn = { record, no: press(() => say('act.stop'), leave(it => { it.stopped = true; return keep(it) })) };
  mine.handed = press(() => say('act.handed'), leave(hand));
  if (away) silent(mine); else show(asking);
  for (let pause = 1; turn === mine; pause = Math.min(2 * pause, 60)) {
    const said = await attempt(record, stop.signal);
    if (turn !== mine || stop.signal.aborted) return;
    if (said) { finish(record, said); return }
    silent(mine);
    await Promise.race([new Promise(wake => setTimeout(wake, 1000 * pause * (0.8 + 0.4 * Math.random()))), ended(stop.signal)]);
  }
}
function silent(mine) {
  if (mine.silent) return;
  mine.silent = true;
  if (goes(mine.record.word)) mine.yes = mine.handed;
  show(() => quiet(mine.record));
}
function finish(record, said) {
  Object.assign(record, { said, done: now() }); delete record.stopped;
  keep(record); prune(); fallBack(record);
  const { kind } = verdictOf(record), stops = STOPS.includes(kind), go = press(() => say('act.next'), next);
  turn = stops && waiting.length ? { record, yes: go, no: next } : null;
  sound(stops ? 'stop' : 'good');
  showPack(record.pack, said); show(() => verdictOf(record));
  if (!turn) next();
}
// After a question that cannot be taken back a scan verifies again.
function fallBack({ word }) { if (ASKS.includes(word) && doing() === word) choose('verify') }

// ---- To be sent: packs that were handed over without a reply (Articles 25(1) and 29). Each is sent with its key until a reply comes.
let timer = 0, pause = 1;
function hand(record) { record.handed = now(); delete record.stopped; later(pause); return keep(record) }
function later(seconds) { clearTimeout(timer); timer = setTimeout(sendKept, 1000 * seconds) }
async function sendKept() {
  await navigator.locks.request('desk.send', { ifAvailable: true }, async lock => {
    for (const record of lock ? records().filter(isUnsent) : []) {
      if (!isUnsent(packs.get(record.key))) continue; // another tab had its reply
      const said = await attempt(record);
      if (!said) { pause = Math.min(2 * pause, 60); return }
      pause = 1;
      Object.assign(record, { said, done: now() });
      keep(record);
      if (isBack(record)) { sound('stop'); hinted(() => say('hint.back')) }
    }
  });
  if (records().some(isUnsent)) later(pause);
}
// Takes over what a tab that is gone had under way: what is a few minutes old is asked again, with its key; the rest waits in the list.
async function adopt() {
  await new Promise(held => navigator.locks.request(`desk.tab.${TAB}`, () => { held(); return new Promise(() => {}) }));
  const alive = new Set((await navigator.locks.query()).held.map(it => it.name));
  for (const record of records()) {
    if (record.said || record.handed || record.stopped || alive.has(`desk.tab.${record.tab}`)) continue;
    if (now() - record.at < HOUR / 6) enqueue(record); else { record.stopped = true; keep(record) }
  }
  if (records().some(isUnsent)) sendKept();
}

// ---- What a scan does
const MODES = { verify: 'F2', supply: 'F4', hold: 'F6', handover: 'F7', status: 'F8', revert: '', export: '', sample: '', destroy: '', theft: '' };
const USUAL = 'verify supply hold handover status revert';
const house = () => (store['desk.modes'] ?? USUAL).split(' ');
let mode = house().includes(store['desk.mode']) ? store['desk.mode'] : 'verify';
const doing = () => mode;
function choose(word) {
  mode = word;
  if (!ASKS.includes(word)) store['desk.mode'] = word;
  document.querySelector(`#modes [value=${word}]`).checked = true;
  $('scan-label').replaceChildren(say('scanLabel', { mode: say(`mode.${word}`) }));
}
function showModes() {
  const labels = house().map(word => {
    const choice = Object.assign(make('input', ''), { type: 'radio', name: 'does', value: word, checked: word === mode });
    choice.onclick = () => { if (turn?.drop) turn.no(); choose(word); if (!turn) { showPack(null); show(ready) } };
    const text = [choice, say(`mode.${word}`), ...(MODES[word] ? [' ', make('kbd', '', MODES[word])] : []), make('small', '', say(`note.${word}`))];
    return make('label', '', ...text);
  });
  $('modes').replaceChildren(make('legend', 'off', say('scans')), ...labels);
}

// ---- Settings
const tick = (id, name) => { $(id).checked = store[name] !== 'off'; $(id).onchange = () => { store[name] = $(id).checked ? 'on' : 'off' } };
function showSettings() {
  $('language').replaceChildren(...Object.keys(WORDS).map(it => Object.assign(make('option', '', WORDS[it].language), { value: it, lang: it, selected: it === language })));
  const houses = Object.keys(MODES).map(word => {
    const choice = Object.assign(make('input', ''), { type: 'checkbox', value: word, checked: house().includes(word), disabled: word === 'verify' });
    choice.onchange = () => {
      store['desk.modes'] = Object.keys(MODES).filter(it => it === word ? choice.checked : house().includes(it)).join(' ');
      if (!house().includes(mode)) mode = 'verify';
      showModes(); choose(mode);
    };
    return make('label', 'tick', choice, make('span', '', say(`mode.${word}`), make('small', '', say(`note.${word}`))));
  });
  $('houses').replaceChildren(make('legend', '', say('set.modes')), ...houses);
}
// Puts the words of the language everywhere.
function speak() {
  document.documentElement.lang = language;
  document.title = say('title');
  for (const it of document.querySelectorAll('[data-say]')) it.textContent = say(it.dataset.say);
  for (const it of document.querySelectorAll('[data-label]')) it.setAttribute('aria-label', say(it.dataset.label));
  if (!sessionStorage.user) $('user').textContent = say('nobody');
  if (!$('link').hidden) linked(!away);
  showModes(); choose(mode); showSettings(); showWaiting(); showStranger(); $('packs').replaceChildren(); list(); show(shown, note);
}

// ---- Who asks: the user whom the certificate names, or a name that a person types.
function setUser(user) { sessionStorage.user = user; $('user').textContent = user; $('scan').focus() }
async function certified() {
  try {
    const response = await fetch('/desk/user', { cache: 'no-store', signal: AbortSignal.timeout(5000) });
    if (response.headers.has('date')) offset = Date.parse(response.headers.get('date')) - Date.now();
    return response.ok ? (await response.text()).trim() : '';
  } catch { return '' }
}
// Whether it is a user: the server refuses a report to a user who is no authority, and knows nobody else. It records neither.
async function isUser(user) {
  const headers = { 'Content-Type': 'application/json' }, body = JSON.stringify({ user, code: '00000000000000' });
  const said = await fetch('/v1/report', { method: 'POST', headers, body, signal: AbortSignal.timeout(5000) }).then(it => it.json()).catch(() => ({}));
  if (said.reply || ['ROLE', 'SUSPENDED'].includes(said.fault)) store['desk.certified'] = user;
  else if (['NOBODY', 'USER', 'FIELDS'].includes(said.fault)) delete store['desk.certified'];
  return store['desk.certified'] === user;
}
let stranger = '';
function showStranger() { $('certificate').textContent = stranger && say('who.certificate', { name: stranger }) }
async function meet() {
  if (sessionStorage.user) setUser(sessionStorage.user);
  const user = await certified();
  if (user && await isUser(user)) { setUser(user); return }
  stranger = user;
  showStranger();
  if (!sessionStorage.user) open($('who'), $('name'));
}

// ---- Keys. A scanner types the separator as Ctrl+], as a function or arrow key, or as a character that no value has.
const scanned = text => take(() => readScan(text.replace(/[|~^#]|\{GS\}/g, SEPARATOR)));
function open(dialog, first) {
  dialog.returnValue = ''; dialog.showModal(); first.focus();
  if (dialog !== $('set')) dialog.querySelector('form').reset();
}
function separate(event) { event.preventDefault(); $('scan').setRangeText('|', $('scan').selectionStart, $('scan').selectionEnd, 'end') }
function clear() { last = null; $('scan').value = ''; $('scan').focus(); if (turn) turn.no(); else { showPack(null); show(ready) } }
const PRESSED = { F3: () => open($('who'), $('name')), F9: () => open($('hand'), $('h-code')), F10: () => turn?.yes?.(), Escape: clear };
let typed = 0, caps = false;
function capsLock(is) { if (is !== caps) { caps = is; show(shown, note) } }
addEventListener('keydown', event => {
  const pause = event.timeStamp - typed, choice = Object.keys(MODES).find(it => MODES[it] === event.key);
  typed = event.timeStamp;
  if (document.querySelector('dialog[open]')) return;
  capsLock(event.getModifierState('CapsLock'));
  // A key that comes 35 ms after a character is no person's command.
  if ((/^(F\d+|Arrow\w+)$/.test(event.key) && pause < 35 && $('scan').value) || (event.ctrlKey && event.key === ']')) separate(event);
  else if (choice) { event.preventDefault(); document.querySelector(`#modes [value=${choice}]`)?.click(); $('scan').focus() }
  else if (PRESSED[event.key]) { event.preventDefault(); PRESSED[event.key]() }
  else if (event.key === 'Enter' && event.target === $('scan')) { const text = $('scan').value; $('scan').value = ''; if (text) scanned(text) }
  else if (event.key.length === 1 && event.key !== ' ' && !event.ctrlKey && !event.metaKey && store['desk.typing'] !== 'off') $('scan').focus();
});
$('change').onclick = PRESSED.F3; $('by-hand').onclick = PRESSED.F9; $('clear').onclick = clear;
$('settings').onclick = () => open($('set'), $('language'));
$('unsent').onclick = () => { showSheet(); open($('sheet'), $('send')) };
$('send').onclick = () => { pause = 1; sendKept() };
$('print').onclick = () => print();
addEventListener('beforeprint', () => $('paper').replaceChildren(...[...$('kept').cloneNode(true).children]));
changes.onmessage = () => load().then(list);
addEventListener('online', () => later(0));
tick('sound', 'desk.sound'); tick('typing', 'desk.typing');
$('language').onchange = () => { language = store['desk.language'] = $('language').value; speak(); $('language').focus() };
document.querySelector('.leave').onclick = () => $('hand').close();
$('hand').onclose = () => { if ($('hand').returnValue === 'yes') take(() => checked({ code: $('h-code').value, serial: $('h-serial').value, batch: $('h-batch').value, expiry: $('h-expiry').value })); $('scan').focus() };
$('who').onclose = () => { if ($('who').returnValue === 'yes') setUser($('name').value); else if (!sessionStorage.user) open($('who'), $('name')) };
for (const it of [$('set'), $('sheet')]) it.onclose = () => $('scan').focus();
navigator.serviceWorker?.register('/desk-worker.js', { scope: '/desk' }).catch(() => {});
load().then(() => { speak(); adopt(); meet() });
