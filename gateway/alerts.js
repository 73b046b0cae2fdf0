// What the page of the read replica does: it shows flagged alerts, and sends what a person does about them. It asks the origin that it
// came from; its words stand in alerts-words.js. The part of the address after # says which view is shown, with which filters.
'use strict';
const $ = id => document.getElementById(id);
const make = (tag, kind, ...inside) => { const it = document.createElement(tag); it.className = kind; it.append(...inside); return it };
const later = seconds => new Promise(wake => setTimeout(wake, 1000 * seconds));

// ---- What this browser remembers of a person's choices; where it keeps nothing, an object of this page.
const store = (() => { try { localStorage['alerts.try'] = ''; return localStorage } catch { return {} } })();

// ---- Words
const wished = navigator.languages.map(it => it.split('-')[0]).find(it => WORDS[it]);
let language = WORDS[store['alerts.language']] ? store['alerts.language'] : wished ?? 'en';
const found = name => name.split('.').reduce((it, part) => it?.[part], WORDS[language]);
function say(name, values = {}) {
  return (found(name) ?? name.split('.').at(-1)).replace(/\{(\w+)\}/g, (_, value) => values[value]);
}
const count = number => new Intl.NumberFormat(language).format(number);

// ---- Moments, in seconds. Entries, filters and weeks are of UTC, and so is what is shown.
const DAY = 86_400;
const dayOf = seconds => new Date(1000 * seconds).toISOString().slice(0, 10);
const dayAfter = (day, days) => dayOf(Date.parse(day) / 1000 + days * DAY);
const utc = form => new Intl.DateTimeFormat(language, { timeZone: 'UTC', ...form });
function clock(seconds) {
  const it = make('time', '', `${utc({ dateStyle: 'medium', timeStyle: 'medium', hourCycle: 'h23' }).format(1000 * seconds)}\u00a0UTC`);
  it.dateTime = new Date(1000 * seconds).toISOString();
  return it;
}
const week = monday => make('time', '', utc({ dateStyle: 'medium' }).format(new Date(monday)));
function age(seconds) {
  const minutes = (Date.now() / 1000 - seconds) / 60, format = new Intl.RelativeTimeFormat(language);
  const [unit, length] = [['day', 1440], ['hour', 60], ['minute', 1]].find(it => minutes >= it[1]) ?? ['minute', 1];
  return make('time', '', format.format(-Math.max(0, Math.floor(minutes / length)), unit));
}
// An expiry date YYMMDD; day 00 is the last of the month.
function expiry(date) {
  const [year, month, day] = [date.slice(0, 2), date.slice(2, 4), date.slice(4)].map(Number);
  const last = new Date(Date.UTC(2000 + year, day ? month - 1 : month, day));
  return day ? utc({ dateStyle: 'long' }).format(last) : say('monthEnd', { month: utc({ year: 'numeric', month: 'long' }).format(last) });
}

// ---- Requests. What the replica refuses is thrown with its word, and so is that no answer of it came (AWAY).
class Refusal extends Error {}
const refused = fault => say(found(`refusal.${fault.message}`) ? `refusal.${fault.message}` : 'refusal.other');
async function answer(path, more) {
  const response = await fetch(path, { cache: 'no-store', signal: AbortSignal.timeout(30_000), ...more }).catch(() => null);
  const said = await response?.json().catch(() => null);
  if (!said || typeof said !== 'object') throw new Refusal('AWAY');
  if (!response.ok) throw new Refusal(said.refusal ?? 'AWAY');
  return said;
}
const get = path => answer(path);
const query = given => new URLSearchParams(Object.entries(given).filter(([, value]) => value)).toString();

// ---- Acts. An act keeps its key for all its attempts, so it is done once, also if the first answer was lost.
const newKey = () => [...crypto.getRandomValues(new Uint8Array(10))].map(byte => byte.toString(16).padStart(2, '0')).join('');
const PAUSES = [1, 2, 4, 8];
async function send(order, key = newKey()) {
  const headers = { 'Content-Type': 'application/json', 'Idempotency-Key': key };
  for (const pause of [...PAUSES, 0]) {
    try { return await answer('/v1/cases', { method: 'POST', headers, body: JSON.stringify(order) }) } catch (fault) {
      if (fault.message !== 'AWAY') throw fault;
      if (!pause) throw Object.assign(fault, { again: () => send(order, key) });
      noted('warn', () => say('note.again'));
      await later(pause);
    }
  }
}
const orderOf = (alert, act, word = '', text = '') => ({ code: alert.alert.slice(0, 14), first: numberOf(alert), last: numberOf(alert), hint: '*', act, word, text });
const numberOf = alert => Number(alert.alert.slice(15));
// While an act is under way, nothing else is begun.
let busy = false;
async function doing(act) {
  if (busy) return false;
  busy = true;
  try { await act(); return true } catch (fault) {
    if (!(fault instanceof Refusal)) throw fault;
    if (fault.again) lost(fault.again); else noted('bad', () => refused(fault));
    return false;
  } finally { busy = false }
}
// No answer came at all: the act may be done or not. A person may send it again, with its key.
function lost(again) {
  const text = () => [say('note.lost'), ' ', button(say('note.send'), () => doing(() => doneBy(again())))];
  noted('warn', text);
}
// Once the answer is there, the view is shown as it is then, and the note says what was done.
async function doneBy(answered) {
  const said = await answered;
  await shown();
  noted('good', () => say('note.done', { state: say(`state.${said.case}`), count: count(said.alerts) }));
}
const perform = (alert, act, word, text) => doing(() => doneBy(send(orderOf(alert, act, word, text))));
// The view after an act: the button that was pressed is gone, so the focus goes to the next letter, or to the heading.
async function shown() {
  await show();
  ($('letters')?.querySelector('input') ?? $('view').querySelector('h2')).focus();
}

// ---- Parts of the screen
function button(text, does, kind = '') { return Object.assign(make('button', kind, text), { type: 'button', onclick: does }) }
function link(text, target, kind = '') { return Object.assign(make('a', kind, text), { href: target }) }
const code = text => make('span', 'code', text);
const section = (head, ...inside) => make('section', '', ...(head ? [make('h3', '', head)] : []), ...inside);
// A heading that takes the focus when its view is shown.
const heading = (...inside) => Object.assign(make('h2', '', ...inside), { tabIndex: -1 });
const COLORS = { OPEN: 'warn', TAKEN: 'calm', CLOSED: 'good', CONFIRMED: 'bad' };
const chip = state => make('span', `chip ${COLORS[state]}`, say(`state.${state}`));
const facts = pairs => make('dl', '', ...pairs.filter(([, value]) => value).map(([name, value]) => make('div', '', make('dt', '', say(`field.${name}`)), make('dd', '', value))));
// A house as its authorisation and premises, with the user; a holder gets none of them.
const house = (user, authorisation, premises) => authorisation === '-' ? code(user) : make('span', '', code(`${authorisation} ${premises}`), ' ', make('span', 'soft code', user));

// A table with a name. Its roles stay, also where a narrow screen shows a row as lines.
function table(name, columns, rows) {
  const role = (it, word) => { it.setAttribute('role', word); return it };
  const line = (cells, tag, word) => role(make('tr', '', ...cells.map((it, place) => role(make(tag, columns[place].kind ?? '', it), word))), 'row');
  const head = role(make('thead', '', line(columns.map(it => it.head), 'th', 'columnheader')), 'rowgroup');
  const body = role(make('tbody', '', ...rows.map(({ cells, current }) => { const it = line(cells, 'td', 'cell'); if (current) it.setAttribute('aria-current', 'true'); return it })), 'rowgroup');
  const it = role(make('table', '', head, body), 'table');
  it.setAttribute('aria-label', name);
  return make('div', 'scroll', rows.length ? it : make('p', 'soft', say('none')));
}
const column = (name, kind) => ({ head: say(`field.${name}`), kind });

// ---- Forms: fields with their values, for filters and for acts
const labelled = (name, it, more) => make('label', it.type === 'checkbox' ? 'tick' : '', ...(it.type === 'checkbox' ? [it, say(`field.${name}`)] : [say(`field.${name}`), ...(more ? [make('small', '', more)] : []), it]));
function input(name, type, value = '', kind = '') {
  const it = Object.assign(make('input', kind, ''), { name, type, autocomplete: 'off', spellcheck: false });
  if (type === 'checkbox') Object.assign(it, { value: '1', checked: value === '1' }); else it.value = value;
  return it;
}
function select(name, options, value = '') {
  const it = Object.assign(make('select', '', ...options.map(([word, text]) => Object.assign(make('option', '', text), { value: word }))), { name });
  it.value = value;
  return it;
}
const words = (group, names) => names.map(it => [it, say(`${group}.${it}`)]);
const any = options => [['', say('any')], ...options];
// What was typed into a form, without what is empty.
const typed = form => Object.fromEntries([...new FormData(form)].map(([name, value]) => [name, value.trim()]).filter(([, value]) => value));
function filters(view, fields) {
  const form = make('form', 'filters', ...fields, Object.assign(make('button', 'main', say('filter')), { type: 'submit' }), link(say('unfilter'), `#${view}`, 'button'));
  form.onsubmit = event => { event.preventDefault(); go(view, typed(form)) };
  // A small screen shows the rows first.
  return Object.assign(make('details', '', make('summary', '', say('filters')), form), { open: innerWidth > 740 && innerHeight > 700 });
}
const go = (view, given) => { const target = `#${view}?${query(given)}`; if (location.hash === target) show(); else location.hash = target };
// The link to the rows after these, if there are any.
const following = (view, given, next) => next ? [link(say('next'), `#${view}?${query({ ...given, after: next })}`, 'button')] : [];

// ---- Questions to a person, before an act: what was typed, or nothing if the person leaves it
const MOST_BYTES = 400;
function textField(needed) {
  const it = Object.assign(input('text', 'text'), { required: needed, maxLength: MOST_BYTES });
  it.oninput = () => it.setCustomValidity(new TextEncoder().encode(it.value).length > MOST_BYTES ? say('refusal.TEXT') : '');
  return labelled('text', it, say(needed ? 'ask.needed' : 'ask.stays'));
}
function verdictField() {
  const choice = verdict => make('label', 'tick', Object.assign(input('word', 'radio', verdict), { required: true }), make('span', '', say(`verdict.${verdict}`), make('small', '', say(`means.${verdict}`))));
  return make('fieldset', '', make('legend', '', say('field.verdict')), ...VERDICTS.map(choice));
}
const whomField = () => labelled('whom', select('word', words('whom', WHOM), 'HOLDER'));
function ask(title, yes, ...inside) {
  const dialog = $('ask'), form = dialog.firstElementChild, head = make('h2', '', title);
  head.id = 'ask-title';
  form.replaceChildren(head, ...inside, make('div', 'row', button(say('leave'), () => dialog.close()), Object.assign(make('button', '', yes), { value: 'yes' })));
  dialog.returnValue = '';
  dialog.showModal();
  form.querySelector('input, select')?.focus();
  return new Promise(answered => {
    dialog.onclose = () => { answered(dialog.returnValue === 'yes' ? typed(form) : null); form.replaceChildren() };
  });
}

// ---- The words of the interface
const HINTS = ['LATE', 'CAPS', 'LAYOUT', 'NOCODE', 'OWN', 'HOUSE'], VERDICTS = ['TECHNICAL', 'PROCEDURAL', 'MARKET'];
const STATES = ['OPEN', 'TAKEN', 'CLOSED', 'CONFIRMED'];
const ARTICLE = ['AUTHORITY', 'EMA', 'COMMISSION'], WHOM = [...ARTICLE, 'HOLDER'];
// Of words that have a text in each language the text names them; the reasons stand in the order of their numbers.
const [CAUSES, ROLES, QUESTIONS, REPLIES, REASONS] = ['saw', 'role', 'question', 'reply', 'reason'].map(name => Object.keys(WORDS.en[name]));
const hintName = hint => say(`hint.${hint || 'none'}`);
// A reply in words: its own, and what it says more.
function replied([word, ...rest]) {
  if (word === 'ALERT') return `${say('reply.ALERT')}: ${say(`cause.${rest[0]}`)}`;
  if (word === 'REFUSED') return `${say('reply.REFUSED')}: ${say(`reason.${REASONS[rest[0] - 1]}`)}`;
  return word === 'STATUS' ? `${say('reply.STATUS')}: ${say(`own.${rest[0]}`)}` : say(`reply.${word}`);
}
// An entry line as its parts: version 1 has no number of its version.
function entryOf(line) {
  const [moment, user, role, authorisation, premises, question, reply] = typeof line[1] === 'number' ? line.slice(1) : line;
  return { moment, user, role, authorisation, premises, question, reply, alert: reply[0] === 'ALERT' && reply[2] === 'FLAGGED' ? `${question[1]}-${reply[3]}` : '' };
}

// ---- Who reads, and how far the replica is
let reader = { reads: '' };
const watches = () => ['OFFICER', 'AUTHORITY'].includes(reader.reads);
const mayOpen = { numbers: () => true, list: () => true, houses: watches, entries: () => ['AUTHORITY', 'HOUSE'].includes(reader.reads) };
async function meet() {
  reader = await get('/v1/reader');
  showReader();
}
function showReader() {
  $('who').replaceChildren(code(reader.user), ' ', make('span', 'soft', say(`reads.${reader.reads}`)));
  $('judged').replaceChildren(say('judged', { count: count(reader.entries) }), ' ', ...(reader.entries ? [say('judgedLast'), ' ', clock(reader.moment)] : []));
  // The fault is there once: a live region that is filled again is read again.
  const fault = reader.fault && say('fault', { fault: reader.fault });
  if ($('fault').textContent !== fault) $('fault').textContent = fault;
  $('fault').hidden = !fault;
}
function showViews(current) {
  const views = reader.reads ? Object.keys(mayOpen).filter(it => mayOpen[it]()) : [];
  $('views').replaceChildren(...views.map(view => { const it = link(say(`view.${view}`), `#${view}`); if (view === current) it.setAttribute('aria-current', 'page'); return it }));
}
// A note above the view, which a screen reader reads: made in the language of the moment.
let note = null;
function noted(kind, text) { note = { kind, text }; showNote() }
function showNote() { $('note').replaceChildren(...(note ? [make('p', note.kind, ...[note.text()].flat())] : [])) }

// ---- Numbers: each leads to its list
async function numbers() {
  const it = await get('/v1/numbers');
  const tiles = [['open', 'warn', count(it.open), { state: 'OPEN' }], ['taken', 'calm', count(it.taken), { state: 'TAKEN' }], ['confirmed', 'bad', count(it.confirmed), { state: 'CONFIRMED' }]];
  if (it.oldest) tiles.push(['oldest', 'gone', age(it.oldest), { to: dayOf(it.oldest) }, clock(it.oldest)]);
  return [heading(say('view.numbers')), make('div', 'tiles', ...tiles.map(tile)), make('div', 'pair', hintNumbers(it.hints), weekNumbers(it.weeks)), endNumbers(it)];
}
const tile = ([name, kind, number, given, more]) => link(make('span', '', say(`number.${name}`), make('b', '', number), make('small', '', more ?? say(`number.${name}Note`))), `#list?${query(given)}`, `tile ${kind}`);
const linked = (number, given, name) => { const it = link(count(number), `#list?${query(given)}`); it.setAttribute('aria-label', `${count(number)}, ${name}`); return it };
function hintNumbers(hints) {
  const rows = hints.map(([hint, number]) => ({ cells: [hintName(hint), linked(number, { hint: hint || '-' }, hintName(hint))] }));
  return section(say('number.hints'), table(say('number.hints'), [column('hint'), column('alerts', 'number')], rows));
}
function weekNumbers(weeks) {
  const most = Math.max(1, ...weeks.map(it => it[1]));
  const rows = weeks.toReversed().map(([monday, number]) => ({ cells: [week(monday), linked(number, { state: 'ANY', from: monday, to: dayAfter(monday, 6) }, week(monday).textContent), bar(number / most)] }));
  return section(say('number.weeks'), table(say('number.weeks'), [column('week'), column('alerts', 'number'), { head: '', kind: 'bar' }], rows));
}
function bar(part) {
  const [svg, rect] = ['svg', 'rect'].map(tag => document.createElementNS('http://www.w3.org/2000/svg', tag));
  for (const [name, value] of [['width', `${Math.max(1, 100 * part)}%`], ['height', '100%'], ['rx', '3'], ['fill', 'currentColor']]) rect.setAttribute(name, value);
  svg.setAttribute('aria-hidden', 'true'); svg.append(rect);
  return svg;
}
function endNumbers(it) {
  const rows = [...VERDICTS.map(verdict => [say(`verdict.${verdict}`), it[verdict.toLowerCase()], 'CLOSED']), [say('number.falsified'), it.falsified, 'CONFIRMED']];
  return section(say('number.ends'), table(say('number.ends'), [column('verdict'), column('alerts', 'number')], rows.map(([name, number, state]) => ({ cells: [name, linked(number, { state }, name)] }))));
}

// ---- The list, with boxes for who may take
async function list(given) {
  const { alerts, next } = await get(`/v1/alerts?${query(given)}`);
  const form = filters('list', listFields(given)), take = watches() ? [make('section', 'row', taking(alerts), ...alike(alerts))] : [];
  return [heading(say('view.list')), form, ...take, section('', alertTable(alerts)), ...following('list', given, next)];
}
function listFields(given) {
  const fields = [
    labelled('state', select('state', [['', say('worklist')], ...words('state', STATES), ['ANY', say('any')]], given.state)), labelled('hint', select('hint', any([['-', hintName('')], ...HINTS.map(it => [it, hintName(it)])]), given.hint)),
    labelled('cause', select('cause', any(words('cause', CAUSES)), given.cause)), labelled('code', codeInput(given.code)), labelled('from', input('from', 'date', given.from)), labelled('to', input('to', 'date', given.to)),
  ];
  return reader.reads === 'HOLDER' ? fields : [...fields, labelled('premises', input('premises', 'text', given.premises, 'code'))];
}
const codeInput = value => Object.assign(input('code', 'text', value, 'code'), { inputMode: 'numeric', pattern: '[0-9]{14}', title: say('digits') });
function alertTable(alerts) {
  const named = reader.reads !== 'HOLDER', ticks = watches(), all = ticks ? [{ head: tickAll() }] : [];
  const columns = [...all, ...['alert', 'moment', 'cause', 'hint'].map(it => column(it)), ...(named ? [column('house')] : []), column('state')];
  const rows = alerts.map(it => ({ cells: [...(ticks ? [box(it)] : []), link(code(it.alert), `#alert/${it.alert}`), clock(it.moment), say(`cause.${it.cause}`), hintName(it.hint), ...(named ? [house(it.user, it.authorisation, it.premises)] : []), chip(it.state)] }));
  return table(say('view.list'), columns, rows);
}
function box(alert) {
  const it = input('alert', 'checkbox', '', 'tick-one');
  it.value = alert.alert;
  it.onchange = showTicked;
  it.setAttribute('aria-label', say('tick', { alert: alert.alert }));
  return make('label', '', it);
}
function tickAll() {
  const it = input('all', 'checkbox');
  it.setAttribute('aria-label', say('tickAll'));
  it.onchange = () => { for (const one of document.querySelectorAll('.tick-one')) one.checked = it.checked; showTicked() };
  return it;
}
const ticked = () => [...document.querySelectorAll('.tick-one:checked')].map(it => it.value);
function showTicked() { $('take').textContent = say('take', { count: count(ticked().length) }) }
function taking(alerts) {
  const it = button(say('take', { count: 0 }), () => takeAll(alerts.filter(one => ticked().includes(one.alert))), 'main');
  it.id = 'take';
  return it;
}
// Takes one after another. What is in no state for it is left, and counted.
function takeAll(alerts) {
  if (!alerts.length) { noted('warn', () => say('note.noneTicked')); return }
  doing(async () => {
    const left = [];
    for (const it of alerts) {
      try { await send(orderOf(it, 'TAKE')) } catch (fault) { if (fault.message === 'AWAY') throw fault; left.push(it.alert) }
    }
    await shown();
    noted(left.length ? 'warn' : 'good', () => say('note.taken', { count: count(alerts.length - left.length) }) + (left.length ? ` ${say('note.untaken', { alerts: left.join(', ') })}` : ''));
  });
}
// One act for all alerts on a code with the same hint, for each such pair among the rows that are shown.
function alike(alerts) {
  const pairs = new Map(alerts.filter(it => it.hint).map(it => [`${it.code} ${it.hint}`, it]));
  if (!pairs.size) return [];
  const buttons = [...pairs.values()].map(it => button(make('span', '', hintName(it.hint), ' ', code(it.code)), () => closeAll(it.code, it.hint))), group = make('div', 'row', make('span', '', say('alike')), ...buttons);
  group.setAttribute('role', 'group'); group.setAttribute('aria-label', say('alike'));
  return [group];
}
async function closeAll(product, hint) {
  let range;
  if (!await doing(async () => { range = await get(`/v1/range?${query({ code: product, hint })}`) })) return;
  if (!range.alerts) { noted('warn', () => say('note.noneLeft')); return }
  const values = { count: count(range.alerts), first: count(range.first), last: count(range.last), hint: hintName(hint), code: product };
  const said = await ask(say('alikeTitle'), say('alikeYes', values), make('p', '', say('alikeRange', values)), make('p', '', say(`open.${hint}`)), verdictField(), textField(false));
  if (!said) return;
  await doing(async () => {
    const closed = await closeRange({ code: product, ...range, hint, act: 'CLOSE', word: said.word, text: said.text ?? '' });
    await shown();
    noted(closed ? 'good' : 'warn', () => say('note.closed', { count: count(closed) }));
  });
}
// Closes what is open or taken of a range in one act, and says how many alerts that were: none if others were faster.
async function closeRange({ alerts, ...order }) {
  try { return (await send(order)).alerts } catch (fault) {
    if (fault.message !== 'STATE') throw fault;
    return 0;
  }
}

// ---- One alert
async function alert(given, name) {
  const it = await get(`/v1/alerts/${encodeURIComponent(name)}`);
  const head = heading(`${say('field.alert')} `, code(it.alert), ' ', chip(it.state));
  return [head, seen(it), make('div', 'pair', hinted(it), acting(it)), ...letters(it), story(it), acts(it)];
}
function seen(it) {
  const pairs = [['moment', clock(it.moment)], ['house', it.authorisation && house(it.user, it.authorisation, it.premises)], ['code', code(it.code)], ['serial', code(it.serial)], ['batch', it.batch && code(it.batch)], ['expiry', it.expiry && expiry(it.expiry)]];
  const box = section(say('seen', { question: say(`question.${it.question}`) }), make('strong', '', say('stop')), make('p', '', say(`saw.${it.cause}`)), facts(pairs));
  box.className = 'bad seen';
  return box;
}
const hinted = it => section(`${say('field.hint')}: ${hintName(it.hint)}`, make('p', '', say(`fact.${it.hint || 'none'}`)), make('p', '', make('b', '', say(`open.${it.hint || 'none'}`))));
function acting(it) {
  const by = it.by ? say('takenBy', { user: it.by }) : it.verdict ? `${say('field.verdict')}: ${say(`verdict.${it.verdict}`)}` : '';
  const buttons = it.may.map(act => button(say(`act.${act}`), () => DIALOGS[act](it), act === 'TAKE' ? 'main' : ''));
  return section(say('acting'), ...(by ? [make('p', '', by)] : []), make('div', 'row', ...buttons), ...(buttons.length ? [] : [make('p', 'soft', say('actNone'))]));
}
const asked = (act, ...fields) => async it => { const said = await ask(say(`act.${act}`), say(`act.${act}`), ...fields.map(field => field())); if (said) await perform(it, act, said.word, said.text) };
const DIALOGS = {
  TAKE: it => perform(it, 'TAKE'), LEAVE: it => perform(it, 'LEAVE'), NOTE: asked('NOTE', () => textField(true)), REOPEN: asked('REOPEN', () => textField(false)),
  CLOSE: asked('CLOSE', verdictField, () => textField(false)), INFORM: asked('INFORM', whomField, () => textField(false)),
  CONFIRM: asked('CONFIRM', () => make('p', '', say('ask.confirm')), () => textField(false)),
};
// The letters that Article 37(d) wants of a confirmed falsification, each with the moment at which it was sent.
function letters(it) {
  if (it.state !== 'CONFIRMED') return [];
  const head = make('p', '', say(ARTICLE.every(whom => it.informed.includes(whom)) ? 'lettersDone' : 'lettersMissing'));
  const box = section(say('letters'), head, ...ARTICLE.map(whom => it.informed.includes(whom) ? sent(it, whom) : letter(it, whom)));
  box.id = 'letters';
  return [box];
}
function sent(it, whom) {
  const act = it.acts.findLast(line => line[8][0] === 'INFORM' && line[8][1] === whom);
  return make('div', 'letter', make('b', '', say(`whom.${whom}`)), make('span', 'chip good', say('letterSent')), make('span', '', act?.[8][2] ?? ''));
}
function letter(it, whom) {
  if (!it.may.includes('INFORM')) return make('div', 'letter', make('b', '', say(`whom.${whom}`)), make('span', 'chip warn', say('letterMissing')));
  const when = Object.assign(input('when', 'datetime-local', new Date().toISOString().slice(0, 16)), { required: true }), text = Object.assign(input('text', 'text'), { maxLength: 200 });
  const yes = Object.assign(make('button', '', say('letterYes')), { type: 'submit' });
  yes.setAttribute('aria-label', `${say('letterYes')}: ${say(`whom.${whom}`)}`);
  const form = make('form', 'letter', make('b', '', say(`whom.${whom}`)), labelled('when', when), labelled('reference', text), yes);
  form.setAttribute('aria-label', say(`whom.${whom}`));
  form.onsubmit = event => { event.preventDefault(); perform(it, 'INFORM', whom, [`${when.value.replace('T', ' ')} UTC`, text.value.trim()].filter(Boolean).join(', ')) };
  return form;
}
const entryColumns = named => [column('moment'), ...(named ? [column('house')] : []), column('question'), column('reply')];
function story(it) {
  const entries = it.story.map(entryOf), named = reader.reads !== 'HOLDER';
  const rows = entries.map(one => ({ current: one.alert === it.alert, cells: [clock(one.moment), ...(named ? [house(one.user, one.authorisation, one.premises)] : []), say(`question.${one.question[0]}`), replied(one.reply)] }));
  return section(say('story'), ...(reader.reads === 'HOUSE' ? [make('p', 'soft', say('storyOwn'))] : []), table(say('story'), entryColumns(named), rows));
}
function acts(it) {
  const named = reader.reads !== 'HOLDER', columns = [column('moment'), ...(named ? [column('by')] : []), column('act'), column('text')];
  const rows = it.acts.map(([, , moment, user, , authorisation, premises, about, act]) => ({ cells: [clock(moment), ...(named ? [house(user, authorisation, premises)] : []), did(act, about), make('span', '', act[0] === 'TAKE' || act[0] === 'LEAVE' ? '' : act.at(-1))] }));
  return section(say('acts'), table(say('acts'), columns, rows));
}
// An act in words; one on many alerts says from which number to which.
function did([act, word], [, first, last]) {
  const text = { CLOSE: () => `${say('did.CLOSE')}: ${say(`verdict.${word}`)}`, INFORM: () => `${say('did.INFORM')}: ${say(`whom.${word}`)}` }[act]?.() ?? say(`did.${act}`);
  return first === last ? text : `${text} (${say('range', { first: count(first), last: count(last) })})`;
}

// ---- Houses that are silent
async function houses(given) {
  const since = given.silent_since || dayOf((reader.moment || Date.now() / 1000) - 7 * DAY), asks = { ...given, silent_since: since };
  const it = await get(`/v1/houses?${query(asks)}`);
  const form = filters('houses', [labelled('silent_since', Object.assign(input('silent_since', 'date', since), { required: true }))]);
  const rows = it.houses.map(one => ({ cells: [code(one.user), say(`role.${one.role}`), code(one.authorisation), code(one.premises), one.last ? clock(one.last) : say('never')] }));
  return [heading(say('view.houses')), form, section('', table(say('view.houses'), ['user', 'role', 'authorisation', 'premises', 'last'].map(name => column(name)), rows)), ...following('houses', asks, it.next)];
}

// ---- Entries
async function entries(given) {
  const { entries: lines, next } = await get(`/v1/entries?${query(given)}`);
  const rows = lines.map(entryOf).map(it => ({ cells: [clock(it.moment), house(it.user, it.authorisation, it.premises), say(`question.${it.question[0]}`), code(it.question[1]), code(it.question[2]), it.alert ? link(replied(it.reply), `#alert/${it.alert}`) : replied(it.reply)] }));
  const columns = ['moment', 'house', 'question', 'code', 'serialOrBatch', 'reply'].map(name => column(name));
  return [heading(say('view.entries')), filters('entries', entryFields(given)), section('', table(say('view.entries'), columns, rows)), ...following('entries', given, next)];
}
function entryFields(given) {
  const text = name => labelled(name, input(name, 'text', given[name], 'code'));
  return [
    labelled('from', input('from', 'date', given.from)), labelled('to', input('to', 'date', given.to)), labelled('code', codeInput(given.code)), text('serial'), text('batch'),
    labelled('question', select('question', any(words('question', QUESTIONS)), given.question)), labelled('reply', select('reply', any(words('reply', REPLIES)), given.reply)),
    labelled('role', select('role', any(words('role', ROLES)), given.role)), text('user'), text('authorisation'), text('premises'), labelled('flagged', input('flagged', 'checkbox', given.flagged)), labelled('refused', input('refused', 'checkbox', given.refused)),
  ];
}

// ---- The view that the address names
const VIEWS = { numbers, list, alert, houses, entries };
let latest = 0;
async function show() {
  const [path, text = ''] = location.hash.slice(1).split('?'), [name, of = ''] = path.split('/'), view = VIEWS[name] ? name : 'numbers', turn = ++latest;
  let parts;
  try {
    await meet();
    parts = await VIEWS[view](Object.fromEntries(new URLSearchParams(text)), of);
  } catch (fault) {
    if (!(fault instanceof Refusal)) throw fault;
    parts = [heading(say('title')), make('section', 'bad', make('p', '', refused(fault)))];
  }
  if (turn !== latest) return; // another view was asked for meanwhile
  showViews(view === 'alert' ? 'list' : view);
  $('view').replaceChildren(...parts);
  document.title = `${$('view').querySelector('h2').textContent} · ${say('title')}`;
}
// A view that a person went to takes the focus; the note of an earlier act goes.
async function move() {
  note = null; showNote();
  await show();
  $('view').querySelector('h2').focus();
}
// Puts the words of the language everywhere.
function speak() {
  document.documentElement.lang = language;
  for (const it of document.querySelectorAll('[data-say]')) it.textContent = say(it.dataset.say);
  for (const it of document.querySelectorAll('[data-label]')) it.setAttribute('aria-label', say(it.dataset.label));
  showNote();
  return show();
}
$('language').replaceChildren(...Object.keys(WORDS).map(it => Object.assign(make('option', '', WORDS[it].language), { value: it, lang: it, selected: it === language })));
$('language').onchange = () => { language = store['alerts.language'] = $('language').value; speak() };
addEventListener('hashchange', move);
// How far the replica is, while a view stays open.
setInterval(() => { if (!document.hidden) meet().catch(() => {}) }, 30_000);
speak();
