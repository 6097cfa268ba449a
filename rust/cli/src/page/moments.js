'use strict';
// The data has the moment before the first event, and what each event changes. From that any moment is made again.
const data = JSON.parse(document.getElementById('data').textContent);
const { texts, transactions, timeline, lost } = data;
const events = data.events.map(([word, words, sentence, answer, what, owner, [kinds, mark], changes]) => ({
  word, words: texts[words], sentence: texts[sentence], answer, what: texts[what], owner, mark, changes,
  crash: (kinds & 1) > 0, recover: (kinds & 2) > 0, refused: (kinds & 4) > 0,
}));
const count = events.length, PAGE = 32, TEARS = {{tears}}, PAGES = {{pages}}, RECORDS = {{records}};
// Where pages can tear each is kept as two copies, with a status before each: 1 is good.
const COPIES = TEARS ? 2 : 1, STATUS = TEARS ? 1 : 0, COPY = STATUS + PAGE, SPACE = COPIES * COPY, GOOD = 1;
const element = id => document.getElementById(id);
const signs = { '&': '&amp;', '<': '&lt;', '>': '&gt;', '"': '&quot;' };
const escaped = text => String(text).replace(/[&<>"]/g, sign => signs[sign]);
const hex = byte => byte.toString(16).toUpperCase().padStart(2, '0');
const bytesOf = digits => Uint8Array.from(digits.match(/../g) || [], pair => parseInt(pair, 16));
const number = digits => parseInt(digits, 16);

const blank = () =>
  ({ store: new Uint8Array(PAGES * SPACE), locks: new Map(), versions: new Map(), live: [], up: 0, page0: '' });
const copy = moment =>
  ({ ...moment, store: moment.store.slice(), locks: new Map(moment.locks), versions: new Map(moment.versions) });

// Makes of a moment the one after an event's changes.
function change(moment, changes) {
  for (const [place, digits] of changes.store || []) moment.store.set(bytesOf(digits), place);
  for (const [record, ...parts] of changes.locks || []) moment.locks.set(record, parts);
  for (const [record, writer, digits] of changes.versions || []) {
    const key = writer * RECORDS + record;
    if (digits) moment.versions.set(key, { record, writer, page: bytesOf(digits) });
    else moment.versions.delete(key);
  }
  if (changes.live) moment.live = changes.live;
  if ('up' in changes) moment.up = changes.up;
  if ('page0' in changes) moment.page0 = texts[changes.page0];
  return moment;
}

// The moment after so many events, from the last one that is kept before it.
const EVERY = 128, kept = [change(blank(), data.start)]; // kept[k] is the moment after k * EVERY events
function after(number) {
  const k = Math.floor(number / EVERY);
  while (kept.length <= k) {
    const moment = copy(kept[kept.length - 1]), from = (kept.length - 1) * EVERY;
    for (let at = from; at < from + EVERY; at++) change(moment, events[at].changes);
    kept.push(moment);
  }
  const moment = copy(kept[k]);
  for (let at = k * EVERY; at < number; at++) change(moment, events[at].changes);
  return moment;
}

// Whose number it is at a moment: the last that bears it and began before.
const bearers = new Map();
transactions.forEach(([number], place) => bearers.set(number, [...(bearers.get(number) || []), place]));
function nameOf(number, moment) {
  const before = place => !transactions[place][2] || transactions[place][3] < moment;
  const place = (bearers.get(number) || []).filter(before).pop();
  return withName(number, place === undefined ? '' : transactions[place][1]);
}
const withName = (number, name) => name ? `${number} (${name})` : String(number);
