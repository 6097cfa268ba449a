// The tables: the store, locks, live transactions, versions, and the lost writes.

// Pages that are zero all the time are left out, so that rows stay in their places. That a copy is good is nothing new.
const used = new Set([0]);
for (const changes of [data.start, ...events.map(event => event.changes)]) {
  for (const [from, digits] of changes.store || []) {
    bytesOf(digits).forEach((byte, at) => {
      const place = from + at, isStatus = TEARS && place % COPY === 0;
      if (!isStatus || byte !== GOOD) used.add(Math.floor(place / SPACE));
    });
  }
}
function pageName(page) {
  if (page === 0) return 'commit page';
  return page <= RECORDS ? `intention, record ${page - 1}` : `home, record ${page - 1 - RECORDS}`;
}
// A copy of a page, whether it is good, and which one counts: the first that is, or none.
const copyStart = (page, copy) => page * SPACE + copy * COPY;
const copyOf = (store, page, copy) => store.subarray(copyStart(page, copy) + STATUS, copyStart(page, copy) + COPY);
const isGood = (store, page, copy) => !TEARS || store[copyStart(page, copy)] === GOOD;
const counting = (store, page) => isGood(store, page, 0) ? 0 : isGood(store, page, COPIES - 1) ? COPIES - 1 : -1;

// Where a record is settled, by what page 0 says of it.
function standing(store, page, copy) {
  if (page === 0 || counting(store, page) !== copy) return '';
  const page0 = copyOf(store, 0, Math.max(0, counting(store, 0)));
  const record = (page - 1) % RECORDS, state = page0[0] & 15;
  const named = (page0[1 + (record >> 3)] & (0x80 >> (record & 7))) > 0;
  const settledIn = state === 5 && named ? 1 + record : 1 + RECORDS + record;
  if (page === settledIn) return '<b class="settled">&#9679;</b>';
  return state === 3 && named ? '<b class="waits">&#9679;</b>' : '';
}
// Whether a copy is good, where that can be otherwise.
function statusOf(now, before, page, copy) {
  if (!TEARS) return '';
  const is = isGood(now, page, copy), text = is ? 'good' : '<b class="bad">bad</b>';
  return is === isGood(before, page, copy) ? text : `<span class="changed">${text}</span>`;
}
function bytes(now, before) {
  let text = '';
  for (let at = 0; at < now.length; at++) {
    const kind = now[at] !== before[at] ? ' class="changed"' : '', tag = now[at] ? 'span' : 'i';
    text += `<${tag}${kind}>${hex(now[at])}</${tag}>` + (at % 4 === 3 ? ' ' : '');
  }
  return text;
}
const ascii = page => escaped(String.fromCharCode(...page.map(byte => byte > 31 && byte < 127 ? byte : 46)));

const rowOf = (page, copy) => `<tr data-page="${page}"><th class="number">${copy ? '' : page}` +
  `<th>${copy ? '' : pageName(page)}<td><td class="bytes"><td class="ascii"></tr>`;
const placed = Array.from({ length: PAGES * COPIES }, (_, row) => [Math.floor(row / COPIES), row % COPIES]);
element('store').innerHTML = '<tr><th>page<th><th><th>bytes<th>as text</tr>' +
  placed.map(([page, copy]) => rowOf(page, copy)).join('');
const storeRows = [...document.querySelectorAll('#store tr[data-page]')];
function showStore(now, before) {
  storeRows.forEach((row, at) => {
    const [page, copy] = placed[at], part = store => copyOf(store, page, copy);
    row.hidden = !used.has(page) && !element('all').checked;
    const stands = [standing(now.store, page, copy), statusOf(now.store, before.store, page, copy)].filter(Boolean).join(' ');
    const cells = [stands, bytes(part(now.store), part(before.store)), ascii(part(now.store))];
    cells.forEach((text, place) => {
      const cell = row.cells[2 + place];
      if (cell.kept !== text) cell.innerHTML = cell.kept = text;
    });
  });
  element('page0').textContent = now.page0;
}

const none = '<span class="none">&ndash;</span>';
const named = (text, at) => escaped(text).replace(/\b\d+\b/g, number => escaped(nameOf(+number, at)));
function showLocks(now, before, at) {
  const rows = timeline.locks.map(([record]) => {
    const [held, retained, waits] = now.locks.get(record) || ['', '', ''];
    const changed = at > 0 && String(before.locks.get(record) || ',,') !== String([held, retained, waits]);
    const holder = waits ? `<b class="waits">locked ${escaped(waits)}</b>` : held ? named(held, at) : none;
    const retainer = retained ? named(retained, at) : none;
    return `<tr class="${changed ? 'fresh' : ''}"><td>record ${record}<td>${holder}<td>${retainer}</tr>`;
  });
  element('locks').innerHTML = rows.length
    ? '<tr><th>record<th>held by<th>retained by</tr>' + rows.join('')
    : '<tr><td class="none">no record is ever locked</tr>';
}
function showLive(now, at) {
  const rows = [];
  const below = parent => now.live.filter(one => one[1] === parent).forEach(([number, , depth]) => {
    const name = `${depth > 1 ? '&#8627; ' : ''}transaction ${escaped(nameOf(number, at))}`;
    rows.push(`<tr><td style="padding-left:${(depth - 1) * 16}px">${name}</tr>`);
    below(number);
  });
  below(-1);
  element('live').innerHTML = rows.join('') || `<tr><td class="none">none; the store is ${now.up ? 'up' : 'down'}</tr>`;
}
function showVersions(now, before, at) {
  const rows = [...now.versions].sort(([one], [other]) => one - other).map(([key, { record, writer, page }]) => {
    const old = before.versions.get(key), was = old ? old.page : new Uint8Array(PAGE);
    return `<tr><td>${escaped(nameOf(writer, at))}<td>record ${record}<td class="bytes">${bytes(page, was)}</tr>`;
  });
  element('versions').innerHTML = rows.length
    ? '<tr><th>of<th>of record<th>bytes</tr>' + rows.join('')
    : '<tr><td class="none">none</tr>';
}

// The lost writes: the rows in view.
const LOST_ROW = 22, open = lost.filter(row => row[6]).length;
element('lost-title').textContent = `lost writes: ${lost.length - open}` + (open ? `, and ${open} not decided` : '');
element('lost-note').textContent = data.carried ? 'Writes from before the first event are not listed.' : '';
element('lost').hidden = !lost.length;
element('lost-head').innerHTML =
  '<tr><th>event<th>transaction<th>record<th>offset<th>value<th>how it was lost</tr>';
element('lost-room').style.height = `${lost.length * LOST_ROW}px`;
function showLost() {
  const rows = element('lost-rows'), from = Math.max(0, Math.floor(rows.scrollTop / LOST_ROW) - 2);
  const part = lost.slice(from, from + Math.ceil(rows.clientHeight / LOST_ROW) + 4);
  element('lost-table').style.top = `${from * LOST_ROW}px`;
  element('lost-table').innerHTML = part.map(([at, place, record, offset, value, how, isOpen]) => {
    const [number, name] = transactions[place], kind = (at === now ? 'here ' : '') + (isOpen ? 'open' : '');
    return `<tr data-at="${at}" class="${kind}" title="${escaped(how)}"><td>${at}<td>${escaped(withName(number, name))}` +
      `<td>${record}<td>${offset}<td class="number">${value}<td>${escaped(how)}</tr>`;
  }).join('');
}
