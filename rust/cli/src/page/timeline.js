// The timeline: as many columns as are in view, and the whole list in a strip above it.
const LEFT = 88, AXIS = 48, LOCK = 30, CRASH = 28;
const box = element('timeline');
let step = 34, now = 0, bars = 0, height = 0; // where the bars in view end, and the locks below them
const inView = (from, to) => transactions.filter(told => told[3] <= to && told[4] >= from);
const tipped = tip => tip ? `<title>${escaped(tip)}</title>` : '';
const rect = (x, y, width, high, kind, tip) =>
  `<rect x="${x.toFixed(1)}" y="${y}" width="${Math.max(1, width).toFixed(1)}" height="${high}" class="${kind}"` +
  `${high > 14 ? ' rx="4"' : ''}>${tipped(tip)}</rect>`;
const label = (x, y, kind, text, tip) =>
  `<text x="${x.toFixed(1)}" y="${y}" class="${kind}">${escaped(text)}${tipped(tip)}</text>`;
const line = (x1, y1, x2, y2, kind) => `<line x1="${x1}" y1="${y1}" x2="${x2}" y2="${y2}" class="${kind}"/>`;
const tipOf = at => `event ${at + 1}, ${events[at].words}: ${events[at].what.split('\n')[0]}`;
const roomy = () => step >= 20;
const makeRoom = () => { element('room').style.width = `${LEFT + count * step + 12}px`; };
const upBefore = []; // whether the store is up before each event
for (let at = 0, up = timeline.up; at < count; at++) {
  upBefore.push(up);
  up = (up || events[at].recover) && !events[at].crash;
}

// Event numbers, the numbers of refusals, and a band that is green while the store is up.
function drawAxis(left, from, to) {
  const every = [1, 5, 10, 50, 100].find(number => number * step >= 24) || 100;
  let text = '';
  for (let at = from; at <= to; at++) {
    const x = left(at), middle = x + step / 2, event = events[at], tip = tipOf(at);
    if ((at + 1) % every === 0 || at === 0) text += label(middle, 11, 'number', at + 1);
    if (event.refused && roomy()) text += label(middle, 24, 'refusal', number(event.answer.slice(0, 2)), tip);
    else if (event.refused) text += rect(x, 16, step, 8, 'refused-tick', tip);
    text += rect(x, 31, step + .5, 9, upBefore[at] ? 'up' : 'down', tip);
    if (event.recover) {
      const half = Math.min(4, step / 2), foot = `M${middle - half} 39.5 L${middle} 31.5 L${middle + half} 39.5 Z`;
      text += rect(middle, 31, step / 2 + .5, 9, event.crash ? 'down' : 'up', tip);
      text += `<path d="${foot}" class="${event.crash ? 'recover-cut' : 'recover'}">${tipped(tip)}</path>`;
    }
  }
  return text;
}

// Transactions as bars, parents below their children; then their events, and their numbers on top.
function drawBars(left, from, to) {
  const drawn = inView(from, to).sort((one, other) => one[5] - other[5] || one[3] - other[3]);
  const row = told => AXIS + told[5] + timeline.row / 2;
  let text = '';
  for (const [, , , first, last, top, high, kind, tip] of drawn) {
    const x = left(first) + 1;
    text += rect(x, AXIS + top, left(last) + step - 1 - x, high, kind, tip);
  }
  for (let at = from; at <= to; at++) {
    const { mark, owner } = events[at];
    if (!mark || owner < 0) continue;
    const y = row(transactions[owner]), [letters, kind, tick] = mark;
    if (roomy()) text += label(left(at) + step / 2, y + 4, texts[kind], letters, tipOf(at));
    else text += rect(left(at), y - 2, step - 1, 9, texts[tick], tipOf(at));
  }
  return text + drawn.map(told => drawNumber(told, left, row(told))).join('');
}
// A transaction's number where it begins, or at the edge if that is out of view; and the decision on it.
function drawNumber([number, name, begun, first, , , , kind, tip, decision], left, y) {
  const shown = name ? `${name}: ${tip}` : tip;
  if (!roomy()) return label(Math.max(left(first) + 3, LEFT + 3), y - 4.5, 'small', number, shown);
  const x = Math.max(left(first) + (begun ? step / 2 : 0), LEFT + 10), badge = `badge-${kind.split(' ')[0]}`;
  const sign = decision ? label(left(decision[0]) + step / 2, y + 4, 'end', decision[1] ? '\u2713' : '\u2717') : '';
  return `${sign}<circle cx="${x}" cy="${y}" r="8.5" class="${badge}">${tipped(shown)}</circle>` +
    label(x, y + 3.5, 'badge', number, shown);
}

// A row for each record: who holds its lock above, who retains it below.
function drawLocks(left, from, to, width) {
  const isHere = ([first, end]) => first <= to && end > from;
  const stretch = what => top => ([first, end, who, kind, tip]) => {
    const x = left(first), wide = left(end) - x - 1, shown = Math.min(wide, left(end) - LEFT);
    const text = rect(x, top, wide, 12, kind, tip);
    return shown > 4 + 6 * who.length ? text + label(Math.max(x, LEFT) + shown / 2, top + 9.5, `${what}-by`, who) : text;
  };
  const waiting = y => ([first, end, identity]) => {
    const x = left(first), wide = left(end) - x - 1;
    const text = rect(x, y + 2, wide, 26, 'prepared', `locked until the decision on identity ${identity}`);
    return wide > 22 ? text + label(x + wide / 2, y + 18.5, 'held-by', `p${identity}`) : text;
  };
  return timeline.locks.map(([, held, retained, prepared], place) => {
    const y = bars + place * LOCK;
    return [line(0, y, width, y, 'grid'), ...held.filter(isHere).map(stretch('held')(y + 2)),
      ...retained.filter(isHere).map(stretch('retained')(y + 16)), ...prepared.filter(isHere).map(waiting(y))].join('');
  }).join('');
}

// A line through all at each crash. Labels of neighbours don't touch.
function drawCrashes(left, from, to) {
  let text = '';
  for (let at = from; at <= to; at++) {
    const { crash, answer } = events[at], x = left(at) + step - 1, lower = at > 0 && events[at - 1].crash;
    if (!crash) continue;
    text += line(x, 28, x, height - CRASH, 'crash');
    const what = answer.startsWith('0B') ? `cut at ${number(answer.slice(2))}` : 'crash';
    if (roomy()) text += label(x, height - (lower ? 4 : 16), 'crash-label', what);
  }
  return text;
}

function drawMargin() {
  const labels = [['event', 11], ['refused', 24], ['store', 39]];
  if (transactions.length) labels.push(['transactions', AXIS + 16]);
  timeline.locks.forEach(([record], place) => labels.push([`record ${record}`, bars + place * LOCK + 18]));
  return `<rect width="${LEFT - 4}" height="${height}" class="margin"/>` +
    labels.map(([text, y]) => label(8, y, 'label', text)).join('');
}

function draw() {
  const width = box.clientWidth, left = at => LEFT + at * step - box.scrollLeft;
  const from = Math.max(0, Math.floor(box.scrollLeft / step));
  const to = Math.min(count - 1, Math.ceil((box.scrollLeft + width - LEFT) / step));
  makeRoom();
  bars = AXIS + 12 + inView(from, to).reduce((most, told) => Math.max(most, told[5] + told[6]), timeline.row);
  height = bars + timeline.locks.length * LOCK + CRASH;
  const svg = element('drawing');
  svg.setAttribute('width', width);
  svg.setAttribute('height', height);
  const column = now > 0 ? left(now - 1) : -step;
  svg.innerHTML = drawAxis(left, from, to) + drawBars(left, from, to) + drawLocks(left, from, to, width) +
    drawCrashes(left, from, to) +
    `<rect id="column" x="${column}" y="0" width="${step}" height="${height}" class="cursor"/>` + drawMargin();
  drawOverview(width);
}

// The whole list in one strip, with what is in view and the cursor.
function drawOverview(width) {
  const canvas = element('overview'), pen = canvas.getContext('2d');
  canvas.hidden = LEFT + count * step <= width;
  if (canvas.hidden) return;
  if (canvas.width !== width) canvas.width = width;
  pen.clearRect(0, 0, width, 26);
  const x = at => at / count * width;
  const fill = (colour, ...place) => { pen.fillStyle = colour; pen.fillRect(...place); };
  for (let column = 0; column < width; column++) {
    const from = Math.floor(column / width * count), to = Math.max(from + 1, Math.floor((column + 1) / width * count));
    let crash = false, refused = false;
    for (let at = from; at < to && at < count; at++) {
      crash ||= events[at].crash;
      refused ||= events[at].refused;
    }
    fill(upBefore[from] ? '#7cc6a4' : '#cfcfcf', column, 10, 1, 10);
    if (refused) fill('#e39a93', column, 4, 1, 5);
    if (crash) fill('#b3261e', column, 8, 1, 14);
  }
  pen.strokeStyle = '#444';
  pen.strokeRect(x(box.scrollLeft / step) + .5, 1.5, Math.max(3, x((width - LEFT) / step)), 23);
  if (now > 0) fill('#c99700', x(now - 1), 0, 3, 26);
}
