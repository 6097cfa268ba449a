// Going to a moment: by slider, keys, buttons, and clicks. 0 is before the first event.
function show(number) {
  now = Math.max(0, Math.min(count, number || 0));
  const moment = after(now), before = now > 0 ? after(now - 1) : moment, event = events[now - 1];
  // What looks at the layout comes first: after the tables are written it would have to be made anew.
  if (now > 0) {
    const x = (now - 1) * step, wide = box.clientWidth - LEFT;
    makeRoom();
    if (x < box.scrollLeft || x + step > box.scrollLeft + wide) box.scrollLeft = x - wide / 2;
  }
  draw();
  showLost();
  element('cursor').value = now;
  element('place').textContent = now ? `event ${now} of ${count}` : `before ${count} events`;
  element('words').textContent = event ? event.words : '';
  element('words').title = event ? `event word ${event.word}, answer ${event.answer}` : '';
  element('sentence').textContent = event ? event.sentence : '';
  element('what').textContent = event ? event.what : 'before the first event';
  element('what').className = !event ? '' : event.refused ? 'refused' : event.crash ? 'cut' : '';
  showStore(moment, before);
  showLocks(moment, before, now);
  showLive(moment, now);
  showVersions(moment, before, now);
  try { history.replaceState(null, '', `#${now}`); } catch { /* where it isn't allowed the address stays */ }
}
function next(kind) {
  const at = events.findIndex((event, place) => place >= now && event[kind]);
  if (at >= 0) show(at + 1);
}
function zoom(factor) { // around the cursor, or the middle of what is in view
  const wide = box.clientWidth - LEFT, middle = now > 0 ? now - .5 : (box.scrollLeft + wide / 2) / step;
  step = Math.max(3, Math.min(48, step * factor));
  makeRoom();
  box.scrollLeft = middle * step - wide / 2;
  draw();
}

const many = event => event.shiftKey ? 10 : 1;
const keys = {
  ArrowLeft: event => show(now - many(event)), ArrowRight: event => show(now + many(event)),
  Home: () => show(0), End: () => show(count), r: () => next('refused'), c: () => next('crash'),
  '+': () => zoom(1.4), '-': () => zoom(1 / 1.4),
};
const buttons = {
  first: () => show(0), back: () => show(now - 1), on: () => show(now + 1), last: () => show(count),
  refused: () => next('refused'), crash: () => next('crash'), wide: () => zoom(1.4), narrow: () => zoom(1 / 1.4),
};
document.addEventListener('keydown', event => {
  if (event.ctrlKey || event.altKey || event.metaKey || !keys[event.key]) return;
  keys[event.key](event);
  event.preventDefault();
});
for (const [id, act] of Object.entries(buttons)) element(id).addEventListener('click', act);
element('cursor').max = count;
element('cursor').addEventListener('input', () => show(+element('cursor').value));
element('all').addEventListener('change', () => show(now));
element('drawing').addEventListener('click', event => {
  const x = event.clientX - element('drawing').getBoundingClientRect().left;
  if (x >= LEFT) show(Math.min(count, 1 + Math.floor((x - LEFT + box.scrollLeft) / step)));
});
function seek(event) {
  const x = event.clientX - element('overview').getBoundingClientRect().left;
  if (event.buttons) show(Math.ceil(x / box.clientWidth * count));
}
element('overview').addEventListener('pointerdown', seek);
element('overview').addEventListener('pointermove', seek);
element('lost-table').addEventListener('click', event => {
  const row = event.target.closest('tr');
  if (row) show(+row.dataset.at);
});
box.addEventListener('scroll', () => requestAnimationFrame(draw));
element('lost-rows').addEventListener('scroll', () => requestAnimationFrame(showLost));
window.addEventListener('resize', draw);
window.addEventListener('hashchange', () => show(+location.hash.slice(1)));

element('fates').textContent = data.title;
element('refusals').innerHTML =
  data.refusals.map((reason) => `<li>${escaped(reason)}</li>`).join('');
const room = (box.clientWidth - LEFT - 12) / Math.max(1, count);
step = Math.min(34, Math.max(room, 22)); // letters have room; a longer list is scrolled
// At most so high, so that what is below stays in its place.
box.style.height = `${AXIS + 12 + timeline.height + timeline.locks.length * LOCK + CRASH}px`;
show(location.hash ? +location.hash.slice(1) : Math.min(1, count));
