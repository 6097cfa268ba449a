'use strict';
// Drives a page as its reader does, and writes what is shown then to the end of the page, a line each. It is appended to
// a copy of the page; `wanted` has the events to go to, and `troubles` what went wrong since the page's first line.
const lines = [], say = (...words) => lines.push(words.join(' '));
const get = id => document.getElementById(id);
const shownBytes = row => [...row.querySelectorAll('.bytes span, .bytes i')].map(cell => cell.textContent).join('');
const store = () => [...document.querySelectorAll('#store tr[data-page]')].map(shownBytes).join('');
const press = (key, options) => document.dispatchEvent(new KeyboardEvent('keydown', { key, bubbles: true, ...options }));
function slide(to) { get('cursor').value = to; get('cursor').dispatchEvent(new Event('input', { bubbles: true })); }
try {
  get('all').click(); // all pages
  say('title', document.title, '|', get('fates').textContent);
  let took = 0;
  for (const at of wanted) {
    const began = performance.now();
    slide(at);
    took += performance.now() - began;
    say('store', at, store());
    say('place', at, get('place').textContent);
    say('event', at, get('words').textContent, '|', get('sentence').textContent, '|', get('what').textContent.replace(/\n/g, ' / '));
    say('changed', at, document.querySelectorAll('#store .changed').length);
    say('locks', at, [...document.querySelectorAll('#locks tr')].slice(1).map(row => [...row.cells].map(cell => cell.textContent).join(',')).join(' ; '));
    say('versions', at, [...document.querySelectorAll('#versions tr')].slice(1).map(row => row.cells[0].textContent + ',' + row.cells[1].textContent + ',' + shownBytes(row)).join(' ; '));
    say('live', at, get('live').textContent.trim().replace(/\s+/g, ' '));
    say('page0', at, get('page0').textContent);
    if (at > 0 && !get('column')) say('error no cursor in the timeline at', at);
  }
  say('milliseconds', Math.round(took / wanted.length), 'an event');
  say('drawn', get('drawing').querySelectorAll('*').length, 'of', document.querySelectorAll('*').length);
  slide(0); say('keys start', get('place').textContent);
  press('ArrowRight'); press('ArrowRight'); say('keys right twice', get('place').textContent);
  press('ArrowLeft'); say('keys left', get('place').textContent);
  press('End'); say('keys end', get('place').textContent, get('cursor').value === get('cursor').max);
  press('Home'); press('r'); say('next refused', get('what').textContent.split('\n')[0]);
  press('Home'); get('crash').click(); say('next crash', get('what').textContent.split('\n')[0]);
  const narrow = get('room').offsetWidth; press('+'); say('wider', get('room').offsetWidth > narrow);
  say('lost', get('lost-title').textContent, '|', [...document.querySelectorAll('#lost-table tr')].map(row => [...row.cells].map(cell => cell.textContent).join(',')).join(' ; '));
  const row = document.querySelector('#lost-table tr');
  if (row) { row.cells[0].click(); say('lost row', row.dataset.at, get('place').textContent); }
  say('refusals', get('refusals').textContent);
} catch (error) { say('error', error.message); }
troubles.forEach(trouble => say('error', trouble));
const told = document.createElement('pre');
told.textContent = ['', 'DRIVEN', ...lines, 'END'].join('\n');
document.body.append(told);
