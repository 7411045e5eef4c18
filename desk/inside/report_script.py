"""The script of a report's page. Without it the page is whole but for the filter and for the moment that is looked at. It reads the table and asks
nobody: what is shown of a moment is what the rows up to it say."""

SCRIPT = r"""
'use strict';
(() => {
const $ = (q, at = document) => at.querySelector(q), $$ = (q, at = document) => [...at.querySelectorAll(q)];
const table = $('#records'), rows = $$('tbody tr', table), slider = $('#moment'), values = $('#values'), pictures = $$('figure.main svg');
const names = $$('thead th', table).slice(3).map(th => th.dataset.n), more = (table.dataset.more || '').split('|');
const units = JSON.parse(table.dataset.units);
const last = {}, seen = rows.map(row => {
  const slot = row.dataset.s || '', cells = $$('td', row), now = {...last[slot]};
  names.forEach((name, at) => { const text = cells[at + 2] ? cells[at + 2].textContent : ''; if (text) now[name] = text; });
  if (row.dataset.m) row.dataset.m.split('|').forEach((text, at) => { if (text) now[more[at]] = text === '-' ? '' : text; });
  last[slot] = now;
  const words = cells[1].firstChild ? cells[1].firstChild.textContent : '';
  return {slot, time: table.dataset.timed ? +cells[0].textContent : +$('th', row).textContent, now, number: $('th', row).textContent, words};
});
const unit = (name, text) => !units[name] || text.endsWith('counts') ? '' : units[name][0] === '/' ? units[name] : ' ' + units[name];
const spoken = at => {
  const {time, now, number, words, slot} = seen[at];
  const told = Object.entries(now).filter(([, text]) => text !== '').map(([name, text]) => name + ' ' + text + unit(name, text));
  const where = (table.dataset.timed ? ', ' + time + ' h' : '') + (slot ? ', slot ' + slot : '');
  return 'record ' + number + where + ': ' + words.split('\n')[0] + '. ' + told.join(', ');
};
const shown = element => element && element.getClientRects().length > 0;
let here = -1;
const look = at => {
  if (at < 0 || at >= rows.length || at === here) return;
  if (here >= 0) rows[here].classList.remove('here');
  here = at;
  rows[at].classList.add('here');
  const {time, now, number, words, slot} = seen[at];
  slider.value = at;
  slider.setAttribute('aria-valuetext', spoken(at));
  values.textContent = '';
  const say = (name, text) => {
    const span = document.createElement('span'), b = document.createElement('b');
    b.textContent = text;
    span.append(name + ' ', b);
    values.append(span);
  };
  say('record', number + (slot ? ' (slot ' + slot + ')' : ''));
  if (table.dataset.timed) say('at', time + ' h');
  say('', words.split('\n')[0]);
  for (const [name, text] of Object.entries(now)) if (text !== '') say(name, text + unit(name, text));
  for (const svg of pictures) {
    const {left, right, low, high} = svg.dataset, x = +left + (time - low) / (high - low) * (right - left), line = $('.cursor', svg);
    line.setAttribute('transform', 'translate(' + x.toFixed(1) + ')');
    line.setAttribute('visibility', 'visible');
  }
};
const nearest = (time, slot) => {  // of the pack whose strip it is, in a tray
  let best = -1;
  seen.forEach((moment, at) => {
    if (slot !== '' && moment.slot !== slot) return;
    if (best < 0 || Math.abs(moment.time - time) < Math.abs(seen[best].time - time)) best = at;
  });
  return best;
};
const go = (row, focus) => {
  if (!row) return;
  if (row.hidden) { $('#kind').value = ''; $('#refused').checked = $('#marked').checked = false; filter(); }
  look(rows.indexOf(row));
  if (focus) { row.tabIndex = -1; row.focus({preventScroll: true}); row.scrollIntoView({block: 'center'}); }
};
if (rows.length) {
  slider.max = rows.length - 1;
  slider.addEventListener('input', () => look(+slider.value));
  slider.addEventListener('keydown', event => { if (event.key === 'Enter') { event.preventDefault(); go(rows[+slider.value], true); } });
  $('#tell').addEventListener('click', () => go(rows[+slider.value], true));
  look(0);
}
for (const svg of pictures) {
  const follow = event => {
    const box = svg.getBoundingClientRect(), {left, right, low, high} = svg.dataset, wide = svg.viewBox.baseVal.width;
    const x = (event.clientX - box.left) / box.width * wide, y = (event.clientY - box.top) / box.width * wide;
    const strip = svg.dataset.strips ? svg.dataset.strips.split(' ').filter(top => y >= top - 24).length - 1 : -1;
    if (x >= left - 4 && x <= +right + 4) look(nearest(+low + (x - left) / (right - left) * (high - low), strip < 0 ? '' : String(strip)));
  };
  svg.addEventListener('pointermove', event => { if (!event.target.closest('a')) follow(event); });
  svg.addEventListener('pointerdown', event => { if (!event.target.closest('a')) follow(event); });
}
for (const mark of $$('svg a.mark')) {
  const row = document.getElementById(mark.getAttribute('href').slice(1));
  for (const kind of ['focus', 'pointerenter']) mark.addEventListener(kind, () => look(rows.indexOf(row)));
  mark.addEventListener('click', event => { event.preventDefault(); history.replaceState(null, '', mark.getAttribute('href')); go(row, true); });
}
table.addEventListener('click', event => {
  const link = event.target.closest('a[data-k]'), row = event.target.closest('tbody tr');
  if (link) {
    event.preventDefault();
    const mark = $$('svg a.mark.m-' + link.dataset.k).find(mark => shown(mark) && mark.dataset.r.split(' ').includes(row.id));
    if (mark) { mark.focus({preventScroll: true}); mark.scrollIntoView({block: 'center'}); history.replaceState(null, '', '#' + mark.id); }
  }
  if (row) look(rows.indexOf(row));
});
const filter = () => {
  const kind = $('#kind').value, refused = $('#refused').checked, marked = $('#marked').checked;
  let count = 0;
  for (const row of rows) {
    const out = kind && row.dataset.k !== kind || refused && !row.classList.contains('no') || marked && !$('a[data-k]', row);
    row.hidden = out;
    if (!out) count++;
  }
  $('#count').textContent = count.toLocaleString('en') + ' of ' + rows.length.toLocaleString('en') + ' rows are shown';
};
for (const control of $$('.filter select,.filter input')) control.addEventListener('change', filter);
$('.filter').hidden = false;
$('.moment').hidden = false;
filter();
const narrow = matchMedia('(max-width:700px)');
const roles = () => {  // laid out as blocks, a browser takes rows and cells for no table: they are named again
  const set = (q, role) => $$(q, table).forEach(element => narrow.matches ? element.setAttribute('role', role) : element.removeAttribute('role'));
  narrow.matches ? table.setAttribute('role', 'table') : table.removeAttribute('role');
  set('tr', 'row'); set('td', 'cell'); set('thead th', 'columnheader'); set('tbody th', 'rowheader');
};
narrow.addEventListener('change', roles);
roles();
if (location.hash) go(rows.find(row => row.id === decodeURIComponent(location.hash.slice(1))), true);
})();
"""
