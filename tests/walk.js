/* Stands in copies of pages that .ci/picture makes, before the page's own script, and walks through all lines by slider, keys and buttons.
   What has to be seen after each is worked out here, from the whole trace and the words (elements whole-trace and whole-words; whole-why
   has the exact reasons of some refusals), and from nothing that the page was given. Tells the page around it what it found. */
(function () {
  'use strict';
  const $ = id => document.getElementById(id), bad = [];
  const fail = (i, what) => bad.push(i + ': ' + what);
  addEventListener('error', e => fail('error', e.message + ' at ' + e.lineno));
  console.error = (...said) => fail('console', said.join(' '));
  // In the copies a '<' stands as byte 01, so that nothing in them ends an element.
  const whole = id => $(id).textContent.trim().split('\n').filter(t => t.length).map(t => t.replace(/\x01/g, '<'));
  const num = (t, at, n) => parseInt(t.substr(at, n), 16);

  /* ---- What the trace has: for each line its step, its refusal and the frames of the record after it. ---- */
  const told = whole('whole-words').map(t => t.split('\t')), first = told.length ? +told[0][0] : 1;
  const exact = new Map(whole('whole-why').map(t => t.split('\t')).map(f => [f[0], ' ' + f[1]]));
  const after = [{step: '', why: 0, frames: []}];
  let fresh = true;
  for (const t of whole('whole-trace')) {
    const now = after[after.length - 1];
    if (t.includes(' ')) { after.push({step: t.slice(0, -19), why: num(t, t.length - 18, 2), number: num(t, t.length - 16, 4), frames: now.frames}); fresh = true; }
    else { now.frames = fresh ? [t] : now.frames.concat(t); fresh = false; }
  }
  const L = after.length - 1;
  function serversIn(frames) {
    const begins = frames.map((t, k) => k).filter(k => frames[k].startsWith('01'));
    return begins.map((k, s) => frames.slice(k, begins[s + 1]));
  }
  const entriesOf = frames => frames.filter(t => t.startsWith('02'));
  const commitOf = frames => num(frames[0], 18, 4);
  const tell = t => `server${num(t, 2, 2)}:${num(t, 12, 4)}interm${num(t, 4, 4)}`;
  const tells = (frames, sort) => frames.filter(t => t.startsWith(sort)).map(tell).join(';') || 'none';
  function rowOf(f, s, set) {
    const h = f[0], source = num(h, 10, 2), role = num(h, 12, 2) ? 'primary' : set >> s & 1 ? 'follower' : 'secondary';
    const numbers = [num(h, 14, 4), num(h, 2, 4), num(h, 18, 4), num(h, 22, 4), `(${num(h, 26, 4)},${num(h, 30, 4)})`];
    return ['server' + s, role, ...numbers, source ? 'server' + (source - 1) : 'none', tells(f, '03'), tells(f, '04')].join('|');
  }
  const tableOf = frames => serversIn(frames).map((f, s) => rowOf(f, s, num(frames[0], 6, 2))).join('\n');
  const what = t => t.substr(6, 2) === 'ff' ? 'writes nothing' : `car ${num(t, 6, 2)}: ${num(t, 8, 4)}`;
  function blocksOf(f) {
    const time = t => `(${num(t, 12, 4)},${num(t, 16, 4)})`, safe = k => k < commitOf(f) ? 'safe' : 'not safe yet';
    return entriesOf(f).map((t, k) => `entry ${k + 1}, ${what(t)}, term ${num(t, 2, 4)}, time ${time(t)}, ${safe(k)}`).join('\n');
  }
  function plainOf(f) {
    const safe = k => k < commitOf(f) ? ', safe' : '';
    return entriesOf(f).map((t, k) => `${k + 1}: ${what(t).replace(':', ' build')} (term ${num(t, 2, 4)}${safe(k)})`).join('; ') || 'empty';
  }

  /* ---- Lives, anew, by server and position: from which line to which, and when safe. ---- */
  const lives = [], open = new Map();
  const started = i => after[i].why === 0 && after[i].step.startsWith('00') && i > 0;
  function cover(g, i, safe) {
    const span = g.safe[g.safe.length - 1], on = span && span[1] === null;
    if (on && !safe) span[1] = i;
    else if (!on && safe) g.safe.push([i, null]);
  }
  function liveAt(i, key, s, p, t, safe) {
    const g = open.get(key), same = g && g.t === t && !started(i);
    if (g && !same) { g.to = i; g.rolled = !started(i); cover(g, i, false); open.delete(key); }
    if (t && !same) { lives.push({s, p, t, from: i, to: null, rolled: false, safe: []}); open.set(key, lives[lives.length - 1]); }
    if (t) cover(open.get(key), i, safe);
  }
  function liveServer(i, s, f) {
    const log = f ? entriesOf(f) : [], most = Math.max(log.length, i ? entriesOf(serversIn(after[i - 1].frames)[s] || []).length : 0);
    for (let p = 1; p <= most; p++) liveAt(i, s + '/' + p, s, p, log[p - 1], f && p <= commitOf(f));
  }
  for (let i = 0; i <= L; i++) {
    const now = serversIn(after[i].frames);
    if (!i || after[i].frames !== after[i - 1].frames) for (let s = 0; s < 7; s++) liveServer(i, s, now[s]);
  }
  const rolledAt = i => lives.filter(g => g.rolled && g.to === i).length;

  /* ---- What the page shows. ---- */
  const cells = tr => Array.from(tr.cells).map(c => c.textContent.replace(/\s+/g, '')).join('|');
  const shownTable = () => Array.from($('table').rows).map(cells).join('\n');
  const shownBlocks = () => Array.from($('rows').querySelectorAll('.log')).map(log => Array.from(log.querySelectorAll('.blocks .e')));
  function lookAtLogs(i) {
    if (shownTable() !== tableOf(after[i].frames)) fail(i, 'table');
    const shown = shownBlocks(), wanted = serversIn(after[i].frames);
    if (shown.length !== wanted.length) fail(i, shown.length + ' logs');
    else wanted.forEach((f, s) => {
      if (shown[s].map(e => e.title).join('\n') !== blocksOf(f)) fail(i, 'blocks of server ' + s);
      if (shown[s].some(e => e.classList.contains('safe') !== e.title.endsWith(', safe'))) fail(i, 'blocks of server ' + s + ' look otherwise than they say');
      if (shown[s].filter(e => e.classList.contains('safe')).length !== Math.min(commitOf(f), shown[s].length)) fail(i, 'commit point of server ' + s);
    });
    const ghosts = $('rows').querySelectorAll('.ghosts .gone');
    if (rolledAt(i) && ghosts.length === 0) fail(i, 'nothing was rolled away');
  }
  function lookAtWords(i) {
    const answer = $('wa').textContent, wanted = told[i - 1];
    if ($('no').textContent !== 'line ' + wanted[0] || +$('slider').value !== i) fail(i, 'number ' + $('no').textContent);
    if ($('ws').textContent !== wanted[3]) fail(i, 'step ' + $('ws').textContent);
    if (!answer.startsWith(wanted[4] + (exact.get(wanted[0]) || '')) || /undefined|NaN/.test(answer)) fail(i, 'answer ' + answer);
    if (exact.size && !exact.has(wanted[0]) && answer.includes('(') !== wanted[4].includes('(')) fail(i, 'answer ' + answer);
    if (answer.includes(' rolled away') !== rolledAt(i) > 0) fail(i, 'rolled away or not');
    const current = document.querySelectorAll('#words [aria-current]');
    if (current.length !== 1 || +current[0].getAttribute('value') !== +wanted[0]) fail(i, 'mark');
    for (const at of document.querySelectorAll('.at')) if (at.textContent !== wanted[0]) fail(i, 'number beside the logs');
  }

  /* ---- The bars: each is a life of the trace, and each life in the view has one, or is folded. ---- */
  let seen = null, from = 0, to = 0, drawn = 0;
  const inView = g => g.from <= to && (g.to === null || g.to >= from);
  const spanOf = q => ' from line ' + (q[0] + first - 1) + (q[1] === null ? '' : ' to ' + (q[1] + first - 1));
  function tipOf(g) {
    const safe = g.safe.length ? '; safe' + g.safe.map(spanOf).join(',') : '';
    return `term ${num(g.t, 2, 4)}, at server ${g.s}` + spanOf([g.from, g.to]) + (g.rolled ? ', rolled away' : '') + safe;
  }
  const placeOf = g => g.s + '/' + g.p, lifeOf = (g, p) => g.s + '/' + p + '/' + Math.max(g.from, from - 1);
  function lookAtBar(i, g, covered) {
    const tip = g.querySelector('title').textContent, [, a, z] = tip.match(/^entr\w+ (\d+)(?: to (\d+))?/).map(Number);
    const life = lives.find(q => inView(q) && q.p === a && tip.endsWith(tipOf(q)));
    if (!life) return fail(i, 'no such bar: ' + tip);
    const safe = life.safe.filter(q => q[0] <= to && (q[1] === null || q[1] >= from)).length;
    if (g.querySelectorAll('.full').length !== safe) fail(i, 'full parts of ' + tip);
    if ((g.querySelectorAll('path').length > 0) !== (life.rolled && life.to <= to)) fail(i, 'cross of ' + tip);
    for (let p = a; p <= (z || a); p++) covered.add(lifeOf(life, p));
  }
  function lookAtFold(g, folded) {
    const [, a, z, s] = g.querySelector('title').textContent.match(/^entries (\d+) to (\d+) at server (\d+)/).map(Number);
    for (let p = a; p <= z; p++) folded.add(s + '/' + p);
  }
  /* The signs: each line has one that says its words, a refused line's shows its number, and a read's, where there is room, the build. */
  function lookAtSign(i, g, number) {
    const x = after[number - first + 1], wanted = told[number - first], refused = g.querySelector('.bad'), read = g.querySelector('.read');
    if (g.querySelector('title').textContent !== wanted[0] + ': ' + wanted[3] + ' ' + wanted[4]) fail(i, 'sign of line ' + number);
    if (x.why ? !refused || refused.textContent !== String(x.why) : refused) fail(i, 'refused or not: line ' + number);
    if (read && read.textContent.replace(num(x.step, 8, 2) + ':', '') !== String(x.number || '\u2013')) fail(i, 'line ' + number + ' read ' + read.textContent);
  }
  function lookAtSigns(i) {
    const seen = new Set();
    for (const g of document.querySelectorAll('#chart .did')) {
      const number = parseInt(g.querySelector('title').textContent, 10);
      lookAtSign(i, g, number);
      seen.add(number);
    }
    if (seen.size !== to - from + 1) fail(i, seen.size + ' lines have signs');
  }
  function lookAtChart(i) {
    const said = $('chart').getAttribute('aria-label').match(/Lanes of (\d+) servers over lines (\d+) to (\d+)/).map(Number);
    const covered = new Set(), folded = new Set();
    from = said[2] - first + 1;
    to = said[3] - first + 1;
    drawn++;
    if (/NaN|undefined|Infinity/.test($('chart').innerHTML + $('over').innerHTML + $('rows').innerHTML)) fail(i, 'NaN');
    lookAtSigns(i);
    for (const g of document.querySelectorAll('#chart .bar')) lookAtBar(i, g, covered);
    for (const g of document.querySelectorAll('#chart .fold')) lookAtFold(g, folded);
    const missing = lives.find(g => inView(g) && g.s < said[1] && !folded.has(placeOf(g)) && !covered.has(lifeOf(g, g.p)));
    if (missing) fail(i, 'no bar for entry ' + missing.p + ', ' + tipOf(missing));
    if ((getComputedStyle($('over')).display === 'none') !== (from === 1 && to === L)) fail(i, 'overview');
    if (document.documentElement.scrollWidth > innerWidth) fail(i, 'wider than the window');
  }
  function look(i) {
    lookAtWords(i);
    lookAtLogs(i);
    const band = $('band');
    if (band !== seen) lookAtChart(i);
    seen = band;
    const r = band.firstChild, x = +r.getAttribute('x'), w = +r.getAttribute('width');
    const at = from + Math.round((x - $('chart').viewBox.baseVal.width + 6 + w * (to - from + 1)) / w);
    if (i < from || i > to || to - from > 40 && at !== i) fail(i, 'cursor at ' + at);
  }

  /* ---- The walk. ---- */
  const key = name => document.body.dispatchEvent(new KeyboardEvent('keydown', {key: name, bubbles: true, cancelable: true}));
  function slide(i) { $('slider').value = i; $('slider').dispatchEvent(new Event('input')); }
  let slowest = 0;
  function go(i, act) {
    const began = performance.now();
    act();
    slowest = Math.max(slowest, performance.now() - began);
    look(i);
  }
  // Every line by slider, key and button; where the page is narrow, and by the other key and the other button, some lines.
  function ways(most, some) {
    for (let i = 1; i <= L; i++) go(i, () => slide(i));
    slide(most);
    for (let i = most - 1; i >= 1; i--) go(i, () => key('ArrowLeft'));
    for (let i = 2; i <= most; i++) go(i, () => $('next').click());
    for (let i = most - 1; i > most - some; i--) go(i, () => $('prev').click());
    for (let i = most - some + 2; i <= most; i++) go(i, () => key('ArrowRight'));
  }
  function leaps() {
    go(L, () => key('End'));
    go(1, () => key('Home'));
    go(Math.min(L, 11), () => key('PageDown'));
    go(1, () => key('PageUp'));
    go(L, () => $('end').click());
    go(1, () => $('home').click());
    go(L, () => $('words').children[L - 1].click());
    go(1, () => $('words').children[0].click());
    const middle = (L + 1) >> 1;
    go(middle, () => { location.hash = '#' + told[middle - 1][0]; dispatchEvent(new Event('hashchange')); });
  }
  /* A click in the picture, so far along its width. */
  function clickIn(svg, part) {
    const r = svg.getBoundingClientRect();
    svg.dispatchEvent(new MouseEvent('click', {bubbles: true, clientX: r.left + part * r.width}));
  }
  function clickAt(i) {
    const r = $('band').firstChild, w = +r.getAttribute('width'), x = +r.getAttribute('x') + w / 2 + (i - $('slider').value) * w;
    go(i, () => clickIn($('chart'), x / $('chart').viewBox.baseVal.width));
  }
  function clicks() {
    clickAt(to);
    clickAt(from);
    clickAt((from + to) >> 1);
    if (getComputedStyle($('over')).display !== 'none') for (const i of [1, L >> 1, L]) clickInSmall(i);
  }
  /* There a line may be less than a pixel wide. */
  function clickInSmall(i) {
    clickIn($('over'), (i - .5) / L);
    const at = +$('slider').value;
    if (Math.abs(at - i) > Math.ceil(L / $('over').clientWidth)) fail(i, 'a click in the overview leads to ' + at);
    look(at);
  }
  function hops() {
    const wanted = after.map((_, i) => i).filter(i => i && (after[i].why || rolledAt(i)));
    slide(1);
    for (const i of wanted.filter(i => i > 1)) go(i, () => key('n'));
    if (wanted.some(i => i > 1)) go(wanted[wanted.length - 1], () => $('hop').click());
    for (const i of wanted.slice(0, -1).reverse()) go(i, () => key('p'));
  }
  function lookWithoutScript() {
    const texts = all => Array.from(document.querySelectorAll(all)).map(e => e.textContent.trim()).join('\n');
    if (shownTable() !== tableOf(after[L].frames)) fail('without script', 'table');
    if (texts('dl dd') !== serversIn(after[L].frames).map(plainOf).join('\n')) fail('without script', 'logs');
    if (texts('#words .s') !== told.map(f => f[3]).join('\n')) fail('without script', 'steps');
    if (texts('#words .a') !== told.map(f => f[4]).join('\n')) fail('without script', 'answers');
    if (Array.from($('words').children).some((li, k) => li.getAttribute('value') !== told[k][0])) fail('without script', 'numbers');
  }
  function walk() {
    const asked = +location.hash.slice(1);
    if (L) look(asked ? asked - first + 1 : L);
    if (L) { ways(innerWidth > 900 ? L : Math.min(L, 30), Math.min(L, 30)); leaps(); clicks(); hops(); }
    else if ($('sum').textContent !== 'no line') fail(0, 'the empty run says ' + $('sum').textContent);
  }
  const tried = act => { try { act(); } catch (e) { fail('the walk ended', e.message); } };
  tried(lookWithoutScript);
  addEventListener('load', () => {
    const began = performance.now();
    tried(walk);
    const found = bad.length ? 'BAD ' + bad.length + ', ' + bad.slice(0, 4).join(' | ') : 'no error';
    const took = `${L} lines in ${Math.round(performance.now() - began)} ms, drawn ${drawn} times, slowest step ${Math.round(slowest)} ms`;
    parent.document.getElementById(window.name).textContent = `WALKED ${window.name}, ${took}: ${found}.`;
  });
})();
