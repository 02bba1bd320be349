"""The looks of a page, and the little script that lights up its elements.

Nothing is fetched: fonts are those of the reader's machine.  Colour is never
the only sign: a blank is dashed, a depth is hatched, a gap has its width.
"""

# The pictures.  Strokes keep their width at any scale.
PICTURE = '''
.picture { --paper: #fdfcf9; --ink: #1b1a18; --soft: #57544e; --rim: #6f6b64;
  --box: #ffffff; --read: #e2ecf9; --readrim: #2a5a94; --left: #e0f2dc;
  --leftrim: #2f6b26; --blank: #e6e2d9; --gap: #ffe7b0; --gaprim: #7d5200;
  --hold: #b3261e; --onhold: #ffffff; --depth: #7436a0; --over: #f9d4d0;
  --ground: #f4f1e9; --lit: #0b57d0; --moved: #0a6b4f; }
.picture text { font-family: system-ui, "Helvetica Neue", Arial, sans-serif;
  fill: var(--ink); dominant-baseline: central; }
.picture rect, .picture path, .picture circle { fill: none;
  vector-effect: non-scaling-stroke; }
.picture .glyph { font-family: "Hiragino Mincho ProN", "Yu Mincho",
  "Noto Serif CJK JP", "Noto Serif JP", "Source Han Serif", serif; }
.picture .sign, .picture .number { fill: var(--soft); }
.picture .name { fill: var(--soft); }
.picture .ground { fill: var(--ground); }
.picture .base { fill: var(--box); stroke: var(--rim); }
.picture .ruby { fill: var(--read); stroke: var(--readrim); }
.picture .ruby.left { fill: var(--left); stroke: var(--leftrim); }
.picture .blank { fill: var(--blank); stroke: var(--rim);
  stroke-dasharray: 2 2; }
.picture .depth { fill: var(--box); stroke: var(--depth); }
.picture .hatch { stroke: var(--depth); stroke-opacity: .45; }
.picture .deep { fill: var(--depth); font-weight: 700; paint-order: stroke;
  stroke: var(--box); stroke-width: 3px; vector-effect: non-scaling-stroke; }
.picture .gap { fill: var(--gap); }
.picture .tick { stroke: var(--gaprim); }
.picture .width { stroke: var(--gaprim); stroke-width: 3; }
.picture .told { fill: var(--ink); }
.picture .contact { stroke: var(--hold); stroke-width: 2.5; }
.picture .badge { fill: var(--hold); }
.picture .rule { fill: var(--onhold); font-weight: 700; }
.picture .edge { stroke: var(--ink); stroke-width: 1.5; }
.picture .measure { stroke-dasharray: 7 3; }
.picture .over { fill: var(--over); fill-opacity: .4; stroke: var(--hold);
  pointer-events: none; }
.picture .move { fill: var(--moved); font-weight: 700; }
.picture .moved .base { stroke: var(--moved); stroke-width: 2.5; }
.vertical .glyph:not(.sign) { writing-mode: vertical-rl; }
'''

DARK = '''
@media (prefers-color-scheme: dark) {
  :root { --page: #1b1b1d; --panel: #242427; --text: #eceae4; --dim: #b4b0a7;
    --rule: #48474a; --link: #9ec3ff; }
  .picture { --paper: #242427; --ink: #eceae4; --soft: #bdb9b0;
    --rim: #a5a198; --box: #17171a; --read: #1d3450; --readrim: #8fb8ea;
    --left: #1d3a1a; --leftrim: #8fce84; --blank: #3a3936; --gap: #57431a;
    --gaprim: #f0c265; --hold: #ff9b92; --onhold: #1b1b1d; --depth: #d7a6f7;
    --over: #6b2a26; --ground: #2b2b2e; --lit: #9ec3ff; --moved: #6fdcb6; }
}
'''

PAGE = '''
:root { color-scheme: light dark; --page: #f3f0e8; --panel: #fdfcf9;
  --text: #1b1a18; --dim: #57544e; --rule: #d5d0c4; --link: #0b4bb3; }
html { scroll-padding-top: 7rem; }
* { box-sizing: border-box; }
body { margin: 0; background: var(--page); color: var(--text);
  font: 16px/1.5 system-ui, "Helvetica Neue", Arial, sans-serif; }
header, main, footer { max-width: 76rem; margin: 0 auto; padding: 0 1.25rem; }
header { padding-top: 1.5rem; }
h1 { font-size: 1.7rem; line-height: 1.2; margin: 0 0 .3rem;
  overflow-wrap: anywhere; }
h2 { font-size: 1.15rem; margin: 1.6rem 0 .5rem; }
a { color: var(--link); }
.verdict { font-size: 1.1rem; margin: .2rem 0; }
.verdict b { padding: .1rem .5rem; border-radius: .3rem; color: #fff;
  background: #1f6b3a; }
.verdict.refused b { background: #a3221b; }
.facts, footer { color: var(--dim); font-size: .9rem; }
.facts { margin: .2rem 0; }
.said { position: sticky; top: 0; z-index: 1; margin: 0 0 1rem;
  padding: .6rem .9rem; min-height: 4.4rem; background: var(--panel);
  border: 1px solid var(--rule); border-left: .35rem solid var(--link);
  border-radius: .3rem; }
.lines { display: flex; flex-direction: column; gap: .9rem; }
.line { display: contents; }
figure { order: 1; margin: 0; padding: .5rem .7rem .6rem; overflow-x: auto;
  background: var(--panel); border: 1px solid var(--rule);
  border-radius: .3rem; }
figcaption { position: sticky; left: 0; font-size: .85rem;
  color: var(--dim); }
.lines .explained { order: 2; }
.lines .account { order: 3; }
.picture { display: block; max-width: 100%; height: auto; }
.element { cursor: pointer; outline: none; }
.element.lit rect.base, .element.lit rect.ruby { stroke: var(--lit);
  stroke-width: 3; }
.element.lit .number { fill: var(--lit); font-weight: 700; }
.element.named rect.base, .element.named rect.ruby { stroke: var(--hold);
  stroke-width: 3; stroke-dasharray: 6 3; }
.element.named .number { fill: var(--hold); font-weight: 700; }
.vertical .lines { flex-flow: row-reverse wrap; align-items: flex-start;
  justify-content: flex-start; }
.vertical .lines .account, .vertical .lines .explained { flex: 1 1 100%; }
.vertical figure { flex: none; }
.vertical .picture { max-width: none; }
.account { overflow-x: auto; }
table { border-collapse: collapse; width: 100%; background: var(--panel);
  font-size: .92rem; }
th.of-element { width: 5.2rem; }
th.of-at, th.of-gap, th.of-rule { width: 3.8rem; }
th.of-characters { width: 14rem; }
.lines table { table-layout: fixed; }
caption { text-align: left; font-weight: 600; padding: .5rem 0 .25rem; }
th, td { text-align: left; vertical-align: top; padding: .25rem .6rem;
  border: 1px solid var(--rule); }
thead th { font-weight: 600; color: var(--dim); }
td.amount { text-align: right; font-variant-numeric: tabular-nums; }
tr.lit > * { box-shadow: inset 0 0 0 2px var(--link); }
td small { display: block; color: var(--dim); font-size: .95em; }
.key { list-style: none; display: grid; gap: .3rem 1.4rem; margin: 0;
  padding: 0; grid-template-columns: repeat(auto-fill, minmax(19rem, 1fr)); }
.key li { display: grid; grid-template-columns: 4.6rem 1fr; gap: .6rem;
  align-items: center; font-size: .92rem; line-height: 1.35; }
.key svg { width: 4.6rem; height: 3.1rem; }
.vertical .key svg { width: 2.8rem; height: 4.1rem; }
.vertical .key li { grid-template-columns: 2.8rem 1fr; }
.rules { margin: .2rem 0; padding-left: 1.6rem; }
.sheet { border: 1px solid var(--rule); background: var(--panel);
  overflow-x: auto; margin: 0; padding: .6rem 0; }
.sheet code { display: block; padding: 0 .9rem; white-space: pre;
  font: .95rem/1.5 ui-monospace, Menlo, Consolas, monospace; }
.sheet .fault { background: #f9d4d0; color: #1b1a18; font-weight: 700; }
.pairs { display: grid; grid-template-columns: repeat(2, minmax(0, 1fr));
  gap: .9rem; }
.pairs > * { grid-row: var(--row); grid-column: var(--column);
  margin: 0; }
.vertical .pictures { direction: rtl; grid-template-columns: none;
  grid-auto-columns: max-content; overflow-x: auto; }
.vertical .pictures > * { direction: ltr; grid-row: var(--column);
  grid-column: var(--row); }
.pairs .none { color: var(--dim); font-size: .85rem; padding: .5rem .7rem; }
.pairs table { font-size: .82rem; table-layout: fixed; }
.pairs th, .pairs td { padding: .2rem .4rem; overflow-wrap: anywhere; }
.pairs th.of-element { width: 4.9rem; }
.pairs th.of-at, .pairs th.of-gap, .pairs th.of-rule { width: 3.1rem; }
.pairs th.of-characters { width: 6.5rem; }
footer { padding-top: 1.5rem; padding-bottom: 2rem;
  overflow-wrap: anywhere; }
@media (max-width: 46rem) {
  .horizontal .pairs { display: flex; flex-direction: column; }
  header, main, footer { padding-left: .7rem; padding-right: .7rem; }
  th, td, .pairs th, .pairs td { padding: .2rem .3rem; }
  table, .pairs table { font-size: .8rem; }
  th.of-element, .pairs th.of-element { width: 4.1rem; }
  th.of-characters, .pairs th.of-characters { width: 5.4rem; }
  th.of-at, th.of-gap, th.of-rule, .pairs th.of-at, .pairs th.of-gap,
  .pairs th.of-rule { width: 2.5rem; }
  .said { font-size: .92rem; }
}
'''

# In print the account stands beside each line: on a wide sheet of paper where
# lines are horizontal, on a high one where they are vertical.
PRINT = '''
@page { size: landscape; margin: 12mm; }
@page upright { size: portrait; margin: 12mm; }
@media print {
  .vertical { page: upright; }
  :root { --page: #fff; --panel: #fff; --text: #000; --dim: #333;
    --rule: #999; }
  body { font-size: 9.5pt; }
  header, main, footer { max-width: none; padding-left: 0;
    padding-right: 1px; }
  .said { display: none; }
  figure { border: 0; padding: 0; overflow: visible; break-inside: avoid; }
  .lines, .vertical .lines { display: block; }
  .lines .line { display: grid; gap: 6mm; align-items: start;
    margin: 0 0 5mm; break-inside: avoid;
    grid-template-columns: minmax(0, 5fr) minmax(0, 8fr); }
  .vertical .lines .line { grid-template-columns: auto minmax(0, 1fr); }
  .vertical .lines .picture { max-height: 225mm; width: auto; }
  .picture { min-width: 0 !important; }
  .lines caption { display: none; }
  .account { overflow: visible; }
  table, .pairs table { font-size: 7.5pt; line-height: 1.3; }
  th, td { padding: .4mm 1mm; }
  th.of-element, .pairs th.of-element { width: 15mm; }
  th.of-at, th.of-gap, th.of-rule, .pairs th.of-at, .pairs th.of-gap,
  .pairs th.of-rule { width: 9mm; }
  th.of-characters { width: 32mm; }
  .pairs th.of-characters { width: 24mm; }
  thead { display: table-header-group; }
  tr, .key, .rules { break-inside: avoid; }
  h2 { break-after: avoid; }
  .key { grid-template-columns: repeat(3, 1fr); }
  .pairs { gap: 4mm; margin-bottom: 4mm; }
  .vertical .pictures { overflow: visible; }
  .vertical .pictures .picture { max-height: 100mm; width: auto; }
  .base, .ruby, .blank, .gap, .depth, .badge, .ground, .over, .verdict b {
    print-color-adjust: exact; -webkit-print-color-adjust: exact; }
  a { color: inherit; text-decoration: none; }
}
'''

SCRIPT = '''
(function () {
  var said = document.getElementById('said');
  var first = said ? said.textContent : '';
  var all = [].slice.call(document.querySelectorAll('.element'));
  var upright = document.body.classList.contains('vertical');

  function clear() {
    document.querySelectorAll('.lit, .named').forEach(function (one) {
      one.classList.remove('lit', 'named');
    });
  }
  function light(one) {
    clear();
    one.classList.add('lit');
    (one.dataset.others || '').split(' ').forEach(function (name) {
      var other = name && document.getElementById(name);
      if (other) { other.classList.add('named'); }
    });
    document.querySelectorAll('tr[data-of="' + one.id + '"]').forEach(
      function (row) { row.classList.add('lit'); });
    if (said) { said.textContent = one.getAttribute('aria-label'); }
  }
  // One element is in the order of the tab key; the arrows lead to the others.
  function enter(one) {
    all.forEach(function (other) {
      other.setAttribute('tabindex', other === one ? '0' : '-1');
    });
  }
  function middle(one) {
    var box = one.querySelector('.base').getBoundingClientRect();
    return upright ? box.top + box.height / 2 : box.left + box.width / 2;
  }
  // The element of another line that stands nearest to where this one does.
  function across(one, step) {
    var pictures = [].slice.call(document.querySelectorAll('.picture'));
    var at = pictures.indexOf(one.closest('.picture')) + step;
    var here = middle(one), found = null;
    if (!pictures[at]) { return null; }
    pictures[at].querySelectorAll('.element').forEach(function (other) {
      if (!found || Math.abs(middle(other) - here) <
          Math.abs(middle(found) - here)) { found = other; }
    });
    return found;
  }
  function along(one, step) { return all[all.indexOf(one) + step]; }
  function edge(one, last) {
    var own = one.closest('.picture').querySelectorAll('.element');
    return own[last ? own.length - 1 : 0];
  }
  var keys = {
    ArrowRight: function (one) {
      return upright ? across(one, -1) : along(one, 1); },
    ArrowLeft: function (one) {
      return upright ? across(one, 1) : along(one, -1); },
    ArrowDown: function (one) {
      return upright ? along(one, 1) : across(one, 1); },
    ArrowUp: function (one) {
      return upright ? along(one, -1) : across(one, -1); },
    Home: function (one) { return edge(one, false); },
    End: function (one) { return edge(one, true); }
  };
  all.forEach(function (one) {
    one.addEventListener('mouseenter', function () { light(one); });
    one.addEventListener('focus', function () { enter(one); light(one); });
    one.addEventListener('keydown', function (event) {
      var next = keys[event.key] && keys[event.key](one);
      if (keys[event.key]) { event.preventDefault(); }
      if (next) { next.focus(); }
    });
  });
  document.addEventListener('keydown', function (event) {
    if (event.key !== 'Escape') { return; }
    clear();
    if (document.activeElement) { document.activeElement.blur(); }
    if (said) { said.textContent = first; }
  });
  document.querySelectorAll('tr[data-of]').forEach(function (row) {
    var one = document.getElementById(row.dataset.of);
    if (!one) { return; }
    row.addEventListener('mouseenter', function () { light(one); });
    row.querySelector('a').addEventListener('click', function (event) {
      event.preventDefault();
      one.focus();
    });
  });
  if (all.length) { enter(all[0]); }
}());
'''
