// node --experimental-websocket check_pages.mjs CASES     asks Chromium about pages that were drawn.
//
// CASES is a JSON file: a list of {file, answer, code, rank, reason, shows, isWhole, loads}. For each page one line of JSON says what is wrong with it, also where the
// browser hangs on it or cannot print it. Several tabs look at pages at the same time. It uses no packages: it speaks the DevTools protocol over the WebSocket of node.
import {spawn} from 'node:child_process';
import {existsSync, mkdtempSync, readFileSync, rmSync, statSync} from 'node:fs';
import {availableParallelism, tmpdir} from 'node:os';
import {join, resolve} from 'node:path';

const MOST_BYTES = 1_000_000;
// The widths of a window, of wider ones, of a phone, and of a sheet of paper between its margins.
const [WIDE, WIDER, PHONE, PAPER] = [1400, [1700, 2560], 390, 718];
const pause = milliseconds => new Promise(done => setTimeout(done, milliseconds));

// What is promised, or an error where it does not come in time, on a slow machine too: a page on which the browser hangs is one that is wrong.
const IN_TIME = 300_000;
const inTime = (promise, what) => Promise.race([promise, pause(IN_TIME).then(() => Promise.reject(Error(`${what} took more than ${IN_TIME} ms`)))]);

// ---- the browser

const profile = mkdtempSync(join(tmpdir(), 'pages-'));
const chromium = spawn('chromium', ['--headless', '--no-sandbox', '--disable-gpu', '--remote-debugging-port=0', `--user-data-dir=${profile}`, 'about:blank'], {
  stdio: 'ignore',
});

async function portOf(profile) {
  const name = join(profile, 'DevToolsActivePort');
  for (const late = Date.now() + IN_TIME; Date.now() < late; await pause(100)) {
    if (existsSync(name) && readFileSync(name, 'utf8').includes('\n')) return readFileSync(name, 'utf8').split('\n')[0];
  }
  throw Error('the browser has not begun');
}

class Tab {
  constructor(socket) {
    this.socket = socket;
    this.last = 0;
    this.waiting = new Map();
    this.once = new Map();
    this.requests = [];
    socket.onmessage = message => this.take(JSON.parse(message.data));
    socket.onclose = () => this.waiting.forEach(({failed}) => failed(Error('the connection to the page has ended')));
  }

  take(said) {
    if (said.id) {
      const {done, failed} = this.waiting.get(said.id);
      this.waiting.delete(said.id);
      if (said.error) failed(Error(said.error.message));
      else done(said.result);
    } else {
      if (said.method === 'Network.requestWillBeSent') this.requests.push(said.params.request.url);
      this.once.get(said.method)?.();
    }
  }

  ask(method, params = {}) {
    const answer = new Promise((done, failed) => {
      this.waiting.set(++this.last, {done, failed});
      this.socket.send(JSON.stringify({id: this.last, method, params}));
    });
    return inTime(answer, method);
  }

  async evaluate(call, ...values) {
    const expression = `(${call})(...${JSON.stringify(values)})`;
    const said = await this.ask('Runtime.evaluate', {expression, returnByValue: true});
    if (said.exceptionDetails) throw Error(JSON.stringify(said.exceptionDetails).slice(0, 400));
    return said.result.value;
  }

  async open(file) {
    this.requests = [];
    const loaded = new Promise(done => this.once.set('Page.loadEventFired', done));
    await this.ask('Page.navigate', {url: `file://${resolve(file)}`});
    await inTime(loaded, 'to load');
  }

  scheme(value, media = '') {
    return this.ask('Emulation.setEmulatedMedia', {media, features: [{name: 'prefers-color-scheme', value}]});
  }

  width(width, mobile = false) {
    return this.ask('Emulation.setDeviceMetricsOverride', {width, height: 900, deviceScaleFactor: 1, mobile});
  }

  // Prints the page, and returns the first bytes of that. It is read from a stream: node ends a connection whose message is longer than 4 MiB.
  async print() {
    const {stream: handle} = await this.ask('Page.printToPDF', {printBackground: false, transferMode: 'ReturnAsStream'});
    const {data, base64Encoded} = await this.ask('IO.read', {handle, size: 8});
    await this.ask('IO.close', {handle});
    return base64Encoded ? atob(data) : data;
  }
}

async function connect(url) {
  const socket = new WebSocket(url);
  await inTime(new Promise(done => (socket.onopen = done)), 'to connect');
  return new Tab(socket);
}

class Browser {
  constructor(port, own) {
    this.port = port;
    this.own = own;
  }

  static async at(port) {
    const {webSocketDebuggerUrl} = await (await fetch(`http://127.0.0.1:${port}/json/version`)).json();
    return new Browser(port, await connect(webSocketDebuggerUrl));
  }

  // A tab of a context of its own, so that it is never hidden by another one, and has a process of its own: a page that hangs does not stop others.
  async tab() {
    const {browserContextId} = await this.own.ask('Target.createBrowserContext');
    const {targetId} = await this.own.ask('Target.createTarget', {url: 'about:blank', browserContextId, newWindow: true});
    const tab = await connect(`ws://127.0.0.1:${this.port}/devtools/page/${targetId}`);
    tab.context = browserContextId;
    await tab.ask('Page.enable');
    await tab.ask('Network.enable');
    await tab.ask('Emulation.setFocusEmulationEnabled', {enabled: true});
    await tab.width(WIDE);
    return tab;
  }

  async close(tab) {
    tab.socket.close();
    await this.own.ask('Target.disposeBrowserContext', {browserContextId: tab.context});
  }
}

// ---- what is asked of a page; these run in the browser

// Nothing is loaded, each link leads to a place of the page, and each name is there once.
function links() {
  const bad = [];
  if (document.querySelectorAll('script, link, img, iframe, object, embed, [src], [onclick]').length) bad.push('something to load or to run');
  for (const it of document.querySelectorAll('a')) {
    const target = it.getAttribute('href') ?? '';
    if (!target.startsWith('#')) bad.push(`a link to ${target}`);
    else if (!document.getElementById(target.slice(1))) bad.push(`no place ${target}`);
  }
  const names = [...document.querySelectorAll('[id]')].map(it => it.id);
  for (const name of names.filter((it, place) => names.indexOf(it) !== place)) bad.push(`the name ${name} twice`);
  if (document.documentElement.scrollWidth > innerWidth) bad.push('the page is wider than the window');
  for (const it of document.querySelectorAll('style')) if (/url\(|@import/i.test(it.textContent)) bad.push('a style that loads something');
  return bad;
}

// Ranks rise from left to right, and each point is on its bar, except that of an entry that comes too late.
function points(code) {
  const bad = [];
  for (const line of document.querySelectorAll('svg.sys')) {
    let rank = 0;
    let x = -1;
    for (const it of line.querySelectorAll('a.pt')) {
      const own = +it.dataset.rank;
      const middle = +it.querySelector('text').getAttribute('x');
      if (own <= rank || middle <= x) bad.push(`point ${own} is not to the right of the one before`);
      [rank, x] = [own, middle];
      const bars = [...line.querySelectorAll(`g.op[data-op="${it.dataset.op}"] .fill`)].map(bar => [+bar.getAttribute('x'), +bar.getAttribute('width')]);
      const isOn = bars.some(([left, width]) => left <= middle && middle <= left + width);
      const isRefused = it.classList.contains('bad');
      if (!isRefused && !isOn) bad.push(`point ${own} is not on its bar`);
      if (isRefused && code === 'C5' && isOn) bad.push('the refused point is on its bar');
    }
  }
  return bad;
}

// Labels end within their bars, numbers do not overlap, no text leaves its picture, and coordinates are whole numbers.
function rooms() {
  const bad = [];
  for (const line of document.querySelectorAll('svg.sys, svg.content')) {
    const {width, height} = line.viewBox.baseVal;
    for (const it of line.querySelectorAll('g.op')) {
      const label = it.querySelector('text');
      if (!label) continue;
      const [bar, box] = [it.querySelector('.fill').getBBox(), label.getBBox()];
      if (box.x + box.width > bar.x + bar.width + 1) bad.push(`the label ${label.textContent} is too long`);
    }
    const numbers = [...line.querySelectorAll('text.num, .gap text')].map(it => it.getBBox()).sort((a, b) => a.x - b.x);
    for (let k = 1; k < numbers.length; k++) {
      if (numbers[k].x < numbers[k - 1].x + numbers[k - 1].width - 0.5) bad.push(`numbers overlap at ${numbers[k].x}`);
    }
    for (const it of line.querySelectorAll('text')) {
      const box = it.getBBox();
      if (box.x < -1 || box.x + box.width > width + 2 || box.y < -1 || box.y + box.height > height + 2) bad.push(`${it.textContent} leaves its picture`);
    }
    for (const it of line.querySelectorAll('*')) {
      const numbers = ['x', 'y', 'width', 'height', 'd'].map(name => it.getAttribute(name) ?? '').join(' ');
      if (/\d\.\d/.test(numbers)) bad.push(`a fraction in ${numbers}`);
    }
  }
  return bad;
}

// No text of a figure lies on another one, and no block of the page on another block.
function overlaps() {
  const bad = [];
  const boxes = [];
  const meet = (a, b) => a.left + 1 < b.right && b.left + 1 < a.right && a.top + 1 < b.bottom && b.top + 1 < a.bottom;
  const shown = box => box.width > 0 && box.height > 0;
  const compare = (those, from, to) => {
    those.sort((a, b) => a.box[from] - b.box[from]);
    those.forEach((one, place) => {
      for (let next = place + 1; next < those.length && those[next].box[from] < one.box[to]; next++) {
        const other = those[next];
        if (!one.it.contains(other.it) && !other.it.contains(one.it) && meet(one.box, other.box)) {
          bad.push(`${one.it.textContent.slice(0, 30)} and ${other.it.textContent.slice(0, 30)} overlap`);
        }
      }
    });
  };
  const boxesOf = those => [...those].map(it => ({it, box: it.getBoundingClientRect()})).filter(({box}) => shown(box));
  for (const it of document.querySelectorAll('.overview')) if (it.scrollHeight > it.clientHeight + 1) bad.push('rows of the table of objects are out of sight');
  for (const line of document.querySelectorAll('svg.sys, svg.content')) compare(boxesOf(line.querySelectorAll('text')), 'left', 'right');
  compare(boxesOf(document.querySelectorAll('h1, h2, p, pre, figcaption, .tbl, div.scroll, summary')), 'top', 'bottom');
  return bad;
}

// No operation's words are broken over two lines, in any window that is wider than a phone. A figure of several lines uses more than half of the window,
// up to a bound. What is left of a label can be read. An operation that the sentence names is whole, where it fits a line and no other one of these is open there.
function onWide() {
  const bad = [];
  const [MOST, SHORTEST, FITS] = [1620, 6, 600];
  if (document.documentElement.scrollWidth > innerWidth) bad.push('the page is wider than the window');
  for (const it of document.querySelectorAll('.ref')) if (it.getClientRects().length > 1) bad.push(`${it.textContent} is broken over two lines`);
  for (const figure of document.querySelectorAll('figure')) {
    const lines = [...figure.querySelectorAll(':scope > div.scroll > svg.sys')];
    const widest = Math.max(0, ...lines.map(it => it.getBoundingClientRect().width));
    if (widest > 0 && lines.length > 1 && widest < innerWidth / 2) bad.push(`a figure has ${widest} of ${innerWidth} pixels`);
    if (widest > MOST) bad.push(`a figure has ${widest} pixels`);
    const bars = lines.flatMap((line, place) => [...line.querySelectorAll('g.op.focus')].map(it => ({line: place, op: it.dataset.op, box: it.querySelector('.fill').getBBox()})));
    for (const it of new Set(bars.map(bar => bar.op))) {
      const own = bars.filter(bar => bar.op === it);
      const width = own.reduce((sum, bar) => sum + bar.box.width, 0);
      const isCrossed = bars.some(bar => bar.op !== it && bar.line === own[0].line && bar.box.x < own[0].box.x && bar.box.x + bar.box.width > own[0].box.x);
      if (own.length > 1 && width < FITS && !isCrossed) bad.push(`operation ${it} of ${width} units is broken over two lines`);
    }
  }
  for (const it of document.querySelectorAll('svg.sys g.op text:not(.tag)')) {
    if (it.textContent.includes('…') && it.textContent.length < SHORTEST) bad.push(`${it.textContent} is left of a label`);
  }
  return bad;
}

// On paper nothing is cut, colours stay, and the lines of a figure have one scale.
function onPaper() {
  const bad = [];
  for (const figure of document.querySelectorAll('figure')) {
    const lines = [...figure.querySelectorAll(':scope > div.scroll > svg.sys')].map(it => it.getBoundingClientRect().width / it.viewBox.baseVal.width);
    // Names of lanes that are long make a line wider than the paper, and it is made smaller.
    if (lines.length > 0 && Math.max(...lines) > 1.12 * Math.min(...lines)) bad.push(`lines of a figure have scales of ${Math.min(...lines).toFixed(2)} to ${Math.max(...lines).toFixed(2)}`);
  }
  if (document.documentElement.scrollWidth > innerWidth) bad.push('the page is wider than the paper');
  for (const it of document.querySelectorAll('.tbl, .scroll')) {
    if (it.scrollWidth > it.clientWidth + 1 || it.scrollHeight > it.clientHeight + 1) bad.push(`${it.className} is cut: ${it.scrollWidth} of ${it.clientWidth}`);
  }
  for (const it of document.querySelectorAll('.icon, .fill')) if (getComputedStyle(it).printColorAdjust !== 'exact') bad.push(`the colour of ${it.className} is lost`);
  return bad;
}

// On a phone the page is no wider than the window, a shade shows where there is more to the right, and the names of lanes stay where they are while a figure is scrolled.
function onPhone(width) {
  const bad = [];
  // A phone that shows a wider page has a wider window, in which all of it is.
  if (document.documentElement.scrollWidth > width) bad.push('the page is wider than the window');
  for (const it of document.querySelectorAll('.scroll, .tbl')) {
    if (it.scrollWidth > it.clientWidth + 1 && getComputedStyle(it).backgroundImage === 'none') bad.push(`nothing shows that ${it.className} can be scrolled`);
  }
  for (const it of document.querySelectorAll('div.scroll')) {
    const names = it.querySelector('.names');
    if (it.clientWidth === 0 || it.scrollWidth <= it.clientWidth || !it.querySelector('.sys')) continue;
    it.scrollLeft = it.scrollWidth;
    if (!names || Math.abs(names.getBoundingClientRect().left - it.getBoundingClientRect().left) > 1) bad.push('the names of lanes scroll away');
    it.scrollLeft = 0;
  }
  for (const it of document.querySelectorAll('caption > span')) if (it.getBoundingClientRect().right > innerWidth + 1) bad.push(`${it.textContent} is cut`);
  for (const it of document.querySelectorAll('.overview td:first-child')) {
    if (getComputedStyle(it).whiteSpace !== 'nowrap') bad.push(`${it.textContent} may break in two lines`);
  }
  return bad;
}

// How long the page took to load, or 0 while it does.
const loadTime = () => performance.getEntriesByType('navigation')[0].duration;

// How many times slower the browser is now than where the bounds of time were chosen, and at least 1: by the least of several times in which it lays out
// paragraphs, which the styles of the page do not reach.
function slowness(paragraphs, usual) {
  const times = [];
  for (let time = 0; time < 5; time++) {
    const begun = performance.now();
    const host = document.createElement('div');
    host.attachShadow({mode: 'open'}).innerHTML = '<p>a <b>b</b></p>'.repeat(paragraphs);
    document.body.append(host);
    host.getBoundingClientRect();
    times.push(performance.now() - begun);
    host.remove();
  }
  return Math.max(1, Math.min(...times) / usual);
}

// Texts have a contrast of 4.5 to what is below them, and edges one of 3 to the page.
function contrasts() {
  const bad = [];
  const part = it => (it <= 0.03928 ? it / 12.92 : ((it + 0.055) / 1.055) ** 2.4);
  const light = color => {
    const [red, green, blue] = color.match(/[\d.]+/g).map(it => part(it / 255));
    return 0.2126 * red + 0.7152 * green + 0.0722 * blue;
  };
  const contrast = (a, b) => (Math.max(light(a), light(b)) + 0.05) / (Math.min(light(a), light(b)) + 0.05);
  const page = getComputedStyle(document.body).backgroundColor;
  const below = it => {
    for (let at = it; at; at = at.parentElement) {
      const color = getComputedStyle(at).backgroundColor;
      if (color !== 'rgba(0, 0, 0, 0)') return color;
    }
    return page;
  };
  for (const it of document.querySelectorAll('p, td, th, h1, h2, caption, figcaption, li, summary, code, pre, mark, a, .ref, .aside')) {
    const own = contrast(getComputedStyle(it).color, below(it));
    if (it.textContent.trim() && own < 4.5) bad.push(`${it.tagName} ${own.toFixed(1)}`);
  }
  for (const it of document.querySelectorAll('svg.sys g.op')) {
    const filled = getComputedStyle(it.querySelector('.fill')).fill;
    const label = it.querySelector('text');
    if (label && contrast(getComputedStyle(label).fill, filled === 'none' ? page : filled) < 4.5) bad.push(`label ${label.textContent}`);
    const isFaint = it.classList.contains('dim') || it.classList.contains('failed');
    const edge = contrast(getComputedStyle(it.querySelector('.edge')).stroke, page);
    if (!isFaint && edge < 3) bad.push(`edge ${edge.toFixed(1)}`);
  }
  for (const it of document.querySelectorAll('svg.sys a.pt')) {
    const own = contrast(getComputedStyle(it.querySelector('text')).fill, getComputedStyle(it.querySelector('rect')).fill);
    if (own < 4.5) bad.push(`point ${own.toFixed(1)}`);
  }
  for (const it of document.querySelectorAll('g.cross text, text.num, text.lane, text.under, text.ne, g.nem text')) {
    const own = contrast(getComputedStyle(it).fill, page);
    if (own < 4.5) bad.push(`text ${it.textContent} ${own.toFixed(1)}`);
  }
  for (const it of document.querySelectorAll('svg.sys g.gap, svg.content g.box, svg.sys g.op')) {
    const filled = getComputedStyle(it.querySelector('rect')).fill;
    for (const text of it.querySelectorAll('text:not(.under)')) {
      const own = contrast(getComputedStyle(text).fill, filled === 'none' ? page : filled);
      if (own < 4.5) bad.push(`text ${text.textContent} ${own.toFixed(1)}`);
    }
  }
  const strokes = 'svg.sys .pt .x, svg.sys .before .line, svg.sys .cross path, svg.sys .tether, svg.sys .info, svg.sys .more, svg.content .box:not(.skip) rect';
  for (const it of document.querySelectorAll(strokes)) {
    const own = contrast(getComputedStyle(it).stroke, page);
    const isFaint = it.closest('.dim, .failed');
    if (!isFaint && own < 3) bad.push(`stroke ${it.getAttribute('class') ?? it.tagName} ${own.toFixed(1)}`);
  }
  // The sign in the heading is large.
  const sign = getComputedStyle(document.querySelector('.icon') ?? document.body);
  if (contrast(sign.color, sign.backgroundColor) < 3) bad.push('the sign in the heading');
  return [...new Set(bad)];
}

// The row of the entry that is refused is in sight, also where its table is scrolled, and its number is in one line.
function refusedRows() {
  const bad = [];
  for (const it of document.querySelectorAll('.order tr.bad')) {
    const [cell, box] = [it.querySelector('td').getBoundingClientRect(), it.closest('.tbl').getBoundingClientRect()];
    if (cell.top < box.top - 1 || cell.bottom > box.bottom + 1) bad.push(`the row ${it.id} is out of sight`);
    if (getComputedStyle(it.querySelector('th')).whiteSpace !== 'nowrap') bad.push(`the number of ${it.id} may break in two lines`);
  }
  return bad;
}

// What a page of each answer has.
function parts(wanted) {
  const bad = [];
  const count = selector => document.querySelectorAll(selector).length;
  if (document.body.className !== wanted.answer) bad.push(`the page is ${document.body.className}`);
  if (wanted.rank && document.querySelector('tr.bad th')?.textContent !== `${wanted.rank}`) bad.push(`the refused row is not that of rank ${wanted.rank}`);
  // The bar of the operation that is left out may go on in the next line.
  const omitted = new Set([...document.querySelectorAll('svg.sys .leftout')].map(it => it.dataset.op)).size;
  if (omitted !== (wanted.code === 'C7' ? 1 : 0) || count('.leftout[id]') !== omitted) bad.push(`${omitted} operations are left out`);
  if (wanted.code === 'C5' && count('g.before') < 1) bad.push('no arrow');
  if (['C6', 'C9'].includes(wanted.code) && count('#content rect') < 1) bad.push('no content');
  if (wanted.answer === 'impossible') {
    const shown = [...new Set([...document.querySelectorAll('#zoom g.op')].map(it => +it.dataset.op))];
    const some = document.querySelector('#zoom figcaption')?.textContent.match(/ Drawn: ([\d ]+) of them\./);
    const most = some ? +some[1].replaceAll(' ', '') : wanted.reason.length;
    // The sentence may name others, which are drawn beside.
    const others = document.querySelector('#zoom figcaption')?.textContent.match(/ Drawn with ([\d ]+) other operations? that the sentence names\./);
    const own = shown.filter(it => wanted.reason.includes(it));
    const isReason = own.length === most && shown.length - most === (others ? +others[1].replaceAll(' ', '') : 0) && Boolean(some) === most < wanted.reason.length;
    if (!isReason) bad.push(`the operations ${shown} are not those of the reason, ${wanted.reason}`);
    const isTried = !document.body.textContent.includes('one of them does not fit.');
    if (count('table.tried tbody tr') < 1 && isTried) bad.push('no tried order');
  }
  if (wanted.answer === 'malformed' && document.querySelector('figure.text')?.querySelectorAll('tr.at > td > mark').length !== 1) bad.push('no place is marked');
  const place = document.querySelector('#reason, #fault, #object');
  const link = document.querySelector('.skiplink');
  if (link?.getAttribute('href') !== (place ? `#${place.id}` : undefined)) bad.push(`no link to ${place?.id ?? 'nothing'}`);
  if (!place && wanted.isWhole && ['no', 'impossible', 'open', 'malformed'].includes(wanted.answer)) bad.push('nothing to skip to');
  if (place?.id === 'object' && wanted.isWhole && wanted.answer !== 'open') bad.push('a link to an object that is not at fault');
  for (const text of wanted.shows ?? []) if (!document.body.textContent.includes(text)) bad.push(`${text} is not shown`);
  return bad;
}

const focused = () => document.activeElement.className;
const has = selector => Boolean(document.querySelector(selector));
const placed = () => document.activeElement === document.querySelector('#reason, #fault, #object') && location.hash === `#${document.activeElement.id}`;

// A row of an order whose point is drawn, in the middle of the window: where it is, and what its bar is.
function rowToPointAt() {
  location.hash = '';
  const row = [...document.querySelectorAll('table.order tr[id]')].find(it => document.querySelector(`a.pt[href="#${it.id}"]`));
  if (!row) return null;
  row.scrollIntoView({block: 'center'});
  const {x, y} = row.getBoundingClientRect();
  return {x: x + 8, y: y + 6, op: document.querySelector(`a.pt[href="#${row.id}"]`).dataset.op};
}

// A bar whose point is drawn and has a row, in the middle of the window: where it is, and the name of its row.
function barToPointAt() {
  for (const point of document.querySelectorAll('svg.sys a.pt')) {
    const row = document.getElementById(point.getAttribute('href').slice(1));
    const bar = point.closest('svg').querySelector(`g.op[data-op="${point.dataset.op}"] .fill`);
    if (!row || !bar) continue;
    bar.scrollIntoView({block: 'center', inline: 'center'});
    const {x, y} = bar.getBoundingClientRect();
    return {x: x + 3, y: y + 3, row: row.id};
  }
  return null;
}

const outlineOf = name => getComputedStyle(document.getElementById(name)).outlineStyle;

const edgeOf = op => getComputedStyle(document.querySelector(`g.op[data-op="${op}"] .edge`)).strokeWidth;

function edgeOfTarget() {
  const link = document.querySelector('a.ref');
  if (!link) return null;
  location.hash = link.getAttribute('href');
  return getComputedStyle(document.getElementById(link.hash.slice(1)).querySelector('.edge')).strokeWidth;
}

// ---- a page

async function press(tab, key, windowsVirtualKeyCode, text) {
  for (const type of ['keyDown', 'keyUp']) await tab.ask('Input.dispatchKeyEvent', {type, key, code: key, windowsVirtualKeyCode, text});
}

const pointAt = (tab, {x, y}) => tab.ask('Input.dispatchMouseEvent', {type: 'mouseMoved', x, y});

async function answersToKeys(tab) {
  const bad = [];
  if (await tab.evaluate(has, '.skiplink')) {
    await press(tab, 'Tab', 9);
    if ((await tab.evaluate(focused)) !== 'skiplink') bad.push('the first stop is not the link to the fault');
    await press(tab, 'Enter', 13, '\r');
    if (!(await tab.evaluate(placed))) bad.push('the link does not lead to the fault');
  }
  return bad;
}

async function answersToHands(tab) {
  const bad = [];
  // A page with many points has no rules by which they light their rows.
  const isLarge = await tab.evaluate(() => new Set([...document.querySelectorAll('a.pt')].map(it => it.getAttribute('href'))).size > 100);
  const row = isLarge ? null : await tab.evaluate(rowToPointAt);
  if (row) {
    await pointAt(tab, row);
    if ((await tab.evaluate(edgeOf, row.op)) !== '3px') bad.push('a row does not light its bar');
  }
  const bar = isLarge ? null : await tab.evaluate(barToPointAt);
  if (bar) {
    await pointAt(tab, bar);
    if ((await tab.evaluate(outlineOf, bar.row)) === 'none') bad.push('a bar does not light its row');
  }
  const edge = await tab.evaluate(edgeOfTarget);
  if (edge && edge !== '4px') bad.push('a bar that is led to is not marked');
  return bad;
}

// How many milliseconds a browser took to lay out this number of paragraphs where the bounds of time were chosen.
const [PARAGRAPHS, USUAL] = [5000, 100];
// The most times that a page is loaded until it is fast enough: other work on the machine only adds to a time.
const MOST_LOADS = 20;

// How long the page takes to load, at the least of several times, in milliseconds as they would be there.
async function loadsIn(tab, file, most) {
  let least = Infinity;
  for (let loads = 0; loads < MOST_LOADS && least > most; loads++) {
    await tab.open(file);
    let time = 0;
    while (time === 0) {
      await pause(50);
      time = await tab.evaluate(loadTime);
    }
    least = Math.min(least, time / (await tab.evaluate(slowness, PARAGRAPHS, USUAL)));
  }
  return least;
}

const openAll = () => document.querySelectorAll('details.stretch').forEach(it => (it.open = true));

async function fits(tab) {
  await tab.evaluate(openAll);
  const bad = [...(await tab.evaluate(onWide)), ...(await tab.evaluate(overlaps))].map(it => `wide: ${it}`);
  for (const width of WIDER) {
    await tab.width(width);
    bad.push(...[...(await tab.evaluate(onWide)), ...(await tab.evaluate(overlaps))].map(it => `${width} pixels: ${it}`));
  }
  await tab.width(PHONE, true);
  bad.push(...[...(await tab.evaluate(onPhone, PHONE)), ...(await tab.evaluate(overlaps))].map(it => `phone: ${it}`));
  await tab.width(PAPER);
  await tab.scheme('dark', 'print');
  bad.push(...[...(await tab.evaluate(onPaper)), ...(await tab.evaluate(overlaps))].map(it => `paper: ${it}`));
  if (!(await tab.print()).startsWith('%PDF')) bad.push('paper: it cannot be printed');
  await tab.scheme('light');
  await tab.width(WIDE);
  return bad;
}

async function lookAt(tab, wanted) {
  await tab.scheme('light');
  await tab.open(wanted.file);
  const bad = [...(await tab.evaluate(links)), ...(await tab.evaluate(points, wanted.code)), ...(await tab.evaluate(refusedRows)), ...(await tab.evaluate(parts, wanted))];
  const size = statSync(wanted.file).size;
  if (size > (wanted.most ?? MOST_BYTES)) bad.push(`${size} bytes`);
  if (tab.requests.length !== 1) bad.push(`${tab.requests.length} requests`);
  bad.push(...(await answersToKeys(tab)));
  bad.push(...(await fits(tab)));
  if (wanted.loads) {
    const time = await loadsIn(tab, wanted.file, wanted.loads);
    if (time > wanted.loads) bad.push(`it takes ${Math.round(time)} ms to load`);
  }
  for (const scheme of ['light', 'dark']) {
    await tab.scheme(scheme);
    const found = [...(await tab.evaluate(rooms)), ...(await tab.evaluate(contrasts)), ...(await answersToHands(tab))];
    bad.push(...found.map(it => `${scheme}: ${it}`));
  }
  return [...new Set(bad)];
}

// What is wrong with a page, and the tab for the next one: another tab, where this one may hang.
async function tryToLookAt(browser, tab, wanted) {
  try {
    return [await lookAt(tab, wanted), tab];
  } catch (error) {
    await browser.close(tab);
    return [[error.message], await browser.tab()];
  }
}

// Looks at one page after the other, while other tabs do so too.
async function lookAtThose(browser, cases) {
  let [bad, tab] = [[], await browser.tab()];
  for (let wanted = cases.shift(); wanted; wanted = cases.shift()) {
    [bad, tab] = await tryToLookAt(browser, tab, wanted);
    console.log(JSON.stringify({file: wanted.file, bad}));
  }
  await browser.close(tab);
}

// A page whose time is taken is looked at while no other tab works.
async function lookAtAll(cases) {
  const browser = await Browser.at(await portOf(profile));
  const others = cases.filter(it => !it.loads);
  await Promise.all(Array.from({length: availableParallelism()}, () => lookAtThose(browser, others)));
  await lookAtThose(browser, cases.filter(it => it.loads));
}

async function end(status) {
  chromium.kill();
  await new Promise(done => chromium.once('exit', done));
  rmSync(profile, {recursive: true, force: true, maxRetries: 5});
  // What was waited for in vain holds the program no longer.
  process.exit(status);
}

process.on('SIGTERM', () => end(1));
try {
  await lookAtAll(JSON.parse(readFileSync(process.argv[2], 'utf8')));
  await end(0);
} catch (error) {
  console.error(error);
  await end(1);
}
