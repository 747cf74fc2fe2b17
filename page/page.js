// ---- what is asked of the module, in turn

let asked = 0, seeing = 0;

async function seen() {
  asked += 1;
  const own = asked, stale = () => own !== asked;
  // What an older text asked for, and still works, is of no use any more.
  if ([...calls.values()].some((call) => performance.now() - call.since > 300)) stop();
  seeing += 1;
  try {
    await showNode(stale);
    if (stale()) return;
    if (node.is_fault) { noAnswers('The node\'s file has a fault: nothing is asked for it.'); return; }
    const image = await perform(['policy', 'new.policy', 'new.img', ...place()]);
    const old_image = $('both').checked ? await perform(['policy', 'old.policy', 'old.img', ...place()]) : null;
    if (stale()) return;
    keepImage(image, old_image);
    showTable('new', image);
    if (old_image) showTable('old', old_image);
    await showLoaders(image, old_image, stale);
    if (stale()) return;
    const map = await perform(['map', 'new.policy', ...question(), ...place()]);
    if (stale()) return;
    showMap(map);
    const compare = $('both').checked ? await perform(['compare', 'old.policy', 'new.policy', ...question(), ...place()]) : null;
    const differences = compare ? differencesIn(compare) : [];
    if (is_node() && differences) await findPackets(differences, stale);
    if (stale()) return;
    showCompare(map, compare, differences);
    await rehearse(stale);
    if (stale()) return;
    await showPackets(image.status === 0, stale);
    if (stale()) return;
    refresh();
  } catch (fault) {
    if (fault instanceof Stopped && !stale()) $('said-map').textContent = 'It was stopped. Change a table to begin again.';
    else if (!stale()) told(fault);
  } finally { seeing -= 1; }
}

// Whether all is drawn that the texts ask for.
const isStill = () => timer === 0 && seeing === 0 && calls.size === 0;

// What is wrong in a table, or what is said of it on standard error, at its editor.
function showTable(id, done) {
  const text = (done.status === 0 ? done.told.replace(/^ {4}/gm, '') : done.text + done.told).trimEnd(), lines = linesOf(text);
  mark(id, text, done.status === 0 ? [] : lines, done.status === 0 ? lines : []);
}

function keepImage(image, old_image) {
  $('image').textContent = image.status === 0 ? `new.img: ${image.text.trim()}` : '';
  for (const [name, done] of [['new.img', image], ['old.img', old_image]]) {
    if (done?.status === 0) files.set(name, done.written[0][1]); else files.delete(name);
  }
}

// ---- the state of the review

function stateNow() {
  const names = [...files.keys()].filter((name) => is_node() && !editorOf(name) && !['new.img', 'old.img'].includes(name) && namesFile(name));
  return { new: textOf('new'), old: textOf('old'), lines: textOf('lines'), maps: $('maps').value, both: $('both').checked, node: textOf('node'),
    load: Object.fromEntries(Object.entries(LOAD_FIELDS).map(([name, [id]]) => [name, $(id).value])),
    ask: Object.fromEntries(ASK_FIELDS.map((name) => [name, $(`ask-${name}`).value])),
    files: Object.fromEntries(names.map((name) => [name, review.base64(files.get(name))])) };
}
const namesFile = (name) => [`"${name}"`, `'${name}'`].some((word) => textOf('node').includes(word));

// What stands since the last example, link or saved review; and what stood before the texts were replaced last.
let clean = '', before = null, replaced_by = '';
const isTyped = () => JSON.stringify(stateNow()) !== clean;
function replacing() { before = stateNow(); }
function replaced() { replaced_by = JSON.stringify(stateNow()); }

// Begins a review. Nothing that was put into another one is left: a file of a name that both have might be taken for its own.
function begin({ texts: own, maps: sizes, both, load = {}, ask: asked_of = {}, more = [] }) {
  for (const name of beside) files.delete(name);
  beside.clear();
  puts.clear();
  for (const [id, name] of Object.entries(EDITORS)) files.set(name, encoder.encode(own[id] ?? ''));
  for (const [name, content] of more) { files.set(name, content); beside.add(name); }
  for (const [name, [id, , first]] of Object.entries(LOAD_FIELDS)) $(id).value = load[name] ?? first;
  for (const name of ASK_FIELDS) $(`ask-${name}`).value = asked_of[name] ?? '';
  $('maps').value = sizes;
  $('both').checked = both;
  refresh();
  clean = JSON.stringify(stateNow());
  seen();
}
function beginState(state) {
  const more = Array.isArray(state.files) ? state.files : Object.entries(state.files).map(([name, text]) => [name, Uint8Array.from(atob(text), (c) => c.charCodeAt(0))]);
  begin({ texts: { new: state.new, old: state.old, lines: state.lines, node: state.node }, maps: state.maps, both: state.both, load: state.load, ask: state.ask, more });
}
const ofExample = (own) => ({ texts: { new: own.new, old: own.old ?? '', lines: own.lines ?? '' }, maps: own.maps, both: Boolean(own.old) });

// Another review in the place of this one: what was typed is asked for first, and comes back by Ctrl+Z.
function replaceBy(what, start_) {
  if (isTyped() && !window.confirm(`${what} takes the place of what was typed. Ctrl+Z brings it back.`)) return false;
  replacing();
  start_();
  replaced();
  return true;
}

function undo(event) {
  if (!(event.ctrlKey || event.metaKey) || event.shiftKey || event.key.toLowerCase() !== 'z') return;
  if (before === null || JSON.stringify(stateNow()) !== replaced_by) return;
  event.preventDefault();
  const state = before;
  before = null;
  unlinked();
  beginState(state);
  clean = '';
}

async function beginFromAddress() {
  const fragment = location.hash;
  if (fragment.length > 1 && document.getElementById(fragment.slice(1))) return false;
  try {
    const state = await review.read(fragment);
    if (!state) return false;
    replacing();
    beginState(state);
    replaced();
    notice('');
    return true;
  } catch (fault) {
    notice(`The address has no review that can be read: ${fault.message}.`);
    return false;
  }
}

async function openReview(file) {
  let state;
  try { state = review.opened(new Uint8Array(await file.arrayBuffer())); } catch (fault) {
    notice(`${file.name} is no review that can be read: ${fault.message}. What was here is as it was.`);
    return;
  }
  notice('');
  replaceBy(file.name, () => { unlinked(); beginState(state); });
}

function saveReview() {
  saveAs('review.json', encoder.encode(review.saved(stateNow())));
  clean = JSON.stringify(stateNow());
  $('said-link').textContent = 'review.json has the tables, the packets, the maps, the fields of a load and of a question, the node\'s file and the files that it names.';
}

async function makeLink() {
  const state = stateNow(), { fragment, is_short } = await review.written(state);
  if (!is_short) {
    $('said-link').textContent = `The review is too long for a link: ${fragment.length.toLocaleString('en')} characters, and a link has at most `
      + `${review.MOST_LINK.toLocaleString('en')}. Save this review makes a file of it.`;
    return;
  }
  window.history.replaceState(null, '', fragment);
  clean = JSON.stringify(state);
  const link = location.href;
  let where = 'It is in the address.';
  try { await navigator.clipboard.writeText(link); where = 'It was copied, and is in the address.'; } catch (refused) { /* the address has it */ }
  $('said-link').textContent = 'The link has the tables, the packets, the maps, the fields of a load and of a question, the node\'s file and the files that it names, and no other: '
    + `${link.length.toLocaleString('en')} characters. ${where}`;
}

// After a change a link that was copied is of another review.
function unlinked() {
  $('said-link').textContent = '';
  if (location.hash) window.history.replaceState(null, '', location.href.split('#')[0]);
}
function changed() { unlinked(); }

// ---- the terminal

const typedLines = [];
let back = 0;

function say(text, name) {
  if (text) $('screen').append(made('span', { className: name, textContent: text }));
}

const INTRODUCTION = `The words of docs/COMMANDS.md work over the files above, also those that a node's file names. ls, cat FILE, hex FILE, rm FILE and clear are the page's own.
A | goes to the next command's -, and > FILE keeps what is printed. serve and live --frames are left out: no thread can start here, and there is no link.
`;

async function typed(event) {
  event.preventDefault();
  const line = $('line').value.trim();
  if (!line) return;
  typedLines.push(line);
  back = typedLines.length;
  $('line').value = '';
  if (line === 'clear') { $('screen').replaceChildren(); return; }
  say(`$ rmapctl ${line.replace(/^(\$ )?(rmapctl )?/, '')}\n`, 'given');
  try {
    const done = await doLine(line);
    say(done.text, 'out');
    say(done.told, 'told');
    if (done.status !== 0) say(`[status ${done.status}]\n`, 'status');
  } catch (fault) { say(`${fault}\n`, 'told'); }
  $('screen').scrollTop = $('screen').scrollHeight;
  refresh();
  soon();
}

async function addPacket(event) {
  event.preventDefault();
  const is_rmw = $('kind').value === 'rmw';
  const options = ['port', 'key', 'initiator', 'extended', 'transaction'].flatMap((id) => [`--${id}`, $(id).value]);
  const node = is_node() ? ['--node', 'node.toml'] : [];
  const done = await perform(['packet', $('kind').value, $('address').value, $('data').value, ...(is_rmw ? [$('mask').value] : []), ...options, ...node]);
  $('said-make').textContent = done.status === 0 ? '' : (done.text + done.told).trimEnd();
  $('said-make').className = 'said bad';
  if (done.status === 0) addLines(done.text);
}

function changeKind() {
  $('for-data').textContent = $('kind').value === 'read' ? 'Length' : 'Data';
  $('data').value = $('kind').value === 'read' ? '16' : '01';
  $('masked').hidden = $('kind').value !== 'rmw';
}

function goBack(event) {
  if (event.key !== 'ArrowUp' && event.key !== 'ArrowDown') return;
  event.preventDefault();
  back = Math.min(typedLines.length, Math.max(0, back + (event.key === 'ArrowUp' ? -1 : 1)));
  $('line').value = typedLines[back] ?? '';
}

// ---- what is done

let timer = 0;
function soon() { clearTimeout(timer); timer = setTimeout(() => { timer = 0; seen(); }, 200); }

// The lines of help, each of which opens at its word.
function helps() {
  for (const place_ of document.querySelectorAll('[data-words]')) {
    place_.append(...WORDS[place_.dataset.words].map(([word, text]) => made('details', { className: 'help' }, made('summary', { textContent: word }), made('p', { textContent: text }))));
  }
  $('not-covered').append(...NOT_COVERED.map((text) => made('li', { textContent: text })));
}

function chooseExample() {
  const name = $('example').value;
  notice('');
  if (!replaceBy(`The example ${name}`, () => { unlinked(); begin(ofExample(EXAMPLES[name])); })) $('example').value = chosen;
  chosen = $('example').value;
}
let chosen = '';

function listenForms() {
  $('kind').addEventListener('input', changeKind);
  $('make').addEventListener('submit', (event) => addPacket(event).catch(told));
  $('rehearse').addEventListener('submit', (event) => { event.preventDefault(); seen(); });
  for (const [id] of Object.values(LOAD_FIELDS)) $(id).addEventListener('input', () => { changed(); soon(); });
  for (const name of ASK_FIELDS) $(`ask-${name}`).addEventListener('input', () => { changed(); soon(); });
  $('question').addEventListener('submit', (event) => { event.preventDefault(); seen(); });
  $('typed').addEventListener('submit', typed);
  $('line').addEventListener('keydown', goBack);
  $('stop').addEventListener('click', stop);
  $('link').addEventListener('click', () => makeLink().catch(told));
  $('save').addEventListener('click', saveReview);
  $('print').addEventListener('click', () => { settledThen(() => window.print()); });
}

function listenMap() {
  for (const what of ['keyup', 'click', 'focus']) $('new').addEventListener(what, pointRule);
  $('map').addEventListener('pointerover', (event) => { if (event.target.classList.contains('frame')) point(event.target); });
  $('map').addEventListener('keydown', pointByKey);
  $('map-lines').addEventListener('toggle', () => { if (shown && $('map-lines').open) $('map-table').replaceChildren(linesTable(shown.chart.lines)); });
  $('fold').append(new Option('nothing', ''), ...picture.HEADS.map((head) => new Option(head, head)));
  $('fold').addEventListener('input', drawMap);
  let width = 0;
  new ResizeObserver(() => { if (roomOf('map') !== width) { width = roomOf('map'); drawMap(); } }).observe($('map'));
}

function listen() {
  for (const id of Object.keys(EDITORS)) {
    $(id).addEventListener('input', () => { keep(id); changed(); soon(); });
    $(id).addEventListener('scroll', () => { $(id).previousElementSibling.scrollTop = $(id).scrollTop; });
  }
  for (const id of ['maps', 'both']) $(id).addEventListener('input', () => { changed(); soon(); });
  for (const name of Object.keys(EXAMPLES)) $('example').append(new Option(name));
  chosen = $('example').value;
  $('example').addEventListener('input', chooseExample);
  $('steps').addEventListener('toggle', () => { if ($('steps').open) traced(() => false).catch(told); });
  for (const skip of document.querySelectorAll('.skip')) {
    skip.addEventListener('click', (event) => { event.preventDefault(); document.querySelector(skip.getAttribute('href')).focus(); });
  }
  listenPuts();
  listenForms();
  listenMap();
  addEventListener('keydown', undo);
  addEventListener('beforeprint', () => drawPaper());
  addEventListener('afterprint', () => { $('paper').replaceChildren(); });
  addEventListener('beforeunload', (event) => { if (isTyped()) event.preventDefault(); });
  addEventListener('hashchange', () => beginFromAddress());
}

async function ready() {
  listen();
  helps();
  say(INTRODUCTION, 'status');
  bytes = await moduleBytes();
  globalThis.TIMES = await start();
  const version = await perform(['--version']);
  $('build').textContent = `${version.text.trim()}, ${BUILD.proof} module, SHA-256 ${BUILD.sum}`;
  $('build').classList.toggle('unproved', BUILD.proof !== 'proved');
  if (!(await beginFromAddress())) begin(ofExample(Object.values(EXAMPLES)[0]));
  before = null;
}
ready().catch(told);
