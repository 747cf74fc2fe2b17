// ---- editors: their texts, the files that were put into them, and their marks

const EDITORS = { new: 'new.policy', old: 'old.policy', node: 'node.toml', lines: 'lines.txt' };
// A text as it is: the byte order mark is a part of it.
const exact = new TextDecoder('utf-8', { ignoreBOM: true });
// What each editor shows; of each file that was put here its name and its sum; and the names of the files beside those of the editors.
const texts = new Map(), puts = new Map(), beside = new Set();

const textOf = (id) => exact.decode(files.get(EDITORS[id]) ?? new Uint8Array());

function numbered(id) {
  const area = $(id), list = area.previousElementSibling, count = area.value.split('\n').length;
  while (list.children.length < count) list.append(made('li', { textContent: String(list.children.length + 1) }));
  while (list.children.length > count) list.lastChild.remove();
  list.scrollTop = area.scrollTop;
}

// Marks the lines of an editor that have a fault, or that have a warning, and says why.
function mark(id, said, bad = [], never = []) {
  const items = $(id).previousElementSibling.children;
  [...items].forEach((item, k) => { item.className = bad.includes(k + 1) ? 'bad' : never.includes(k + 1) ? 'never' : ''; });
  const is_bad = bad.length > 0;
  $(id).setAttribute('aria-invalid', String(is_bad));
  $(`said-${id}`).textContent = said;
  $(`said-${id}`).className = `said ${is_bad ? 'bad' : said ? 'never' : ''}`;
}

// Keeps what was typed.
function keep(id) {
  texts.set(id, $(id).value);
  files.set(EDITORS[id], encoder.encode($(id).value));
  numbered(id);
}

// Puts the files that a job wrote into the editors, and all names into the list.
function refresh() {
  for (const id of Object.keys(EDITORS)) {
    const text = textOf(id);
    if (texts.get(id) !== text) { $(id).value = text; texts.set(id, text); }
    numbered(id);
  }
  $('files').replaceChildren(...[...files].map(([name, content]) => {
    const button = made('button', { type: 'button', className: 'plain', title: 'Save this file', textContent: name });
    button.addEventListener('click', () => saveAs(name, files.get(name)));
    return made('li', {}, button, ` ${content.length.toLocaleString('en')} bytes`);
  }));
}

function saveAs(name, content) {
  const to = made('a', { href: URL.createObjectURL(new Blob([content])), download: name });
  to.click();
  setTimeout(() => URL.revokeObjectURL(to.href), 10000);
}

// Brings a line of an editor into view, and marks it.
function pointLine(id, line) {
  const area = $(id), list = area.previousElementSibling;
  pointed_lines.forEach((item) => item.classList.remove('here'));
  const item = list.children[line - 1];
  if (!item) return;
  item.classList.add('here');
  pointed_lines = [item];
  area.scrollTop = Math.max(0, item.offsetTop - list.offsetTop - area.clientHeight / 2);
  list.scrollTop = area.scrollTop;
  area.closest('.editor').scrollIntoView({ block: 'nearest' });
}
let pointed_lines = [];

// ---- files that are put here, from a disk or by a drop

// What a file of a name is: one of an editor's, or one beside them.
const editorOf = (name) => Object.keys(EDITORS).find((id) => EDITORS[id] === name);

// The bytes of a file into an editor. A file that is no text leaves what was there.
async function putText(id, file) {
  const content = new Uint8Array(await file.arrayBuffer());
  try { new TextDecoder('utf-8', { fatal: true }).decode(content); } catch (fault) {
    notice(`${file.name} is no text in UTF-8: it was not put into ${EDITORS[id]}.`);
    return;
  }
  notice('');
  replacing();
  files.set(EDITORS[id], content);
  puts.set(EDITORS[id], { name: file.name, sum: sumOf(content) });
  if (id === 'old') $('both').checked = true;
  replaced();
}

async function putBeside(file) {
  const content = new Uint8Array(await file.arrayBuffer());
  files.set(file.name, content);
  beside.add(file.name);
  puts.set(file.name, { name: file.name, sum: sumOf(content) });
}

// Files for a place: the first that may be its text goes there, and with a node's file those that it names go beside it.
async function putAll(id, given) {
  const some = [...given];
  if (some.length === 0) return;
  if (id === 'review') { await openReview(some[0]); return; }
  const text = id === 'files' ? null : id !== 'node' ? some[0] : some.find((file) => file.name.endsWith('.toml')) ?? null;
  for (const file of some) if (file !== text && !(id === 'files' && editorOf(file.name))) await putBeside(file);
  if (id === 'files') for (const file of some) if (editorOf(file.name)) await putText(editorOf(file.name), file);
  if (text) await putText(id, text);
  changed();
  refresh();
  await seen();
}

function listenPuts() {
  for (const button of document.querySelectorAll('.put')) {
    const id = button.dataset.put;
    const input = made('input', { type: 'file', id: `put-${id}`, multiple: id === 'node' || id === 'files', tabIndex: -1 });
    input.setAttribute('aria-label', button.textContent);
    $('puts').append(input);
    input.addEventListener('change', () => { putAll(id, input.files).catch(told); input.value = ''; });
    button.addEventListener('click', () => input.click());
  }
  addEventListener('dragover', (event) => event.preventDefault());
  addEventListener('drop', (event) => {
    if (!event.dataTransfer?.files.length) return;
    event.preventDefault();
    const area = event.target.closest?.('.editor')?.querySelector('textarea');
    putAll(area ? area.id : 'files', event.dataTransfer.files).catch(told);
  });
}
