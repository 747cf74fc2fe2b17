// ---- the node: its file, or its maps

const is_node = () => textOf('node').trim() !== '';
const maps = () => ($('maps').value.trim() ? ['--maps', $('maps').value.trim()] : []);
// The node of the words that read its file only, and of those that judge there: new.policy is then in place of its program.
const place = () => (is_node() ? ['--node', 'node.toml'] : maps());
const loadPlace = () => (is_node() ? ['--node', 'judged.toml'] : maps());
const judgePlace = () => (is_node() ? ['--node', 'judged.toml'] : [...(files.has('new.img') ? ['--image', 'new.img'] : []), ...maps(), '--ports', '32']);
const judgeFiles = () => (is_node() ? [['judged.toml', encoder.encode(withProgram(textOf('node')))], ...node.stand_ins] : []);

// A node's file in which new.img judges in all slots at first. The keys of the node come before its first table.
function withProgram(text) {
  const at = /^\s*\[/m.exec(text)?.index ?? text.length, own = 'program = "new.img"';
  const before = text.slice(0, at), kept = before.replace(/^[ \t]*program[ \t]*=.*$/m, own);
  return (kept === before && !before.includes(own) ? `${own}\n${before}` : kept) + text.slice(at);
}

// What is known of the node's file: whether it has a fault; the files that it names, each with its place there; those of them that were
// not given, except its program; what is in their place for words that ask nothing of them; and its lines, as rmapctl node prints them.
const NO_NODE = { is_fault: false, named: [], lacking: [], stand_ins: [], lines: '', text: '' };
const UNREAD = /^ *\S+ (bank \d+ contents|program|publish \d+ image) (.*): cannot be read$/;

async function readNode() {
  const bare = await ask({ words: ['node', 'node.toml'], files: [['node.toml', files.get('node.toml')]] }, 'node');
  const faults = bare.told.split('\n').filter(Boolean), named = faults.map((line) => UNREAD.exec(line)).filter(Boolean).map(([, where, name]) => ({ where, name }));
  if (bare.status !== 0 && (named.length === 0 || named.length < faults.length)) return { ...NO_NODE, is_fault: true, text: decoder.decode(bare.out) + bare.told };
  const missing = named.filter(({ name }) => !files.has(name)), stand_ins = await standIns(missing), done = await perform(['node', 'node.toml'], stand_ins);
  if (done.status !== 0) return { ...NO_NODE, is_fault: true, named, text: done.text + done.told };
  const lines = missing.length === 0 ? done.text : done.text.replace(/^program .*\n/gm, '').replace(/ (contents 0|weight \d+)$/gm, '');
  const lacking = missing.filter(({ where }) => where !== 'program');
  return { is_fault: false, named, lacking, stand_ins, lines, text: [lackingWords(lacking), programWords(named), ...publishedWords(lines, named)].filter(Boolean).join('\n') };
}

// In the place of files that were not given: nothing for the bytes of a bank, and a program that says yes.
let yes = null;
async function standIns(missing) {
  yes ??= (await perform(['asm', 'yes.bpf', 'yes.img'], [['yes.bpf', encoder.encode('.budget 2\nmov r0, 0\nexit\n')]])).written[0][1];
  return missing.map(({ where, name }) => [name, where.startsWith('bank') ? new Uint8Array() : yes]);
}

// Who asks for files that were not given, and what waits for them: packets for all, and the load of one loader for programs.
function lackingWords(lacking) {
  const names = [...new Set(lacking.map(({ name }) => name))], is_one = names.length === 1;
  if (names.length === 0) return '';
  const waits = lacking.some(({ where }) => where.startsWith('publish')) ? 'no packet is answered and no load is rehearsed' : 'no packet is answered';
  return `The node's file names ${names.join(', ')}, which ${is_one ? 'was' : 'were'} not given: put ${is_one ? 'it' : 'them'} beside node.toml. Until then ${waits}.`;
}

// What is said of the program of the node, in whose place the new table is.
function programWords(named) {
  const program = named.find(({ where }) => where === 'program');
  if (!program) return '';
  return `new.policy judges in place of ${program.name}, the node's program${files.has(program.name) ? '' : ', which was not given'}.`;
}

// What each slot judges, and the image that the file publishes last in a slot, if there is one.
const JUDGED = ['reads', 'writes', 'read-modify-writes', 'the boot window, and so the loads'];
function publishedIn(slot, lines, named) {
  const last = [...lines.matchAll(/^publish (\d+) slot (\d)\b/gm)].filter(([, , own]) => Number(own) === slot).pop();
  return last ? named.find(({ where }) => where === `publish ${last[1]} image`)?.name ?? null : null;
}
function publishedWords(lines, named) {
  return JUDGED.map((what, slot) => {
    const name = publishedIn(slot, lines, named);
    return name && `The node's file publishes ${name} in slot ${slot}: new.policy does not judge ${what}.`;
  });
}

// The node since its file was read last.
let node = NO_NODE;

async function showNode(stale) {
  $('maps').disabled = is_node();
  $('node-lines').hidden = !is_node();
  const read = is_node() ? await readNode() : NO_NODE;
  if (stale()) return;
  node = read;
  $('node-text').textContent = node.is_fault ? node.text : node.lines;
  mark('node', node.text.trimEnd(), node.is_fault ? linesOf(node.text) : []);
  if (node.is_fault) $('said-node').className = 'said bad';
}

// What is shown if the node's file has a fault.
function noAnswers(text) {
  $('said-map').textContent = text;
  $('map').classList.add('stale');
  $('loaders').replaceChildren(answerLine('After the change', { words: 'it is not known who can load: the node\'s file has a fault.', name: 'warn' }));
  for (const id of ['judged', 'rehearsed', 'said-judged']) $(id).replaceChildren();
}

// The node as its lines say it: its address, how many ports there are, and its banks, each with its number and its ends.
function partsOfNode() {
  const banks = [...node.lines.matchAll(/^bank (\S\S) (\S{8}) (\S{8}) /gm)].map(([, number, low, high]) => ({ number: parseInt(number, 16), ends: [parseInt(low, 16), parseInt(high, 16) + 1] }));
  return { address: parseInt(/^address (\S\S)$/m.exec(node.lines)?.[1] ?? 'FE', 16), ports: Number(/^ports (\d+)$/m.exec(node.lines)?.[1] ?? 32), banks };
}

// The program that judges the loads until another one is in slot 3.
const guardOfNode = () => publishedIn(3, node.lines, node.named);
