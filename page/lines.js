// A command line over the files of a page: words, pipes, and ` > ` with a file that keeps what is printed.
function commandLines(files, perform) {
  'use strict';
  const decoder = new TextDecoder(), encoder = new TextEncoder();
  const NO_FILE = 'no file\n';

  // Between two quote marks a space is a part of a word.
  function wordsOf(line) {
    const words = [];
    line.split('"').forEach((part, k) => { if (k % 2) words.push(part); else words.push(...part.split(/\s+/).filter(Boolean)); });
    return words;
  }

  // Words that the page has beside those of rmapctl.
  const OWN = new Map([
    ['ls', () => [...files].map(([name, bytes]) => `${String(bytes.length).padStart(7)} ${name}\n`).join('')],
    ['cat', (name) => decoder.decode(files.get(name))],
    ['hex', (name) => `${[...files.get(name)].map((b) => b.toString(16).padStart(2, '0')).join('')}\n`],
    ['rm', (name) => { files.delete(name); return ''; }],
  ]);
  function own([word, name]) {
    const is_there = word === 'ls' || files.has(name);
    const out = encoder.encode(is_there ? OWN.get(word)(name) : NO_FILE);
    return { status: is_there || word === 'hex' ? 0 : 1, out, told: '', written: [] };
  }

  return async (line, input = new Uint8Array()) => {
    const [before, into] = line.split(/ > (?=\S+$)/);
    let given = input, last = null, told = '';
    for (const part of before.split(' | ')) {
      const words = wordsOf(part.trim().replace(/^\$ /, ''));
      if (words[0] === 'rmapctl') words.shift();
      last = OWN.has(words[0]) ? own(words) : await perform(words, [['-', given]]);
      for (const [name, bytes] of last.written) files.set(name, bytes);
      told += last.told;
      given = last.out;
    }
    if (into) { files.set(into, last.out); last = { ...last, out: new Uint8Array() }; }
    return { status: last.status, text: decoder.decode(last.out), told };
  };
}
