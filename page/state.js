// The state of a review: in the address's fragment a JSON text, deflated, in base64url; in a saved file the JSON text itself.
const review = (() => {
  'use strict';
  // How long a link may be that is made, a fragment that is read, and the text that either or a file stands for.
  const MOST_LINK = 30000, MOST = 64 * 1024, MOST_TEXT = 8 * 1024 * 1024;
  // What a fragment begins with: the first is of pages that knew no node's file and no fields of a load.
  const HEADS = ['#1.', '#2.'];
  const VERSION = 2, KIND = 'sandbarstove review';
  const TEXTS = ['new', 'old', 'lines', 'maps'], LOAD = ['slots', 'port', 'initiator', 'key'];
  const ASK = ['kind', 'key', 'initiator', 'extended', 'address', 'port'], KINDS = ['', 'read', 'write', 'rmw'];
  // The names of files that a review has in fields of their own, and that of standard input.
  const OWN = ['new.policy', 'old.policy', 'lines.txt', 'node.toml', 'judged.toml', 'new.img', 'old.img', '-', ''];

  async function through(stream, bytes, most) {
    const writer = stream.writable.getWriter(), reader = stream.readable.getReader(), parts = [];
    const wrote = writer.write(bytes).then(() => writer.close()).catch(() => {});
    let length = 0;
    for (;;) {
      const { done, value } = await reader.read();
      if (done) break;
      length += value.length;
      if (length > most) { reader.cancel().catch(() => {}); throw Error('it is too long'); }
      parts.push(value);
    }
    await wrote;
    return new Uint8Array(await new Blob(parts).arrayBuffer());
  }
  const base64 = (bytes) => {
    let text = '';
    for (const byte of bytes) text += String.fromCharCode(byte);
    return btoa(text);
  };
  const base64url = (bytes) => base64(bytes).replace(/\+/g, '-').replace(/\//g, '_').replace(/=+$/, '');
  const bytesOf = (text) => Uint8Array.from(atob(text.replace(/-/g, '+').replace(/_/g, '/')), (c) => c.charCodeAt(0));
  const isRecord = (value) => value !== null && typeof value === 'object' && !Array.isArray(value);

  // The fragment of a state, and how long it is; a longer one than a link may have is for a file.
  async function written(state) {
    const text = new TextEncoder().encode(JSON.stringify(state));
    const fragment = HEADS[1] + base64url(await through(new CompressionStream('deflate-raw'), text, MOST_TEXT));
    return { fragment, is_short: fragment.length <= MOST_LINK };
  }

  // The file of a state.
  const saved = (state) => `${JSON.stringify({ kind: KIND, version: VERSION, ...state }, null, 1)}\n`;

  // A field of a state, if it is a text.
  function textIn(state, name, field = name) {
    if (typeof state[name] !== 'string') throw Error(`its field ${field} is no text`);
    return state[name];
  }

  // Fields of a load or of a question: each is a text, and a missing one is as the page has it at first.
  function fieldsOf(state, name, names) {
    const fields = state[name];
    if (fields === undefined) return {};
    if (!isRecord(fields)) throw Error(`its field ${name} is no record`);
    return Object.fromEntries(names.filter((own) => Object.hasOwn(fields, own)).map((own) => [own, textIn(fields, own, `${name}.${own}`)]));
  }
  function askOf(state) {
    const ask = fieldsOf(state, 'ask', ASK);
    if (!KINDS.includes(ask.kind ?? '')) throw Error('its field ask.kind is no kind of command');
    return ask;
  }

  // The files that the node's file names, each a name and bytes.
  function filesOf(files) {
    if (files === undefined) return [];
    if (!isRecord(files)) throw Error('its field files is no record');
    return Object.entries(files).map(([name, text]) => {
      if (OWN.includes(name)) throw Error(`its field files has the name ${JSON.stringify(name)}, which is none of a file beside a node's file`);
      if (typeof text !== 'string' || !/^[A-Za-z0-9+/]*={0,2}$/.test(text) || text.length % 4) throw Error(`its field files.${name} is not base64`);
      return [name, bytesOf(text)];
    });
  }

  // The state of a text, field by field. The first field that is wrong is the error.
  function checked(text, is_old) {
    let state;
    try { state = JSON.parse(text); } catch (fault) { throw Error('it is no JSON'); }
    if (!isRecord(state)) throw Error('it has no tables');
    const texts = Object.fromEntries(TEXTS.map((name) => [name, textIn(state, name)]));
    if (typeof state.both !== 'boolean') throw Error('its field both is neither true nor false');
    if (is_old) return { ...texts, both: state.both, node: '', load: {}, ask: {}, files: [] };
    const node = state.node === undefined ? '' : textIn(state, 'node');
    return { ...texts, both: state.both, node, load: fieldsOf(state, 'load', LOAD), ask: askOf(state), files: filesOf(state.files) };
  }

  // The state of a fragment; null if there is none. Anything that is no review is an error.
  async function read(fragment) {
    if (fragment === '' || fragment === '#') return null;
    const head = HEADS.find((own) => fragment.startsWith(own));
    if (!head) throw Error('it does not begin as one');
    if (fragment.length > MOST) throw Error('it is too long');
    const text = fragment.slice(head.length);
    if (!/^[A-Za-z0-9_-]*$/.test(text)) throw Error('it is not base64url');
    const inflated = await through(new DecompressionStream('deflate-raw'), bytesOf(text), MOST_TEXT);
    return checked(new TextDecoder('utf-8', { fatal: true, ignoreBOM: true }).decode(inflated), head === HEADS[0]);
  }

  // The state of a saved file.
  function opened(bytes) {
    if (bytes.length > MOST_TEXT) throw Error('it is too long');
    let text;
    try { text = new TextDecoder('utf-8', { fatal: true }).decode(bytes); } catch (fault) { throw Error('it is no text'); }
    let state;
    try { state = JSON.parse(text); } catch (fault) { throw Error('it is no JSON'); }
    if (!isRecord(state) || state.kind !== KIND) throw Error(`its field kind is not "${KIND}"`);
    if (state.version !== VERSION) throw Error(`its field version is not ${VERSION}`);
    return checked(text, false);
  }
  return { written, read, saved, opened, base64, MOST_LINK };
})();
