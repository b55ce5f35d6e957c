// The page: editors, calls, and how answers are shown.
'use strict';

const DEFAULT_BASE = 'http://localhost/';
/** How many answers are shown at first, and how many more each time. */
const SHOWN = 500;

const VERDICTS = {
  0: 'Every answer is the one that the map asks for.',
  1: 'Some answer is not the one that the map asks for.',
  2: 'The inputs beside the texts (names, bases, budget) are refused.',
  3: 'A text is refused.',
  4: 'Some association has no answer: it depends on a pair that is wider than the budget.',
  5: 'A document is missing.',
  6: 'The proof is not accepted.',
  7: 'Nothing could be printed.',
  8: 'Memory ran out.',
  9: 'A name has a character that is none.',
  10: 'Two documents have one name.',
};
const CHECKED = 'The proof is accepted: every claim in it is true of the schema and the data.';

/** The element of that id. @returns {any} */
const byId = (id) => document.getElementById(id);

// ---- the worker

let worker = null;
let waiting = new Map();
let calls = 0;

function startWorker() {
  worker?.terminate();
  for (const done of waiting.values()) done({ trap: 'stopped' });
  waiting = new Map();
  worker = new Worker('worker.js');
  worker.onmessage = ({ data: { id, answer, trap } }) => {
    waiting.get(id)?.(answer ?? { trap });
    waiting.delete(id);
  };
  worker.onerror = (event) => {
    for (const done of waiting.values()) done({ trap: event.message || 'the module could not be loaded' });
    waiting = new Map();
  };
}

/** Answers a call, or tells why the module ended: `{ trap }`. */
function ask(call) {
  calls += 1;
  const id = calls;
  return new Promise((done) => {
    waiting.set(id, done);
    worker.postMessage({ id, call });
  });
}

// ---- editors

/** An editor: a text area over a copy of its text in which a place can be marked. */
class Editor {
  constructor(element) {
    this.element = element;
    this.area = element.querySelector('textarea');
    this.copy = element.querySelector('pre');
    this.fault = element.querySelector('.fault');
    this.area.addEventListener('scroll', () => { this.copy.scrollTop = this.area.scrollTop; this.copy.scrollLeft = this.area.scrollLeft; });
    this.area.addEventListener('input', () => { this.unmark(); inputsChanged(); });
    this.syntax?.addEventListener('change', inputsChanged);
  }

  get role() { return this.element.dataset.role; }
  get syntax() { return this.element.querySelector('.syntax'); }
  get base() { return this.element.querySelector('.base')?.value.trim() ?? ''; }
  get name() { return this.role + (this.syntax?.value ?? ''); }
  get text() { return this.area.value; }
  set text(text) { this.area.value = text; this.unmark(); }

  unmark() {
    this.copy.textContent = '';
    this.fault.hidden = true;
  }

  /** Marks the text from one place to another, and brings it into view. */
  mark(start, end) {
    const mark = document.createElement('mark');
    mark.textContent = this.text.slice(start, end) || ' ';
    // A copy that ends with a line feed more scrolls as far as the area does.
    this.copy.replaceChildren(this.text.slice(0, start), mark, `${this.text.slice(end)}\n `);
    this.area.scrollTop = Math.max(0, mark.offsetTop - this.area.clientHeight / 3);
    this.area.scrollLeft = Math.max(0, mark.offsetLeft - this.area.clientWidth / 2);
    this.copy.scrollTop = this.area.scrollTop;
    this.copy.scrollLeft = this.area.scrollLeft;
  }

  /** Puts the cursor there and marks the place. */
  goTo(start, end) {
    this.area.focus();
    this.area.setSelectionRange(start, start);
    this.mark(start, end);
    this.element.scrollIntoView({ block: 'nearest' });
  }

  /** The place of a byte of the text in UTF-8, with its line and column from 1. */
  placeOf(byte) {
    const before = new TextDecoder().decode(new TextEncoder().encode(this.text).subarray(0, byte));
    const lines = before.split(/\r\n|\n|\r/);
    return { at: before.length, line: lines.length, column: [...lines.at(-1)].length + 1 };
  }

  /** Says what is wrong, and marks what stands at the byte. */
  refuse(cause, byte) {
    const { at, line, column } = this.placeOf(byte);
    const token = /^\S+/.exec(this.text.slice(at))?.[0] ?? this.text.slice(at, at + 1);
    this.fault.textContent = `Line ${line}, column ${column}: ${cause}`;
    this.fault.hidden = false;
    this.mark(at, at + token.length);
    this.area.setSelectionRange(at, at);
  }
}

/** All editors, by what their text is. */
const editors = new Map();

function addEditor(element) {
  const editor = new Editor(element);
  editors.set(editor.role, editor);
  return editor;
}

/** Adds the editor of an imported document. */
function addImport({ iri = '', text = '', syntax = '.shex' } = {}) {
  const number = document.querySelectorAll('#imports .editor').length + 1;
  const element = document.querySelector('.editor[data-role=schema]').cloneNode(true);
  element.dataset.role = `import${number}`;
  element.classList.add('low');
  const title = element.querySelector('h3');
  title.id = `import${number}-title`;
  title.textContent = `Imported document ${number}`;
  element.querySelector('textarea').setAttribute('aria-labelledby', title.id);
  element.querySelector('button').remove();
  const name = element.querySelector('.base');
  name.className = 'iri';
  name.placeholder = 'the IRI by which it is imported';
  name.previousElementSibling.textContent = `IRI of imported document ${number}`;
  name.value = iri;
  byId('imports').append(element);
  const editor = addEditor(element);
  editor.syntax.value = syntax;
  editor.text = text;
}

function removeImports() {
  byId('imports').replaceChildren();
  for (const role of [...editors.keys()]) if (role.startsWith('import')) editors.delete(role);
}

// ---- inputs, as one value

/** All inputs of the page, as an example and a link hold them. */
function inputs() {
  const one = (role) => editors.get(role);
  return {
    schema: { text: one('schema').text, syntax: one('schema').syntax.value, base: one('schema').base },
    data: { text: one('data').text, syntax: one('data').syntax.value, base: one('data').base },
    map: { text: one('map').text },
    imports: [...editors.values()].filter((editor) => editor.role.startsWith('import'))
      .map((editor) => ({ iri: editor.element.querySelector('.iri').value, text: editor.text, syntax: editor.syntax.value })),
    budget: byId('budget').value,
  };
}

function setInputs({ schema, data, map, imports = [], budget = '' }) {
  removeImports();
  for (const [role, value] of Object.entries({ schema, data, map })) {
    const editor = editors.get(role);
    editor.text = value.text;
    if (value.syntax) editor.syntax.value = value.syntax;
    if (editor.element.querySelector('.base')) editor.element.querySelector('.base').value = value.base ?? '';
  }
  imports.forEach(addImport);
  byId('budget').value = budget;
  setProof(new Uint8Array());
  inputsChanged();
}

/** What answers say is of the inputs as they were: a proof stays, and is told to be of other files when it is checked. */
function inputsChanged() {
  byId('cost').textContent = '';
}

/** The words of a command over the inputs, and the files that it reads. */
function callOf(program, command, more = []) {
  const budget = byId('budget').value.trim();
  const words = [command, '--schema', editors.get('schema').name];
  if (command !== 'convert') words.push('--data', editors.get('data').name);
  if (command === 'validate' || command === 'explain') words.push('--map', editors.get('map').name);
  if (budget && command !== 'check' && command !== 'convert') words.push('--budget', budget);
  if (editors.get('schema').base) words.push('--schema-base', editors.get('schema').base);
  if (editors.get('data').base && command !== 'convert') words.push('--data-base', editors.get('data').base);
  words.push(...more);
  const imported = [...editors.values()].filter((editor) => editor.role.startsWith('import'));
  if (command !== 'convert') words.push(...imported.map((editor) => `${editor.element.querySelector('.iri').value}=${editor.name}`));
  return { program, words, files: [...editors.values()].map((editor) => [editor.name, editor.text]), wanted: 'proof' };
}

// ---- a link that holds the inputs

async function throughStream(bytes, stream) {
  return new Uint8Array(await new Response(new Blob([bytes]).stream().pipeThrough(stream)).arrayBuffer());
}

async function fragmentOf(value) {
  const packed = await throughStream(new TextEncoder().encode(JSON.stringify(value)), new CompressionStream('deflate-raw'));
  let text = '';
  for (const byte of packed) text += String.fromCharCode(byte);
  return `#inputs=${btoa(text).replace(/\+/g, '-').replace(/\//g, '_').replace(/=+$/, '')}`;
}

async function inputsOf(fragment) {
  const match = /^#inputs=([\w-]+)$/.exec(fragment);
  if (!match) return null;
  const packed = Uint8Array.from(atob(match[1].replace(/-/g, '+').replace(/_/g, '/')), (c) => c.charCodeAt(0));
  return JSON.parse(new TextDecoder().decode(await throughStream(packed, new DecompressionStream('deflate-raw'))));
}

// ---- answers

/** What was answered last: each with its node, its shape, and `yes`, `no` or `open`. */
let answers = [];
/** The reasons for answers, by node and shape, or null where they were not asked for. */
let reasons = null;
let shown = SHOWN;

/** The answers of a result map, one a line. */
function answersOf(text) {
  return text.split('\n').flatMap((line) => {
    const match = /^(.*)@(!?)(<[^<>]*>|_:[^\s,]+|START),?$/.exec(line);
    return match ? [{ node: match[1], shape: match[3], answer: match[2] ? 'no' : 'yes' }] : [];
  });
}

/** The pairs that are too wide, as the error stream names them. */
function widePairsOf(text) {
  return text.split('\n').flatMap((line) => {
    const match = /^wide (.*) #(\d+) width (\d+) budget (\d+)$/.exec(line);
    return match ? [{ node: match[1], shape: `shape ${match[2]}`, answer: 'open', told: `width ${match[3]}, budget ${match[4]}` }] : [];
  });
}

const WORDS = { yes: 'conformant', no: 'nonconformant', open: 'no answer' };

function cell(row, text) {
  const made = row.insertCell();
  made.textContent = text;
  return made;
}

/** A button in the text of a reason. */
function inReason(text, title, act) {
  const button = document.createElement('button');
  button.type = 'button';
  button.textContent = text;
  button.title = title;
  button.onclick = act;
  return button;
}

/** Goes to a triple in the data. */
function goToTriple(triple) {
  const data = editors.get('data');
  const place = placeOfTriple(data.text, data.base || DEFAULT_BASE, triple);
  if (place) data.goTo(...place);
}

/** Opens the reason in which the block of this number stands, and goes to its row. */
function goToBlock(number) {
  const found = [...reasons].find(([, reason]) => reason.split('\n').some((line) => line.startsWith(`[${number}] `)));
  const row = found && [...byId('rows').rows].find(({ cells }) => cells.length === 3 && `${cells[0].textContent}@${cells[1].textContent}` === found[0]);
  const button = row?.querySelector('button');
  if (!button) return;
  if (button.getAttribute('aria-expanded') === 'false') button.click();
  button.focus();
  row.scrollIntoView({ block: 'nearest' });
}

/** A line of a reason: a triple in it is a button that goes to it in the data, and the number of a block one that goes to that. */
function reasonLine(line) {
  const triple = /^(.*?)((?:<[^<>]*>|_:\S+) <[^<>]*> (?:<[^<>]*>|_:\S+|"(?:[^"\\]|\\.)*"\S*) \.)(.*)$/.exec(line);
  if (triple) return [triple[1], inReason(triple[2], 'Go to this triple in the data', () => goToTriple(triple[2])), `${triple[3]}\n`];
  const block = /^(.*see )(\[(\d+)\])$/.exec(line);
  if (block) return [block[1], inReason(block[2], 'Go to what is said there', () => goToBlock(block[3])), '\n'];
  return [`${line}\n`];
}

/** The button that opens and closes the reasons for an answer, below its row. */
function reasonButton(row, reason) {
  const button = document.createElement('button');
  button.type = 'button';
  button.textContent = 'why?';
  button.setAttribute('aria-expanded', 'false');
  button.onclick = () => {
    const open = button.getAttribute('aria-expanded') === 'true';
    button.setAttribute('aria-expanded', String(!open));
    if (open) { row.nextElementSibling.remove(); return; }
    const below = document.createElement('tr');
    below.className = 'why';
    const text = document.createElement('pre');
    text.className = 'reason';
    text.append(...reason.split('\n').flatMap(reasonLine));
    const wide = below.insertCell();
    wide.colSpan = 3;
    wide.append(text);
    row.after(below);
  };
  return button;
}

function showAnswers() {
  const choice = document.querySelector('input[name=shown]:checked').value;
  const chosen = answers.filter(({ answer }) => choice === 'all' || answer === choice);
  const rows = byId('rows');
  rows.replaceChildren();
  for (const { node, shape, answer, told } of chosen.slice(0, shown)) {
    const row = rows.insertRow();
    row.className = answer;
    cell(row, node);
    cell(row, shape);
    const last = cell(row, told ? `${WORDS[answer]}: ${told} ` : `${WORDS[answer]} `);
    const reason = reasons?.get(`${node}@${shape}`);
    if (reason) last.append(reasonButton(row, reason));
  }
  byId('more').hidden = chosen.length <= shown;
  byId('more').textContent = `Show more (${chosen.length - shown} left)`;
  byId('choices').hidden = !answers.length;
  const count = (kind) => answers.filter(({ answer }) => answer === kind).length;
  byId('count-all').textContent = `(${answers.length})`;
  byId('count-no').textContent = `(${count('no')})`;
  byId('count-open').textContent = `(${count('open')})`;
}

/** Shows lines of the error stream; one that names a place of a text marks it there. */
function showSaid(program, text) {
  const others = [];
  for (const line of text.split('\n').filter(Boolean)) {
    const match = /^\w+: (\S+): (\w+)\((\d+)\)$/.exec(line);
    const editor = match && [...editors.values()].find(({ name }) => name === match[1]);
    if (editor) editor.refuse(`${match[2]} (byte ${match[3]})`, Number(match[3]));
    if (!line.startsWith('wide ')) others.push(line.replace(`${program}: `, ''));
  }
  byId('said').textContent = others.join('\n');
  byId('said').hidden = !others.length;
}

function clear() {
  for (const editor of editors.values()) editor.unmark();
  answers = [];
  reasons = null;
  shown = SHOWN;
  byId('said').hidden = true;
  byId('cost').textContent = '';
}

/** Runs one call with the buttons as they are while something runs. Gives null where it was stopped or the module ended. */
async function running(call) {
  byId('verdict').textContent = 'Running …';
  byId('stop').disabled = false;
  for (const id of ['validate', 'check', 'convert']) byId(id).disabled = true;
  const answer = await ask(call);
  byId('stop').disabled = true;
  for (const id of ['validate', 'convert']) byId(id).disabled = false;
  byId('check').disabled = !proof.length;
  if (answer.trap === undefined) return answer;
  byId('verdict').textContent = answer.trap === 'stopped' ? 'Stopped.' : 'The module ended.';
  byId('said').textContent = answer.trap === 'stopped' ? '' : answer.trap;
  byId('said').hidden = answer.trap === 'stopped';
  return null;
}

function showOutcome(program, answer, verdict) {
  byId('verdict').textContent = verdict;
  byId('cost').textContent = `Status ${answer.status}, ${answer.milliseconds.toFixed(0)} ms, ${(answer.memory / 1048576).toFixed(0)} MiB.`;
  showSaid(program, answer.err);
  showAnswers();
}

async function validate() {
  clear();
  const answer = await running(callOf('shex', 'validate', ['--proof', 'proof']));
  if (!answer) { showAnswers(); return; }
  answers = [...answersOf(answer.out), ...widePairsOf(answer.err)];
  setProof(answer.file);
  if (answer.status === 1 || answer.status === 4) reasons = await reasonsOf();
  showOutcome('shex', answer, VERDICTS[answer.status]);
}

/** The reasons for nonconformant answers, by `shextool explain`; null where there are none. */
async function reasonsOf() {
  const told = await ask(callOf('shextool', 'explain', ['--json']));
  if (told.trap !== undefined || ![1, 4].includes(told.status)) return null;
  return new Map(JSON.parse(told.out).filter(({ reason }) => reason).map(({ node, shape, reason }) => [`${node}@${shape}`, reason]));
}

async function check() {
  clear();
  const call = callOf('shex', 'check', ['--proof', 'proof']);
  call.files.push(['proof', proof]);
  call.wanted = '';
  const answer = await running(call);
  if (!answer) { showAnswers(); return; }
  answers = answersOf(answer.out);
  showOutcome('shex', answer, answer.status === 0 ? CHECKED : VERDICTS[answer.status]);
}

async function convert() {
  clear();
  const answer = await running(callOf('shextool', 'convert'));
  if (!answer) { showAnswers(); return; }
  showOutcome('shextool', answer, answer.status === 0 ? 'The schema stands in ShExJ now.' : VERDICTS[answer.status]);
  if (answer.status !== 0) return;
  editors.get('schema').text = `${JSON.stringify(JSON.parse(answer.out), null, 2)}\n`;
  editors.get('schema').syntax.value = '.json';
}

// ---- the proof

let proof = new Uint8Array();

function setProof(bytes) {
  proof = bytes;
  byId('proof-size').textContent = bytes.length ? `${bytes.length.toLocaleString('en')} bytes` : 'none yet';
  byId('check').disabled = !bytes.length;
  byId('proof-view').hidden = !bytes.length;
  byId('proof-text').textContent = new TextDecoder().decode(bytes.subarray(0, 20000));
  const link = byId('download');
  if (link.href) URL.revokeObjectURL(link.href);
  link.hidden = !bytes.length;
  if (bytes.length) link.href = URL.createObjectURL(new Blob([bytes])); else link.removeAttribute('href');
}

// ---- the start

async function copyLink() {
  history.replaceState(null, '', await fragmentOf(inputs()));
  let told = 'The link stands in the address line.';
  try {
    await navigator.clipboard.writeText(location.href);
    told = 'The link is copied, and stands in the address line.';
  } catch { /* A browser may forbid it. */ }
  byId('verdict').textContent = told;
}

function wire() {
  byId('validate').onclick = validate;
  byId('check').onclick = check;
  byId('convert').onclick = convert;
  byId('stop').onclick = startWorker;
  byId('add-import').onclick = () => addImport();
  byId('copy-link').onclick = copyLink;
  byId('more').onclick = () => { shown += SHOWN; showAnswers(); };
  byId('open').onchange = async () => { setProof(new Uint8Array(await byId('open').files[0].arrayBuffer())); byId('open').value = ''; };
  for (const choice of document.querySelectorAll('input[name=shown]')) choice.onchange = () => { shown = SHOWN; showAnswers(); };
  document.addEventListener('keydown', (event) => {
    if (event.key === 'Enter' && (event.ctrlKey || event.metaKey) && !byId('validate').disabled) validate();
    if (event.key === 'Escape' && !byId('stop').disabled) startWorker();
  });
}

async function begin() {
  document.querySelectorAll('.editor').forEach(addEditor);
  wire();
  startWorker();
  const examples = await (await fetch('examples.json')).json();
  for (const { name } of examples) byId('example').add(new Option(name, name));
  byId('example').onchange = () => setInputs(examples.find(({ name }) => name === byId('example').value));
  setInputs(await inputsOf(location.hash) ?? examples[0]);
  window.addEventListener('hashchange', async () => { const given = await inputsOf(location.hash); if (given) setInputs(given); });
}

const begun = begin();
