// The page: the script and its answer, questions about the answer, and the address. The program runs in a worker.
import * as address from './address.mjs';
import { namesOf, placeOf, sizeOf, toneOf, traceOf, wordsOf } from './answers.mjs';
import { Editor } from './editor.mjs';

const MEMORIES = [2 ** 26, 2 ** 28, 2 ** 30, 2 ** 32];
const FIRST_MEMORY = 2 ** 30;
const FIRST_EXAMPLE = 'cases';
// commands that read results and are told the names of lines, each of one of the programs
const QUESTIONS = [
  { command: 'equal', program: 'lois', names: 2, about: 'Do the automata of two lines accept the same words?' },
  { command: 'within', program: 'lois_ask', names: 2, about: 'Does the second line accept each word of the first?' },
  { command: 'word', program: 'lois_ask', names: 1, about: 'A shortest word that an automaton accepts' },
  { command: 'census', program: 'lois', names: 1, about: 'One member of each orbit of a set' },
];
const PROGRAMS = ['lois', 'lois_ask'];
const SHOWN = 200000;
const WANTS_MEMORY = 8;
// An empty module with a memory of 64-bit addresses.
const WIDE_MEMORY = Uint8Array.of(0, 97, 115, 109, 1, 0, 0, 0, 5, 3, 1, 4, 1);

const element = (id) => document.getElementById(id);
const editor = new Editor(element('script'), element('numbers'), element('marks'), element('ruler'));

let modules = null;
let worker = null;
let running = null;
let answer = '';

// The next run's worker is made before it is wanted; a worker runs the program once, and its memory goes with it.
function prepare() {
  worker = new Worker('worker.mjs', { type: 'module' });
}

function show(where, tone, words, figures, text) {
  element(`${where}status`).dataset.tone = tone;
  element(`${where}status`).textContent = words;
  element(`${where}figures`).textContent = figures;
  element(`${where}text`).hidden = !text;
  element(`${where}text`).textContent = text;
}

function showRunning(on) {
  element('stop').disabled = !on;
  for (const button of document.querySelectorAll('#run, #check, #questions button')) button.disabled = on;
  document.body.dataset.state = on ? 'running' : 'idle';
}

const secondsOf = (milliseconds) => `${(milliseconds / 1000).toFixed(milliseconds < 1000 ? 2 : 1)} s`;

/** Runs a program on a text. Its answer has `status` and `text`, or `stopped`, or `fault`; and the milliseconds. */
function ask(program, words, text, where) {
  const most = Number(element('memory').value);
  const began = performance.now();
  const used = worker;
  show(where, 'none', 'Running', secondsOf(0), '');
  showRunning(true);
  return new Promise((resolve) => {
    const end = (answer) => {
      clearInterval(ticking);
      used.terminate();
      prepare();
      running = null;
      showRunning(false);
      resolve({ ...answer, most, milliseconds: performance.now() - began });
    };
    const ticking = setInterval(() => {
      element(`${where}figures`).textContent = secondsOf(performance.now() - began);
    }, 100);
    running = { stop: () => end({ stopped: true }) };
    used.onmessage = ({ data }) => {
      end(data.output ? { ...data, text: new TextDecoder().decode(data.output) } : data);
    };
    used.onerror = (event) => {
      event.preventDefault();
      end({ fault: 'host', message: event.message ?? 'the worker ended' });
    };
    used.postMessage({ module: modules[program], words, input: new TextEncoder().encode(text), most });
  });
}

const FAULTS = {
  stack: () => 'No answer: the run goes deeper than the browser has stack',
  memory: () => 'Memory ran out: the browser gives no more',
  trap: () => 'No answer: the module stopped at a fault, of itself, of the retarget or of the host',
  host: (message) => `No answer: ${message}`,
};

function showAnswer(where, command, found) {
  const { status, text, stopped, fault, message, most, memory, milliseconds } = found;
  const time = secondsOf(milliseconds);
  if (stopped) {
    show(where, 'bad', 'Stopped: there is no answer', time, '');
  } else if (fault) {
    show(where, 'bad', FAULTS[fault](message), `${time}, ${message}`, '');
  } else if (status === WANTS_MEMORY) {
    const words = `Memory ran out: the run wants more than ${sizeOf(most)}`;
    show(where, 'bad', words, `status 8, ${time}; a larger limit may do`, '');
  } else {
    const shown = text.length > SHOWN ? text.slice(0, SHOWN) : text;
    const figures = `status ${status}, ${time}, ${sizeOf(memory)} of memory`;
    show(where, toneOf(status), wordsOf(command, status), figures, shown);
  }
  // (on a narrow screen the answer is below the script)
  element(`${where}status`).scrollIntoView({ block: 'nearest' });
}

function showWhole() {
  element('cut').hidden = true;
  element('text').textContent = answer;
}

function tableOf(title, rows) {
  const table = document.createElement('table');
  table.createCaption().textContent = title;
  for (const { name, value } of rows) {
    const row = table.insertRow();
    const head = document.createElement('th');
    head.scope = 'row';
    head.textContent = name;
    row.append(head);
    row.insertCell().textContent = value;
  }
  return table;
}

function clear() {
  answer = '';
  editor.unmark();
  for (const id of ['place', 'cut', 'ask', 'asked']) element(id).hidden = true;
}

async function start(command) {
  if (!modules || running) return;
  clear();
  const script = editor.text;
  keepInAddress(script);
  const found = await ask('lois', [command], script, '');
  showAnswer('', command, found);
  answer = found.text ?? '';
  element('cut').hidden = answer.length <= SHOWN;
  element('cut').firstElementChild.textContent = `These are ${SHOWN} of ${answer.length} characters.`;
  if (command === 'run') offerQuestions(namesOf(answer));
  const place = placeOf(answer.slice(0, SHOWN));
  if (!place) return;
  element('place').hidden = false;
  element('cause').textContent = place.cause;
  element('go').textContent = `Line ${place.line}, column ${place.column}`;
  const trace = traceOf(answer);
  const tables = [];
  if (trace?.loops.length) tables.push(tableOf('Elements of the loops', trace.loops));
  if (trace?.choice.length) tables.push(tableOf('A choice of atoms', trace.choice));
  element('trace').replaceChildren(...tables);
  if (editor.text === script) editor.mark(place);
}

function offerQuestions(names) {
  element('ask').hidden = names.length === 0;
  const forms = QUESTIONS.filter((question) => question.names <= names.length).map((question) => {
    const form = document.createElement('form');
    form.id = `ask-${question.command}`;
    const button = document.createElement('button');
    button.textContent = question.command;
    button.title = question.about;
    const selects = Array.from({ length: question.names }, (_, number) => {
      const select = document.createElement('select');
      select.setAttribute('aria-label', `${question.command}: line ${number + 1}`);
      for (const name of names) select.add(new Option(name, name));
      select.selectedIndex = number;
      return select;
    });
    form.append(button, ...selects);
    form.addEventListener('submit', (event) => {
      event.preventDefault();
      askAbout(question, selects);
    });
    return form;
  });
  element('questions').replaceChildren(...forms);
}

async function askAbout({ command, program }, selects) {
  if (running) return;
  element('asked').hidden = false;
  const found = await ask(program, [command, ...selects.map((select) => select.value)], answer, 'asked-');
  showAnswer('asked-', command, found);
}

async function keepInAddress(script) {
  const hash = await address.write(script);
  const known = hash.length <= address.LONGEST;
  history.replaceState(null, '', known ? `#${hash}` : location.pathname + location.search);
  return known;
}

async function share() {
  const told = element('shared');
  if (!(await keepInAddress(editor.text))) {
    told.textContent = 'The script is too long for an address';
    return;
  }
  try {
    await navigator.clipboard.writeText(location.href);
    told.textContent = 'Copied';
  } catch {
    told.textContent = 'The address has the script';
  }
  setTimeout(() => (told.textContent = ''), 4000);
}

async function fetched(path) {
  const response = await fetch(path);
  if (!response.ok) throw new Error(`${path}: ${response.status}`);
  return response;
}

async function listExamples() {
  const list = await (await fetched('examples/list.txt')).text();
  const examples = element('examples');
  examples.add(new Option('Choose one', ''));
  for (const line of list.split('\n').filter(Boolean)) {
    const [name, about] = line.split('\t');
    examples.add(new Option(`${name}: ${about}`, name));
  }
  examples.addEventListener('change', () => examples.value && takeExample(examples.value));
}

function take(script, example) {
  element('examples').value = example;
  running?.stop();
  editor.text = script;
  clear();
  if (modules) sayReady();
}

async function takeExample(name) {
  take(await (await fetched(`examples/${name}.lois`)).text(), name);
  history.replaceState(null, '', location.pathname + location.search);
}

async function takeAddress() {
  const script = await address.read(location.hash);
  if (script !== null) take(script, '');
  return script !== null;
}

function sayReady() {
  show('', 'none', 'Ready: Run writes what the script prints', '', '');
}

function sayWhatIsTrusted({ proved, kit }) {
  element('trusted').textContent = proved
    ? `Proved: that the sources of the program give the answers of the language (by ${kit}).`
    : `This page has an unproved build (by ${kit}). The proved build is made of the same sources.`;
  element('notice').hidden = proved;
  element('notice').textContent =
    'This module is not proved: it was built from the sources of the program without a check of their contracts.';
}

async function load() {
  for (const bytes of MEMORIES) element('memory').add(new Option(sizeOf(bytes), bytes));
  element('memory').value = FIRST_MEMORY;
  await listExamples();
  if (!(await takeAddress())) await takeExample(FIRST_EXAMPLE);
  sayWhatIsTrusted(await (await fetched('build.json')).json());
  if (!WebAssembly.validate(WIDE_MEMORY)) {
    throw new Error('the browser has no WebAssembly memory of 64-bit addresses; Chrome 133 and Firefox 134 have it');
  }
  const compiled = await Promise.all(PROGRAMS.map((name) => WebAssembly.compileStreaming(fetched(`${name}.wasm`))));
  modules = Object.fromEntries(PROGRAMS.map((name, number) => [name, compiled[number]]));
  prepare();
  showRunning(false);
  sayReady();
}

element('run').addEventListener('click', () => start('run'));
element('check').addEventListener('click', () => start('check'));
element('stop').addEventListener('click', () => running?.stop());
element('share').addEventListener('click', share);
element('go').addEventListener('click', () => editor.goToMark());
element('whole').addEventListener('click', showWhole);
element('script').addEventListener('input', () => (element('examples').value = ''));
addEventListener('hashchange', takeAddress);
addEventListener('keydown', (event) => {
  if (event.key === 'Escape') running?.stop();
  if (event.key !== 'Enter' || !(event.ctrlKey || event.metaKey)) return;
  event.preventDefault();
  start(event.shiftKey ? 'check' : 'run');
});
load().catch((fault) => show('', 'bad', `The program can't be loaded: ${fault.message}`, '', ''));
