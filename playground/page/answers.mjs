// What an answer of the program says: its status in words, the place that it names, and its lines.

const FAILED = 'Failed: ';
const COMPLETED = {
  run: 'Completed: the script ran at every choice of its parameters',
  check: 'Well scoped: the text is a script, and this is its printed form',
  equal: 'The two accept the same words',
  within: 'The second one accepts each word of the first',
  word: 'This word is accepted, and no shorter one',
  census: 'The orbits are listed',
};
const WORDS_OF_ALL = {
  1: `${FAILED}at some choice an assertion is false`,
  2: `${FAILED}a value is of the wrong kind`,
  3: `${FAILED}a while isn't done after its turns`,
  4: `${FAILED}a value is deeper than 64`,
  5: 'Refused',
};
const NO = {
  equal: 'The two differ: this word tells them apart',
  within: "The first one accepts this word, and the second doesn't",
  word: 'No word is accepted',
};

/** How an answer looks: good, bad or other. */
export const toneOf = (status) => (status === 0 ? 'good' : status === 10 ? 'other' : 'bad');

/** The status in words. */
export const wordsOf = (command, status) =>
  (status === 0 ? COMPLETED[command] : status === 10 ? NO[command] : WORDS_OF_ALL[status]) ?? `Status ${status}`;

/** The line and the column, counted from 1 and in bytes, and the cause, of a refusal or a failure. */
export function placeOf(text) {
  const found = /^(refused|failed) at (\d+):(\d+): (.*)$/m.exec(text);
  return found && { line: Number(found[2]), column: Number(found[3]), cause: found[4] };
}

/** The choice and the loops of a trace: rows of what is named, and its atom or element. */
export function traceOf(text) {
  if (!text.startsWith('lois results 2\n')) return null;
  const rest = (word) => new RegExp(`^${word}(.*)$`, 'm').exec(text)?.[1].trim() ?? '';
  const parameters = rest('parameters').split(' ').filter(Boolean);
  const choice = rest('choice')
    .split(' ')
    .filter(Boolean)
    .map((atom, number) => ({ name: parameters[number] ?? `$${number}`, value: atom }));
  const loops = [...text.matchAll(/^for (\w+) = (.*)$/gm)].map(([, name, value]) => ({ name, value }));
  return { choice, loops };
}

/** The names of the lines of results, in their order. */
export function namesOf(text) {
  if (!text.startsWith('lois results 1\n')) return [];
  return [...new Set([...text.matchAll(/^(\w+) = /gm)].map(([, name]) => name))];
}

/** A number of bytes in words. */
export function sizeOf(bytes) {
  const [unit, name] = bytes >= 2 ** 30 ? [2 ** 30, 'GiB'] : bytes >= 2 ** 20 ? [2 ** 20, 'MiB'] : [2 ** 10, 'KiB'];
  const size = bytes / unit;
  return `${Number.isInteger(size) || size >= 100 ? size.toFixed(0) : size.toFixed(1)} ${name}`;
}
