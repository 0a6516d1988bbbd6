// Runs the program once, beside the page: it is told the module, words, input and limit, and tells the answer, or what
// kept the run from one.
import { call } from './host.mjs';

const kindOf = (fault) => {
  if (/stack|recursion/i.test(fault.message)) return 'stack';
  if (fault instanceof RangeError) return 'memory';
  return fault instanceof WebAssembly.RuntimeError ? 'trap' : 'host';
};

onmessage = ({ data }) => {
  try {
    const answer = call(data.module, data.words, data.input, data.most);
    postMessage(answer, [answer.output.buffer]);
  } catch (fault) {
    postMessage({ fault: kindOf(fault), message: String(fault) });
  }
};
