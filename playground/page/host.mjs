// The host of the program: the C functions that its module imports (../imports.txt), over a memory that the browser
// gives. A call runs the program once, with its words and its standard input, in a memory of its own.

const PAGE = 65536;
const MORE_PAGES = 16;
const HEADER = 16;
const SIGNAL_WAS_DEFAULT = 0n;
// what the C library tells of a processor, in a leaf: here that it has each feature
const LEAF_BYTES = 32;
const BAD_DESCRIPTOR = 9;
const NO_SEEKING = 29;
const M64 = (1n << 64n) - 1n;

// Blocks have 2^k or 3*2^(k-1) bytes, so at most a third of one is unused.
const SIZES = [];
for (let size = 32; size < 2 ** 40; size *= 2) SIZES.push(size, size * 1.5);
const classOf = (bytes) => {
  let found = 0;
  while (SIZES[found] < bytes) found++;
  return found;
};
const SMALL = 4096;
const CLASS_OF_SMALL = Uint8Array.from({ length: SMALL / 16 + 1 }, (_, number) => classOf(number * 16));

/** The heap of one run: blocks behind the module's own data, each with its class in front. It refuses to go over `most`
 * bytes of memory, and where the browser gives no more. */
class Heap {
  #memory;
  #most;
  #end;
  #free = SIZES.map(() => []);
  #view;

  constructor(memory, base, most) {
    this.#memory = memory;
    this.#most = most;
    // what a refused call points to, as the kit's own heap does
    this.nowhere = Math.ceil(base / 16) * 16;
    this.#end = this.nowhere + 16;
    this.leaf = this.take(LEAF_BYTES);
  }

  get view() {
    // (a memory that has grown has another buffer)
    if (this.#view?.buffer !== this.#memory.buffer) this.#view = new DataView(this.#memory.buffer);
    return this.#view;
  }

  #grow(end) {
    const have = this.#memory.buffer.byteLength;
    const room = Math.floor((this.#most - have) / PAGE);
    const needed = Math.ceil((end - have) / PAGE);
    if (needed > room) return false;
    // some more, so that a memory of n bytes is grown some log n times
    const more = Math.max(MORE_PAGES, Math.floor(have / PAGE / 4));
    for (const pages of [Math.min(needed + more, room), needed]) {
      try {
        this.#memory.grow(BigInt(pages));
        return true;
      } catch {
        // the browser gives less
      }
    }
    return false;
  }

  /** The place of a new block, or 0. */
  take(bytes) {
    const whole = bytes + HEADER;
    const number = whole <= SMALL ? CLASS_OF_SMALL[(whole + 15) >>> 4] : classOf(whole);
    const size = SIZES[number];
    if (size === undefined) return 0;
    const known = this.#free[number].pop();
    if (known) return known;
    const end = this.#end + size;
    if (end > this.#memory.buffer.byteLength && !this.#grow(end)) return 0;
    const block = this.#end + HEADER;
    this.#end = end;
    this.view.setUint32(block - HEADER, number, true);
    return block;
  }

  give(block) {
    this.#free[this.view.getUint32(block - HEADER, true)].push(block);
  }

  /** How many bytes a block has room for. */
  room(block) {
    return SIZES[this.view.getUint32(block - HEADER, true)] - HEADER;
  }
}

/** Runs the program. Its answer has the status, the bytes of standard output, and how many bytes its memory came to. It
 * throws what WebAssembly throws where a run traps or goes beyond the browser's stack. */
export function call(module, words, input, most) {
  const given = ['lois', ...words].map((word) => new TextEncoder().encode(word));
  const written = [];
  let at = 0;
  let errno = 0;
  let heap;
  const bytes = (place, length) => new Uint8Array(heap.view.buffer, Number(place), Number(length));
  const wide = (low, high) => (low & M64) | ((high & M64) << 64n);
  const answer = (place, low, high) => {
    heap.view.setBigUint64(Number(place), low & M64, true);
    heap.view.setBigUint64(Number(place) + 8, high & M64, true);
  };
  const answerWide = (place, value) => answer(place, value, value >> 64n);
  const answerBlock = (place, block) => answer(place, block ? 1n : 0n, BigInt(block || heap.nowhere));
  const fault = (number) => {
    errno = number;
    return -1n;
  };
  const move = (to, from, length) => {
    new Uint8Array(heap.view.buffer).copyWithin(Number(to), Number(from), Number(from) + Number(length));
    return to;
  };
  const write = (descriptor, from, length) => {
    if (descriptor !== 1) return fault(BAD_DESCRIPTOR);
    written.push(bytes(from, length).slice());
    return length;
  };
  const env = {
    // the proved module asks, before it runs, for what a processor of x86-64-v2 has; what it was retargeted to has it
    __x86_get_cpuid_feature_leaf: () => {
      bytes(heap.leaf, LEAF_BYTES).fill(255);
      return BigInt(heap.leaf);
    },
    __write: write,
    __sysv_signal: () => SIGNAL_WAS_DEFAULT,
    __multi3: (to, low, high, otherLow, otherHigh) => answerWide(to, wide(low, high) * wide(otherLow, otherHigh)),
    __ashlti3: (to, low, high, count) => answerWide(to, wide(low, high) << BigInt(count)),
    __lshrti3: (to, low, high, count) => answerWide(to, wide(low, high) >> BigInt(count)),
    memcpy: move,
    memmove: move,
    memset: (to, byte, length) => {
      bytes(to, length).fill(byte);
      return to;
    },
    rattle_alloc: (to, length) => answerBlock(to, heap.take(Number(length))),
    rattle_realloc: (to, old, kept, length) => {
      if (Number(length) <= heap.room(Number(old))) return answerBlock(to, Number(old));
      const block = heap.take(Number(length));
      if (block) {
        move(block, old, kept);
        heap.give(Number(old));
      }
      return answerBlock(to, block);
    },
    rattle_dealloc: (block) => heap.give(Number(block)),
    rattle_arg: (number, to, length) => {
      const word = given[Number(number)];
      if (!word) return -1n;
      const fits = word.subarray(0, Number(length));
      bytes(to, length).set(fits);
      return fits.length < word.length ? -2n : BigInt(word.length);
    },
    // there is no environment
    rattle_env: () => -1n,
    rattle_env_at: () => -1n,
    rattle_errno: () => errno,
    rattle_set_errno: (number) => {
      errno = number;
    },
    lseek: () => fault(NO_SEEKING),
    read: (descriptor, to, length) => {
      if (descriptor !== 0) return fault(BAD_DESCRIPTOR);
      const part = input.subarray(at, at + Number(length));
      bytes(to, length).set(part);
      at += part.length;
      return BigInt(part.length);
    },
    write,
  };
  const { exports } = new WebAssembly.Instance(module, { env });
  heap = new Heap(exports.memory, Number(exports.__heap_base.value), most);
  const status = exports.main(0, 0n);
  const output = new Uint8Array(written.reduce((sum, part) => sum + part.length, 0));
  let end = 0;
  for (const part of written) {
    output.set(part, end);
    end += part.length;
  }
  return { status, output, memory: exports.memory.buffer.byteLength };
}
