// The script in the address, behind `#script=`: its UTF-8, deflated, in base64 with `-` and `_`.

/** The longest that goes into an address; some programs cut longer ones. */
export const LONGEST = 30000;

const through = (bytes, stream) => new Response(new Blob([bytes]).stream().pipeThrough(stream)).arrayBuffer();

export async function write(script) {
  const packed = new Uint8Array(await through(new TextEncoder().encode(script), new CompressionStream('deflate-raw')));
  let text = '';
  for (const byte of packed) text += String.fromCharCode(byte);
  return `script=${btoa(text).replaceAll('+', '-').replaceAll('/', '_').replaceAll('=', '')}`;
}

/** The script of an address, or null where it has none or one that can't be read. */
export async function read(hash) {
  const found = /^#?script=([\w-]+)$/.exec(hash);
  if (!found) return null;
  try {
    const text = atob(found[1].replaceAll('-', '+').replaceAll('_', '/'));
    const packed = Uint8Array.from(text, (letter) => letter.charCodeAt(0));
    return new TextDecoder().decode(await through(packed, new DecompressionStream('deflate-raw')));
  } catch {
    return null;
  }
}
