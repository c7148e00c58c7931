// ---- a link that holds the program

// A longer address is kept by no browser that we know of.
const MOST_ADDRESS = 60_000;

// Bytes behind a stream that packs or unpacks them.
async function through(bytes, stream) {
  return new Uint8Array(await new Response(new Blob([bytes]).stream().pipeThrough(stream)).arrayBuffer());
}

// Bytes as letters that an address may have, and back.
const lettersOf = bytes => btoa(Array.from(bytes, one => String.fromCharCode(one)).join(''))
  .replace(/\+/g, '-').replace(/\//g, '_').replace(/=+$/, '');
const bytesOfLetters = letters =>
  Uint8Array.from(atob(letters.replace(/-/g, '+').replace(/_/g, '/')), one => one.charCodeAt(0));

// A text as part of a link, deflated and with a sum by which damage is found.
const packedText = async text =>
  lettersOf(await through(new TextEncoder().encode(text), new CompressionStream('deflate')));

// The text of a part of a link, or null where it is damaged.
async function unpackedText(letters) {
  try {
    return new TextDecoder().decode(await through(bytesOfLetters(letters), new DecompressionStream('deflate')));
  } catch {
    return null;
  }
}

// What stands behind the # of a link: the program, the tab, and the words of its form where it has one.
async function linkTo({ text, tab, words }) {
  const parts = new URLSearchParams({ p: await packedText(text), tab });
  if (words.length) parts.set('words', words.join(' '));
  return `#${parts}`;
}

// What a link holds: a program, or none; whether it is damaged; a tab and words, where it has them.
async function heldBy(hash) {
  const parts = new URLSearchParams(hash.slice(1)), packed = parts.get('p');
  const program = packed === null ? null : await unpackedText(packed);
  return { program, damaged: packed !== null && program === null, tab: parts.get('tab'),
    words: parts.get('words')?.split(' ') ?? null };
}
