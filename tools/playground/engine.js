// ---- a call of the program: words and a text in, status and both outputs out

// There is room for as much output.
const MOST_OUT = 64 << 20;

// How much room a line of complaint has.
const LINE_ROOM = 4096;

// The text of bytes, each byte a character.
const textOf = bytes => new TextDecoder('latin1').decode(bytes);

// The library for C: one instance for all calls. Each word is ended by a zero byte; where the room for the output is too
// small, the call is made again with as much as it asks for. Behind a call that fails there is a new instance.
class Library {
  constructor(module) {
    this.module = module;
    this.begin();
  }

  // Makes an instance.
  begin() {
    this.exports = new WebAssembly.Instance(this.module, {}).exports;
    this.room = 1 << 16;
  }

  // A part of the memory, which may move when the program asks for more.
  part(at, length) { return new Uint8Array(this.exports.memory.buffer, Number(at), length); }

  // Room in the memory, which has to be given back.
  take(length) {
    const at = this.exports.take(BigInt(length));
    if (!at) throw new Error('no memory for the text or the output');
    return at;
  }

  // Bytes in the memory, which have to be given back.
  put(bytes) {
    const at = this.take(bytes.length);
    this.part(at, bytes.length).set(bytes);
    return at;
  }

  // Calls an export that takes words and a text. Of output and line there is what fits.
  call(name, words, bytes, lineRoom = LINE_ROOM) {
    const { exports } = this, said = new TextEncoder().encode(words.map(word => `${word}\0`).join(''));
    const lent = [said, bytes].map(one => [this.put(one), one.length]);
    const out = this.take(this.room), line = this.take(lineRoom), lengths = this.take(16);
    const status = exports[name](...lent.flatMap(([at, length]) => [at, BigInt(length)]), out, BigInt(this.room),
      lengths, line, BigInt(lineRoom), lengths + 8n);
    const [length, told] = [...new BigUint64Array(this.part(lengths, 16).slice().buffer)].map(Number);
    const [fits, toldHere] = [Math.min(length, this.room), Math.min(told, lineRoom)];
    const answer = { status, length, told, out: this.part(out, fits).slice(), err: this.part(line, toldHere).slice() };
    for (const at of [...lent.map(([at]) => at), out, line, lengths]) exports.give(at);
    return answer;
  }

  // What a program answers.
  ran(program, words, bytes) {
    const call = [program === 'mir' ? 'mir_call' : 'mir_tables_call', words, bytes];
    try {
      const answer = this.call(...call);
      if (answer.length <= this.room) return answer;
      if (answer.length > MOST_OUT) throw new Error(`more than ${MOST_OUT >> 20} MB of output`);
      this.room = 2 ** Math.ceil(Math.log2(answer.length));
      return this.call(...call);
    } catch (error) {
      this.begin();
      throw error;
    }
  }
}

// A whole program, which asks the page for words, reads and writes: an instance for each call.
class Program {
  constructor(module) { this.module = module; }

  // The functions that it asks for.
  host(words, bytes, memory, outs) {
    const args = ['mir', ...words].map(word => new TextEncoder().encode(word));
    let at = 0, written = 0;
    const part = (from, length) => new Uint8Array(memory().buffer, Number(from), length);
    return {
      read(to, count) {
        const length = Math.min(Number(count), bytes.length - at);
        part(to, length).set(bytes.subarray(at, at + length));
        at += length;
        return BigInt(length);
      },
      write(stream, from, count) {
        written += Number(count);
        if (written > MOST_OUT) return -1n;
        outs[stream].push(part(from, Number(count)).slice());
        return count;
      },
      word(number, to, room) {
        const word = args[Number(number)];
        if (!word) return -1n;
        if (word.length > Number(room)) return -2n;
        part(to, word.length).set(word);
        return BigInt(word.length);
      },
    };
  }

  // What it answers.
  ran(words, bytes) {
    const outs = [[], [], []], page = this.host(words, bytes, () => this.instance.exports.memory, outs);
    this.instance = new WebAssembly.Instance(this.module, { page });
    const status = this.instance.exports.start(), [, out, err] = outs.map(joined);
    return { status, length: out.length, out, err };
  }
}

// The bytes of many pieces.
function joined(pieces) {
  const all = new Uint8Array(pieces.reduce((sum, piece) => sum + piece.length, 0));
  let at = 0;
  for (const piece of pieces) {
    all.set(piece, at);
    at += piece.length;
  }
  return all;
}

// What calls the programs of these modules, by their names: the library, or a module for a program of its own.
function engineOf({ library, ...modules }) {
  const shared = library && new Library(library);
  const programs = Object.fromEntries(Object.entries(modules).map(([name, module]) => [name, new Program(module)]));
  return (name, words, bytes) =>
    programs[name] ? programs[name].ran(words, bytes) : shared.ran(name, words, bytes);
}
