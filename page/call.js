// The one part that calls the module, in a worker. No proof sees it, so it is trusted: where it puts the bytes of the words and of the files, and where it reads
// the answer. A slice crosses as an address and a length, both BigInts; a `Global` as nothing; `Files` and `Lengths` as the address of their numbers of 8 bytes.
const ROOM = 64 << 20; // bytes that the texts of a run may have
const FILES = 4;
const MEMORY = 8 * 2 ** 30; // bytes that the module's memory may have

function callOf(instance) {
  const {memory, page_limit, page_take, page_give, page_run} = instance.exports;
  const encoder = new TextEncoder();
  // The buffer anew each time: it is another one when the memory has grown.
  const bytesAt = (at, length) => new Uint8Array(memory.buffer, Number(at), length);
  const numbersAt = (at, count) => new BigUint64Array(memory.buffer, Number(at), count);

  return (words, files, limit) => {
    page_limit(BigInt(limit || MEMORY));
    const taken = [];
    const take = length => {
      const at = page_take(BigInt(Math.max(length, 1)));
      if (!at) throw Error('memory ran out');
      taken.push(at);
      return at;
    };
    const put = data => {
      const at = take(data.length);
      bytesAt(at, data.length).set(data);
      return [at, BigInt(data.length)];
    };
    if (words.some(word => word.includes('\n'))) throw Error('a word has a line end in it');
    const given = put(encoder.encode(words.join('\n')));
    const slices = Array.from({length: FILES}, (_, i) => put(files[i] || new Uint8Array(0))).flat();
    const table = take(8 * slices.length), lengths = take(16), room = take(ROOM);
    numbersAt(table, slices.length).set(slices);
    const status = page_run(...given, table, room, BigInt(ROOM), lengths) & 255;
    const [text, told] = Array.from(numbersAt(lengths, 2), Number);
    const answer = {status, text: bytesAt(room, text).slice(), told: bytesAt(room + BigInt(text), told).slice(), memory: memory.buffer.byteLength};
    taken.forEach(at => page_give(at));
    return answer;
  };
}
