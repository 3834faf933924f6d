// A worker: it gets the module once, and then words and files. After an error it is of no use, and the page ends it.
let call;
onmessage = async ({data}) => {
  try {
    if (data.module) {
      call = callOf(await WebAssembly.instantiate(data.module, {}));
      return;
    }
    const began = performance.now();
    const answer = call(data.words, data.files, data.limit);
    postMessage({...answer, milliseconds: performance.now() - began}, [answer.text.buffer, answer.told.buffer]);
  } catch (error) {
    postMessage({error: String(error)});
  }
};
