// Runs of the module in workers. A run that is stopped, or that ends with an error, takes its worker with it.
const MEMORY_KEPT = 256 << 20; // a worker whose memory grew past this isn't kept

class Runs {
  constructor(module, workerText) {
    this.module = module;
    this.source = URL.createObjectURL(new Blob([workerText], {type: 'text/javascript'}));
    this.idle = [];
    this.warm();
  }

  // Keeps a worker ready, so that a run needn't wait for one.
  async warm() {
    if (this.idle.length === 0) this.idle.push(await this.worker());
  }

  async worker() {
    const worker = new Worker(this.source);
    worker.postMessage({module: await this.module});
    return worker;
  }

  // Starts a run, with a limit of memory in bytes where one is given. `answer` is a promise of {status, text, told, memory, milliseconds}; `stop` ends it with the
  // error 'stopped'.
  start(words, files, limit) {
    let stop;
    const answer = new Promise((done, fail) => {
      let worker = null, isOver = false;
      const over = error => {
        if (isOver) return;
        isOver = true;
        if (worker) worker.terminate();
        this.warm();
        fail(error);
      };
      stop = () => over(Error('stopped'));
      (async () => {
        const own = this.idle.pop() || await this.worker();
        if (isOver) return void this.idle.push(own);
        worker = own;
        worker.onerror = event => over(Error(event.message || 'the run ended'));
        worker.onmessage = ({data}) => {
          if (isOver) return;
          if (data.error) return over(Error(data.error));
          isOver = true;
          if (data.memory > MEMORY_KEPT || this.idle.length > 1) worker.terminate();
          else this.idle.push(worker);
          this.warm();
          done(data);
        };
        worker.postMessage({words, files, limit});
      })().catch(over);
    });
    return {answer, stop};
  }
}

// The module, unpacked and compiled while it is unpacked.
function moduleOf(packed) {
  const bytes = Uint8Array.from(atob(packed), letter => letter.charCodeAt(0));
  const stream = new Blob([bytes]).stream().pipeThrough(new DecompressionStream('gzip'));
  return WebAssembly.compileStreaming(new Response(stream, {headers: {'Content-Type': 'application/wasm'}}));
}

// Whether this browser has what the module needs: a memory whose addresses have 64 bits, and streams that unpack.
function isAbleToRun() {
  const memoryOf64Bits = new Uint8Array([0, 97, 115, 109, 1, 0, 0, 0, 5, 3, 1, 4, 1]);
  return typeof WebAssembly === 'object' && WebAssembly.validate(memoryOf64Bits) && typeof DecompressionStream === 'function';
}
