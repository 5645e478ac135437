// The page's calls of the desk: by workers, or by the page itself where the browser lets it have none. All calls of the module go through `ask`.
const calls = (() => {
  const STARTING = 30000; // milliseconds after which a worker that has not said that it is ready is given up
  const MOST_LANES = Math.min(2, navigator.hardwareConcurrency || 1);
  const lanes = []; // each a worker with the calls that it has not answered yet
  let number = 0, module = null, own = null, starts = 0;

  const finish = (lane, key, reply) => {
    const call = lane.waiting.get(key);
    lane.waiting.delete(key);
    if (call) call.resolve(reply);
  };

  // Waits for the lock that a worker holds as long as it lives: the browser gives it away when the worker has died.
  const watch = (lane, made, lock) => {
    if (lock) navigator.locks.request(lock, () => (made === lane.worker ? replace(lane) : null)).catch(() => null);
  };

  // A worker that has the module, or null where there can be none.
  const started = lane =>
    new Promise(resolve => {
      try {
        const made = new Worker(URL.createObjectURL(new Blob([byId("worker").textContent], { type: "text/javascript" })));
        made.onerror = event => {
          event.preventDefault();
          if (made === lane.worker) replace(lane);
          else resolve(null);
        };
        made.onmessage = ready => {
          made.onmessage = event => {
            const { number, ...reply } = event.data;
            finish(lane, number, reply);
          };
          resolve(made);
          watch(lane, made, ready.data.lock);
        };
        setTimeout(() => resolve(null), STARTING);
        made.postMessage({ module, lock: "seatlaw " + Math.random() });
        starts += 1;
      } catch (error) {
        resolve(null);
      }
    });

  const send = (lane, call) => lane.worker.postMessage({ number: call.number, words: call.words, files: call.files });

  const give = (lane, call) => {
    lane.waiting.set(call.number, call);
    if (lane.worker) send(lane, call);
  };

  // One lane more. Where it can have no worker, its calls go to the first one.
  const addLane = async lane => {
    lanes.push(lane);
    lane.worker = await started(lane);
    if (!lane.worker) lanes.splice(lanes.indexOf(lane), 1);
    for (const call of lane.waiting.values()) {
      if (lane.worker) send(lane, call);
      else give(lanes[0], call);
    }
  };

  // Makes the module ready.
  const start = async () => {
    module = await WebAssembly.compile(await unpacked("module"));
    await addLane({ worker: null, waiting: new Map() });
    if (!lanes.length) own = new Desk(module);
  };

  // Puts another worker in place of one that died, and asks it what is still open; what was asked twice is given up.
  const replace = async lane => {
    lane.worker.terminate();
    lane.worker = null;
    lane.worker = await started(lane);
    if (!lane.worker) own = new Desk(module);
    for (const call of [...lane.waiting.values()]) {
      call.tries += 1;
      if (call.tries > 2) finish(lane, call.number, failed(LOST, "the worker ended twice"));
      else if (own) answerHere(lane, call);
      else send(lane, call);
    }
  };

  const answerHere = (lane, call) => finish(lane, call.number, own.ask(call.words, call.files));

  // The lane for a call: one that has nothing to do, a new one, or the one that has the least to do.
  const laneFor = () => {
    const free = lanes.find(lane => lane.waiting.size === 0);
    if (free || lanes.length >= MOST_LANES) return free || lanes.reduce((one, other) => (other.waiting.size < one.waiting.size ? other : one));
    const lane = { worker: null, waiting: new Map() };
    addLane(lane);
    return lane;
  };

  // Asks in the words of the command line, with the files that they may name, each { name, bytes }: a promise of the reply.
  const ask = (words, files) =>
    new Promise(resolve => {
      number += 1;
      const call = { number, words, files, resolve, tries: 1 };
      const lane = own ? { worker: null, waiting: new Map() } : laneFor();
      give(lane, call);
      if (own) answerHere(lane, call);
    });

  // Ends what is under way: each open call answers that it was cancelled.
  const cancel = async () => {
    const busy = lanes.filter(lane => lane.waiting.size > 0);
    for (const lane of busy) for (const key of [...lane.waiting.keys()]) finish(lane, key, failed(CANCELLED, "cancelled"));
    await Promise.all(busy.filter(lane => lane.worker).map(replace));
  };

  return { start, ask, cancel, hasWorker: () => lanes.length > 0, worker: () => lanes[0].worker, starts: () => starts };
})();

// The bytes of a part of the page's file: they stand there as base64 of what deflate made of them.
const unpacked = async id => {
  const packed = Uint8Array.from(atob(byId(id).textContent), c => c.charCodeAt(0));
  const stream = new Blob([packed]).stream().pipeThrough(new DecompressionStream("deflate"));
  return new Uint8Array(await new Response(stream).arrayBuffer());
};

const decoded = bytes => new TextDecoder("utf-8", { ignoreBOM: true }).decode(bytes);
