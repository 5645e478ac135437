// The worker: takes the module once, and then answers calls, one after the other, so that a long count does not block the page. As long as it lives it holds
// a lock of the browser's, where there are such, by which the page knows.
let desk = null;

const hold = lock =>
  new Promise(resolve => {
    const forEver = () => {
      resolve(lock);
      return new Promise(() => null);
    };
    if (navigator.locks) navigator.locks.request(lock, forEver).catch(() => resolve(null));
    else resolve(null);
  });

onmessage = async event => {
  const { module, lock, number, words, files } = event.data;
  if (module) {
    desk = new Desk(module);
    postMessage({ lock: await hold(lock) });
  } else {
    const reply = desk.ask(words, files);
    postMessage({ number, ...reply }, [reply.out.buffer, reply.err.buffer, reply.made.buffer]);
  }
};
