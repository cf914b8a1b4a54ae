// Workers as the engines have them: script text that program.js puts behind SCRIPTS, one script for each agent, and MIXES, whether
// the test accesses a byte in several sizes. A host makes a block, starts a worker with each script and the words that call `work`
// with the block, and waits for them. What goes wrong with a worker is said as a line of JSON, as the workers do.

// The words of control that agent.js names.
const WRONG = 3, ENDED = 4;

function onNode(shared) {
  const { Worker } = require('worker_threads');
  const write = (line) => require('fs').writeSync(1, `${line}\n`);
  const fail = (agent, text) => {
    write(JSON.stringify({ wrong: `agent ${agent}: ${text}` }));
    process.exit(1);
  };
  const tail = '\nfunction say(line) { require("fs").writeSync(1, `${line}\\n`); }\nwork(require("worker_threads").workerData);';
  SCRIPTS.forEach((script, agent) => {
    const worker = new Worker(script + tail, { eval: true, workerData: shared });
    worker.on('error', (error) => fail(agent, String(error)));
    worker.on('exit', (status) => {
      if (status !== 0) fail(agent, `its worker ended with status ${status}`);
    });
  });
}

// Waits in the shell's own thread until all agents have ended, or one said that something went wrong.
function waitForAgents(shared, pause) {
  const control = new Int32Array(shared, 0, 16);
  while (Atomics.load(control, ENDED) < SCRIPTS.length && Atomics.load(control, WRONG) === 0) pause(20);
  for (let tries = 0; tries < 50 && Atomics.load(control, ENDED) < SCRIPTS.length; tries += 1) pause(20);
}

function onSpiderMonkey(shared) {
  setSharedArrayBuffer(shared);
  const tail = '\nfunction say(line) { print(line); }\nwork(getSharedArrayBuffer());';
  for (const script of SCRIPTS) evalInWorker(script + tail);
  waitForAgents(shared, (milliseconds) => sleep(milliseconds / 1000));
}

function onAgentHost(shared) {
  const [host, { agent }] = typeof $262 === 'object' && $262.agent ? ['$262', $262] : ['$', $];
  const tail = `\nlet lines = [];\nfunction say(line) { lines.push(line); }
${host}.agent.receiveBroadcast((shared) => {
  work(shared);
  for (const line of lines) ${host}.agent.report(line);
  ${host}.agent.leaving();
});`;
  for (const script of SCRIPTS) agent.start(script + tail);
  agent.broadcast(shared);
  waitForAgents(shared, (milliseconds) => agent.sleep(milliseconds));
  for (let tries = 0, lines = 0; tries < 100 && lines < SCRIPTS.length; tries += 1) {
    for (let line; (line = agent.getReport()) != null; lines += 1) print(line);
    agent.sleep(10);
  }
}

// The shell of V8: a worker's `getMessage` waits for a message, and gives nothing once the worker has ended.
function onD8(shared) {
  const tail = `\nlet lines = [];\nfunction say(line) { lines.push(line); }
onmessage = (message) => { work(message.data === undefined ? message : message.data); postMessage(lines.join('\\n')); };`;
  const workers = SCRIPTS.map((script) => new Worker(script + tail, { type: 'string' }));
  for (const worker of workers) worker.postMessage(shared);
  workers.forEach((worker, agent) => {
    const said = worker.getMessage();
    print(said === undefined ? JSON.stringify({ wrong: `agent ${agent}: its worker told nothing` }) : said);
    worker.terminate();
  });
}

// A page: browser.js serves it, and takes its lines at /said and its end at /ended.
function onPage(shared) {
  const tell = (place, text) => fetch(place, { method: 'POST', body: text });
  const tail = `\nlet lines = [];\nfunction say(line) { lines.push(line); }
onmessage = (message) => { work(message.data); postMessage(lines.join('\\n')); };`;
  const saidBy = (script, agent) => new Promise((done) => {
    const worker = new Worker(URL.createObjectURL(new Blob([script + tail], { type: 'text/javascript' })));
    worker.onmessage = ({ data }) => done(data);
    worker.onerror = ({ message }) => done(JSON.stringify({ wrong: `agent ${agent}: ${message}` }));
    worker.postMessage(shared);
  });
  Promise.all(SCRIPTS.map(saidBy)).then((said) => tell('/said', `${said.join('\n')}\n`)).then(() => tell('/ended', ''));
}

// What is there, or what is wrong with this engine. What is allowed of a test that accesses a byte in several sizes is so where the lowest
// byte comes first.
function findHost() {
  if (MIXES && new Uint8Array(new Uint16Array([1]).buffer)[0] !== 1) {
    return { wrong: 'this engine is big-endian, and the test has accesses of several sizes to one byte' };
  }
  if (typeof process === 'object' && typeof require === 'function') return onNode;
  if (typeof evalInWorker === 'function') return onSpiderMonkey;
  if ((typeof $262 === 'object' && $262.agent) || (typeof $ === 'object' && $.agent)) return onAgentHost;
  if (typeof document === 'object') return onPage;
  return typeof Worker === 'function' ? onD8 : { wrong: 'this engine has no workers that are known here' };
}

const found = findHost();
if (found.wrong === undefined) found(new SharedArrayBuffer(new Function(`${SCRIPTS[0]}\nreturn SHARED_BYTES;`)()));
else (typeof print === 'function' ? print : console.log)(JSON.stringify(found));
