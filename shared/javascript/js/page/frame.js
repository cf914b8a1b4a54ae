'use strict';
// In the sandboxed frame of the page: starts a worker, gives it the port that leads to the page, and says by the other port that it is
// there. `worker` is the text of the worker. Where the frame has an origin it starts none.

let made = null;

addEventListener('message', ({ source, ports: [port, life] }) => {
  if (source !== parent || self.origin !== 'null' || !life || made !== null) return;
  made = new Worker(URL.createObjectURL(new Blob([worker], { type: 'text/javascript' })));
  made.onerror = ({ message }) => life.postMessage({ failed: String(message) });
  made.postMessage(null, [port]);
  life.onmessage = () => life.postMessage({ failed: null });
});
