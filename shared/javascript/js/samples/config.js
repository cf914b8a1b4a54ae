// A configuration is written once, and a version says that it is there; the reader takes it by bytes.
const sab = new SharedArrayBuffer(8);
const view = new DataView(sab);
const version = new Int32Array(sab, 4, 1);
agents({
  writer() { view.setUint16(0, 0x1234); view.setInt8(2, -5); Atomics.add(version, 0, 1); },
  reader() { return Atomics.load(version, 0) === 1 ? [view.getUint8(0), view.getUint8(1), view.getInt8(2)].join('/') : 'none'; },
});
// check: reader === 'none' || reader === '18/52/-5'
