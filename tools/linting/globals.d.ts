// What scripts have that no file of theirs declares: Node's, and what a program for an engine is put together of, by
// shared/javascript/program.js.
declare const require: any, module: any, exports: any, process: any, Buffer: any, __dirname: string, __filename: string, global: any;
declare const AGENT: number, AGENTS: number, REGISTERS: number, SETTINGS: any, SCRIPTS: string[], MIXES: boolean;
declare function copy(...given: any[]): void;
// What the agents of jslit-js run on, by shared/javascript/js/run.js.
declare const host: any;
// What the page's frame and its worker are given, by tools/web/modules.js.
declare const worker: string, sources: Record<string, { source: string, places: Record<string, string> }>;
declare function say(...given: any[]): void;
declare const setSharedArrayBuffer: any, getSharedArrayBuffer: any, evalInWorker: any, sleep: any;
