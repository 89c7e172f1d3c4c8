// Runs a program of WebAssembly in node: `wasi.mjs PROGRAM [FOLDER]`. It can read the folder alone, and gets its path.
import { readFileSync } from "node:fs";
import { WASI } from "node:wasi";

const [program, ...folders] = process.argv.slice(2);
const preopens = Object.fromEntries(folders.map((it) => [it, it]));
const wasi = new WASI({ version: "preview1", args: [program, ...folders], preopens });
const { instance } = await WebAssembly.instantiate(readFileSync(program), wasi.getImportObject());
process.exit(wasi.start(instance));
