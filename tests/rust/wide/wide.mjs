// Runs the cases of tests/rust/wide.rs in the WebAssembly module that is named, each in an instance of its own; exits by 1 where one fails.
import { readFileSync } from 'node:fs';

const module = new WebAssembly.Module(readFileSync(process.argv[2]));
const fresh = () => new WebAssembly.Instance(module, {}).exports;

const first = fresh();
if (first.bits() !== 32) {
    console.log(`a usize of ${first.bits()} bits`);
    process.exit(1);
}
let failed = 0;
for (let i = 0; i < first.count(); i++) {
    const name = new TextDecoder().decode(new Uint8Array(first.memory.buffer, first.name(i), first.name_length(i)));
    try {
        fresh().run(i);
        console.log(`${name}: passed`);
    } catch (trap) {
        failed += 1;
        console.log(`${name}: FAILED: ${trap.message}`);
    }
}
process.exit(failed === 0 && first.count() > 0 ? 0 : 1);
