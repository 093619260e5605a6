'use strict';

// Runs the examples of a page, each on its own: node examples.js PAGE

const fs = require('node:fs');
const { createRequire } = require('node:module');
const path = require('node:path');

const AsyncFunction = (async () => {}).constructor;
const page = fs.readFileSync(process.argv[2], 'utf8');
const examples = [...page.matchAll(/^```js\n(.*?)^```$/gms)].map((it) => it[1]);
const load = createRequire(path.join(process.cwd(), 'example.js'));

async function run() {
  if (examples.length === 0) throw new Error(`${process.argv[2]} has no examples`);
  for (const example of examples) {
    try {
      await new AsyncFunction('require', `'use strict';\n${example}`)(load);
    } catch (error) {
      error.message = `${error.message}, in\n${example}`;
      throw error;
    }
  }
  console.log(`${examples.length} examples of ${path.basename(process.argv[2])}`);
}

run();
