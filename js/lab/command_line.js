// Command lines of the scripts. The comment at the head of a script is its help.

import fs from 'node:fs';
import { fileURLToPath } from 'node:url';
import { parseArgs } from 'node:util';

function headOf(script) {
  const lines = fs.readFileSync(fileURLToPath(script), 'utf8').split('\n');
  return lines.slice(0, lines.findIndex(line => !line.startsWith('//'))).map(line => line.replace(/^\/\/ ?/, '')).join('\n');
}

/**
 * Returns the options and the other words of the command line, as `parseArgs` does. With `--help` it prints the head of the script, and
 * ends. If words are wrong, it prints the reason behind the head, and ends with the status 2. Call it before the modules are imported
 * that read `js/dist`.
 */
export function commandLine(script, options, allowPositionals = false) {
  let words;
  try {
    words = parseArgs({ options: { ...options, help: { type: 'boolean', short: 'h', default: false } }, allowPositionals });
  } catch (error) {
    console.error(`${headOf(script)}\n\n${error.message}`);
    process.exit(2);
  }
  if (words.values.help) {
    console.log(headOf(script));
    process.exit(0);
  }
  return words;
}
