// Traces a position in a map. The folder `wasm` of the package is served as junketscarp/ beside this file, its .wasm as application/wasm.
import { SourceMap, SourceMapError } from './junketscarp/index.mjs';

const element = (id) => document.getElementById(id);

/** What the page shows for a position. */
function answer(text, line, column) {
  try {
    const found = new SourceMap(text).trace(line, column);
    if (found === null) return 'No token answers for this position.';
    const name = found.name === null ? '' : `, ${found.name}`;
    return `${found.source}, line ${found.line}, column ${found.column}${name}`;
  } catch (error) {
    if (!(error instanceof SourceMapError)) throw error;
    return error.message;
  }
}

element('file').addEventListener('change', async () => {
  element('text').value = await element('file').files[0].text();
});

element('question').addEventListener('submit', (event) => {
  event.preventDefault();
  const [line, column] = ['line', 'column'].map((id) => element(id).valueAsNumber);
  element('answer').value = answer(element('text').value, line, column);
});
