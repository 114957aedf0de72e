// The page's own script. What the program puts into the page is the data of treemap.js; with `gzip` the bytes are those of gzip files.

const HEADS = { source: 'Source', folder: 'Folder', package: 'Package' };

const data = dataOf();
const what = HEADS[data.by] ?? HEADS.source;
document.title = `${data.gzip ? 'Gzipped bytes' : 'Bytes'} by ${what.toLowerCase()}`;
element('title').textContent = document.title;
element('what').textContent = what;
showSizes(data);
