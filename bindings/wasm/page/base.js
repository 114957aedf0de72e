// What the scripts of both pages have: elements, and what the program put into the page.

const element = (id) => document.getElementById(id);

/** A new element with a class and a text. */
function made(tag, name, text = '') {
  const it = document.createElement(tag);
  it.className = name;
  it.textContent = text;
  return it;
}

/** The bytes that an element of the page holds as base64. */
function bytesIn(id) {
  const text = atob(element(id).textContent.trim());
  const bytes = new Uint8Array(text.length);
  for (let i = 0; i < text.length; i++) bytes[i] = text.charCodeAt(i);
  return bytes;
}

/** What the program put into the page. */
function dataOf() {
  return JSON.parse(new TextDecoder('utf-8', { ignoreBOM: true, fatal: true }).decode(bytesIn('data')));
}
