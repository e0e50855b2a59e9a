// Names of addresses, which the reader of the page gives, and of items.

// names of addresses, which the reader of the page gives: address -> name
const names = new Map();

function nameOf(address) {
  if (names.has(address)) return names.get(address);
  return null;
}

// the name of an item: the names of its addresses, else its number
function itemName(item) {
  const {address} = film.items[item];
  const found = [];
  for (let a = address; a < address + film.sizes.bytes; a++) if (names.has(a)) found.push(names.get(a));
  return found.length ? found.slice(0, 2).join('/') + (found.length > 2 ? '…' : '') : 'item ' + item;
}

function addressName(address) {
  const name = nameOf(address);
  return name ? name : address.toString(16);
}

// a word as a person reads it: small numbers in decimal, others as they are
function shortWord(word) {
  const n = parseInt(word, 16);
  return n < 10000 ? String(n) : n > 0xffffd8f0 ? String(n - 0x100000000) : word;
}
