// Names that the reader gives, as lines or as an ELF file.

function takeNames(text) {
  names.clear();
  for (const line of text.split('\n')) {
    const m = /^\s*(?:0x)?([0-9a-fA-F]{3,16})\s+(?:[A-Za-z?]\s+)?([^\s]+)\s*$/.exec(line);
    if (m && !m[2].startsWith('$')) names.set(parseInt(m[1], 16), m[2]);
  }
  namesChanged();
}

function namesChanged() {
  fillChoices();
  layOut();
  chooseItem(ui.item, true);
}

// the symbols of an ELF file
function elfNames(bytes) {
  const v = new DataView(bytes), found = [];
  if (v.byteLength < 52 || v.getUint32(0) !== 0x7f454c46) throw new Error('this is no ELF file');
  const text = (at) => {
    let s = '';
    for (; at < v.byteLength && v.getUint8(at); at++) s += String.fromCharCode(v.getUint8(at));
    return s;
  };
  const table = v.getUint32(32, true), size = v.getUint16(46, true), count = v.getUint16(48, true);
  const section = n => ({type: v.getUint32(table + n * size + 4, true),
    at: v.getUint32(table + n * size + 16, true), bytes: v.getUint32(table + n * size + 20, true),
      link: v.getUint32(table + n * size + 24, true)});
  for (let n = 0; n < count; n++) {
    const s = section(n);
    if (s.type !== 2) continue;
    const strings = section(s.link);
    for (let at = s.at; at < s.at + s.bytes; at += 16) {
      const name = text(strings.at + v.getUint32(at, true)), kind = v.getUint8(at + 12) & 15;
      if (name && !name.startsWith('$') && kind < 3 && v.getUint16(at + 14, true) !== 0) {
        found.push(hex(v.getUint32(at + 4, true)) + ' ' + name);
      }
    }
  }
  return found;
}
