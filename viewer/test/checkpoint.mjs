// A checkpoint of `ddm save` as the parts that a film should show: key -> value, but for `copy`. Written from
// docs/formats.md alone.
const HOLD = ['', ' S', ' E'];
const NOTE = ['', ' local', ' upread', ' uperase'];
const KIND = [, 'read', 'data', 'erase', 'exclusive', 'inject'];
const SLOT = ['', 'read', 'erase'];
const STATE = [, 'S', 'E', 'W', 'R', 'B'];
const WHY = ['', 'exit', 'illegal', 'break', 'call', 'badtarget', 'nofetch', 'misaligned', 'noload', 'nostore'];
const hex = n => n.toString(16).padStart(8, '0');

export function partsOf(bytes, levelOf) {
  let at = 0;
  const next = () => { const n = bytes.readUInt32LE(at); at += 4; return n; };
  const parts = new Map();
  if (next() !== 0x434d4444 || next() !== 1) throw new Error('no checkpoint');
  const [leaves, buses, items, width] = [next(), next(), next(), next()];
  next();
  const counts = [next(), next(), next(), next()];
  const words = () => { let text = ''; for (let k = 0; k < width; k++) text += ' ' + hex(next()); return text; };
  const list = one => { let text = ''; for (let n = next(); n > 0; n--) text += ' | ' + one(); return text; };
  for (let h = 0; h < leaves; h++) {
    for (let r = 1; r < 32; r++) { const v = next(); parts.set(`reg ${h} ${r}`, v ? ' ' + hex(v) : ''); }
    parts.set(`pc ${h}`, ' ' + hex(next()));
    next();
    const why = next(), number = next();
    parts.set(`halt ${h}`, why
      ? ' ' + WHY[why] + (why === 3 ? '' : ' ' + (why === 1 || why === 4 ? number : hex(number))) : '');
  }
  for (let b = 0; b < buses; b++) {
    const level = levelOf(b), grants = next(), epoch = [next(), next(), next(), next()];
    parts.set(`time ${b}`, ' ' + [...epoch.slice(0, level), grants].join('.'));
    if (b === 0) for (let x = 0; x < items; x++) parts.set(`dir 0 ${x}`, ' E');
    for (let n = next(); n > 0; n--) {
      const [item, hold, note, child, joined, answering] = [next(), next(), next(), next(), next(), next()];
      let text = (b === 0 ? ' E' : HOLD[hold]) + (note ? NOTE[note] + ' ' + child : '');
      for (let c = 0; c < 16; c++) if (joined >> c & 1) text += ' ' + c;
      parts.set(`dir ${b} ${item}`, text + (answering ? ' answering' : ''));
    }
    parts.set(`down ${b}`, list(() => {
      const kind = next(), item = next(), stamp = [next(), next(), next(), next()].slice(0, level), w = words();
      return `${KIND[kind]} ${item}${stamp.length ? ' ' + stamp.join('.') : ''}${kind === 2 || kind === 5 ? w : ''}`;
    }));
    parts.set(`requests ${b}`, list(() => `${KIND[next()]} ${next()}`));
    parts.set(`replies ${b}`, list(() => next() + words()));
    parts.set(`parked ${b}`, list(() => next() + words()));
    const kept = next();
    parts.set(`kept ${b}`, kept ? ' ' + kept : '');
    for (let k = 0; k < 6; k++) next();
  }
  for (let l = 0; l < leaves; l++) {
    const reserved = next(), slot = next(), item = next();
    parts.set(`reserved ${l}`, reserved ? ' ' + (reserved - 1) : '');
    parts.set(`slot ${l}`, slot ? ` ${SLOT[slot]} ${item}` : '');
    for (let n = next(); n > 0; n--) {
      const x = next(), way = next(), state = next(), w = words();
      parts.set(`entry ${l} ${x}`, ` ${STATE[state]} ${way}${state < 4 ? w : ''}`);
    }
    parts.set(`buffer ${l}`, list(() => {
      const x = next(), state = next(), w = words();
      return `${x} ${STATE[state]}${state < 4 ? w : ''}`;
    }));
    parts.set(`leafreplies ${l}`, list(() => next() + words()));
  }
  return {parts, counts};
}
