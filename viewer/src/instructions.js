// The spelling of instructions: RV32IA in the usual form. What is not of it is shown as a word.

const ABI = ['zero', 'ra', 'sp', 'gp', 'tp', 't0', 't1', 't2', 's0', 's1', 'a0', 'a1', 'a2', 'a3', 'a4', 'a5',
  'a6', 'a7',
  's2', 's3', 's4', 's5', 's6', 's7', 's8', 's9', 's10', 's11', 't3', 't4', 't5', 't6'];

// the word that the image has at this address: the items' words at the start
function codeWord(address) {
  const item = itemAt(film, address);
  if (item < 0 || address % 4) return null;
  const w = startWords(item);
  return w ? parseInt(w[(address - film.items[item].address) / 4], 16) : null;
}

function startWords(item) {
  const copy = startMachine.current(item);
  return copy.words.length ? copy.words : null;
}

// RV32IA in the usual spelling; what isn't of it is shown as a word
function disassemble(word, pc) {
  const x = n => ABI[n];
  const op = word & 127;
  const rd = word >>> 7 & 31;
  const f3 = word >>> 12 & 7;
  const rs1 = word >>> 15 & 31;
  const rs2 = word >>> 20 & 31;
  const f7 = word >>> 25;
  const immI = word >> 20, immS = (word >> 25 << 5) | rd;
  const immB = (word >> 31 << 12) | ((word >>> 7 & 1) << 11) | ((word >>> 25 & 63) << 5) | ((word >>> 8 & 15) << 1);
  const immJ = (word >> 31 << 20) | ((word >>> 12 & 255) << 12) | ((word >>> 20 & 1) << 11)
    | ((word >>> 21 & 1023) << 1);
  const to = offset => addressName((pc + offset) >>> 0);
  const is = (name, ...args) => name + (args.length ? ' ' + args.join(', ') : '');
  const none = '.word 0x' + hex(word >>> 0);
  switch (op) {
    case 0x37: return is('lui', x(rd), '0x' + (word >>> 12).toString(16));
    case 0x17: return is('auipc', x(rd), '0x' + (word >>> 12).toString(16));
    case 0x6f: return rd === 0 ? is('j', to(immJ)) : is('jal', x(rd), to(immJ));
    case 0x67: return f3 !== 0 ? none : word === 0x8067 ? 'ret' : is('jalr', x(rd), immI + '(' + x(rs1) + ')');
    case 0x63: {
      const name = ['beq', 'bne', null, null, 'blt', 'bge', 'bltu', 'bgeu'][f3];
      if (!name) return none;
      return rs2 === 0 && f3 < 2 ? is(name + 'z', x(rs1), to(immB)) : is(name, x(rs1), x(rs2), to(immB));
    }
    case 0x03: { const name = ['lb', 'lh', 'lw', null, 'lbu', 'lhu'][f3]; return name
      ? is(name, x(rd), immI + '(' + x(rs1) + ')') : none; }
    case 0x23: { const name = ['sb', 'sh', 'sw'][f3]; return name ? is(name, x(rs2), immS + '(' + x(rs1) + ')')
      : none; }
    case 0x13: {
      if (f3 === 1) return f7 === 0 ? is('slli', x(rd), x(rs1), rs2) : none;
      if (f3 === 5) {
        return f7 === 0 ? is('srli', x(rd), x(rs1), rs2) : f7 === 32 ? is('srai', x(rd), x(rs1), rs2) : none;
      }
      if (f3 === 0 && rs1 === 0) return word === 0x13 ? 'nop' : is('li', x(rd), immI);
      if (f3 === 0 && immI === 0) return is('mv', x(rd), x(rs1));
      return is(['addi', null, 'slti', 'sltiu', 'xori', null, 'ori', 'andi'][f3], x(rd), x(rs1), immI);
    }
    case 0x33: {
      const name = f7 === 0 ? ['add', 'sll', 'slt', 'sltu', 'xor', 'srl', 'or', 'and'][f3] : f7 === 32
        ? {0: 'sub', 5: 'sra'}[f3] : null;
      return name ? is(name, x(rd), x(rs1), x(rs2)) : none;
    }
    case 0x0f: return f3 === 0 ? 'fence' : none;
    case 0x73: return word === 0x73 ? 'ecall' : word === 0x100073 ? 'ebreak' : none;
    case 0x2f: {
      if (f3 !== 2) return none;
      const f5 = word >>> 27;
      const order = (word >>> 26 & 1 ? '.aq' : '') + (word >>> 25 & 1 ? '.rl' : '');
      const mem = '(' + x(rs1) + ')';
      if (f5 === 2) return rs2 === 0 ? is('lr.w' + order, x(rd), mem) : none;
      const name = {3: 'sc', 0: 'amoadd', 1: 'amoswap', 4: 'amoxor', 8: 'amoor', 12: 'amoand', 16: 'amomin',
        20: 'amomax', 24: 'amominu', 28: 'amomaxu'}[f5];
      return name ? is(name + '.w' + order, x(rd), x(rs2), mem) : none;
    }
    default: return none;
  }
}

function instructionAt(pc) {
  const word = codeWord(pc);
  return word === null ? 'nothing there' : disassemble(word | 0, pc);
}
