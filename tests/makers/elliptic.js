// node-elliptic's getNAF and getJSF. A line in is `getNAF W HEXADECIMAL`, W as elliptic counts, or `getJSF HEXADECIMAL HEXADECIMAL`; a line out the digits,
// place 0 first, of two rows with a bar between them.
'use strict';

const fs = require('fs');
const BN = require('bn.js');
const { getNAF, getJSF } = require('elliptic/lib/elliptic/utils.js');

function answer(line) {
  const [name, first, second] = line.split(' ');
  const k = new BN(second, 16);
  if (name === 'getNAF') return getNAF(k, Number(first), k.bitLength()).join(' ');
  const [a, b] = getJSF(new BN(first, 16), k);
  return a.join(' ') + '|' + b.join(' ');
}

const asked = fs.readFileSync(0, 'latin1').trim().split('\n');
fs.writeFileSync(1, asked.map((line) => answer(line) + '\n').join(''));
