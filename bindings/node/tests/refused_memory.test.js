'use strict'
// Memory that is refused to the addon, which refusing.c stands in for: a RangeError, and no harm.

const assert = require('node:assert/strict')
const path = require('node:path')
const { test } = require('node:test')
const { mysqlParams } = require('./shared_cases.js')

const { FOR_CONNECTION } = require(path.resolve(process.env.MYSQL_PARAMS, 'lib/native.js'))
const { boundWritten } = require(path.resolve(process.env.MYSQL_PARAMS, 'lib/calls.js'))

const { Assignments, Identifier, In, Template, bind, bindAnywhere, bindForm, bindInBothModes, bindRows, firstUnportable,
  names } = mysqlParams

const LONG = 'x'.repeat(1 << 17)
const made = new Template(':a, :B')
// `A` is "it's" in the form.
const NAMED = Buffer.from("\x01A\xfd\x00\x04it's", 'latin1')

const CALLS = {
  bind: () => bind(':a, :b, :a', { a: 1, b: "it's" }),
  'bind of a capital': () => bind(':A, :b', { A: 1, b: 2 }),
  'many names': () => bind(Array.from({ length: 40 }, (_, i) => `:n${i}`).join(), Object.fromEntries(Array.from({ length: 40 },
    (_, i) => [`n${i}`, i]))),
  'long text': () => bind('?', [LONG]),
  'long query': () => bind(`/*${LONG}*/ ?`, [1]),
  'long query of bytes': () => bind(Buffer.from(`/*${LONG}*/ ?`), [1]),
  anywhere: () => bindAnywhere('SELECT :A, :b', { A: 'é', b: LONG }),
  'both modes': () => bindInBothModes('SELECT :A', { A: LONG }),
  fragments: () => bind('IN (?), (?), ?', [[1, 'a', 2n ** 70n], [[1, LONG], [2, 'b']], new Identifier('a', 'b')]),
  columns: () => bind('(:a) :b', { a: [new Identifier('a'), new Identifier('t', 'b')],
    b: new Assignments({ a: LONG, b: 1.5 }) }),
  form: () => bindForm('?', Buffer.from('000600', 'hex')),
  rows: () => bindRows(':a, :B', [{ a: 1, B: 'x' }, { a: LONG, B: null }, { a: 0.5, B: new In([1]) }]),
  template: () => made.bind({ a: 1, B: LONG }),
  'new template': () => new Template('SELECT :a, :B').bind({ a: 1, B: 2 }),
  'for a connection': () => boundWritten(FOR_CONNECTION, ':A, :A', { form: NAMED, isFragments: false }),
  'long for a connection': () => boundWritten(FOR_CONNECTION, `/*${LONG}*/ :A`, { form: NAMED, isFragments: true }),
  'plain for a connection': () => boundWritten(FOR_CONNECTION, '/* é */ :A, :A', { form: NAMED, isFragments: false }),
  names: () => names('SELECT :A, :b').names,
  portable: () => firstUnportable('SELECT :A'),
  refusal: () => {
    try {
      bind(':größe', { gr: 1, [LONG]: 1 })
      return null
    } catch (error) {
      if (error instanceof RangeError) throw error
      return error.message
    }
  }
}

/** A call's answer, or undefined if it is refused memory. */
function tried(call) {
  try {
    return call()
  } catch (error) {
    assert.ok(error instanceof RangeError, error.stack)
    assert.match(error.message, /^(row \d: )?(out of memory|no memory for )/)
    return undefined
  } finally {
    delete process.env.REFUSE_AT
    delete process.env.REFUSE_ABOVE
  }
}

test('each request refused in turn', () => {
  for (const [name, call] of Object.entries(CALLS)) {
    const wanted = call()
    let refused = 0
    for (let at = 1; ; at++) {
      tried(() => names(':a')) // It makes a request, which begins the count anew.
      process.env.REFUSE_AT = String(at)
      const answer = tried(call)
      if (answer === undefined) {
        refused++
        continue
      }
      // A call that does without the memory that it was refused gives its answer.
      assert.deepEqual(answer, wanted, name)
      if (at > 200) break
    }
    assert.ok(refused < 200, name)
    assert.deepEqual(call(), wanted)
  }
})

test('long requests refused', () => {
  let refused = 0
  for (const [name, call] of Object.entries(CALLS)) {
    const wanted = call()
    for (const above of [0, 100, 1000, 65536, 100000]) {
      process.env.REFUSE_ABOVE = String(above)
      const answer = tried(call)
      if (answer === undefined) refused++
      else assert.deepEqual(answer, wanted, name)
    }
  }
  assert.ok(refused > 20)
  for (const name of ['long text', 'long query', 'long query of bytes', 'both modes']) {
    process.env.REFUSE_ABOVE = '100000'
    assert.equal(tried(CALLS[name]), undefined, name)
  }
})
