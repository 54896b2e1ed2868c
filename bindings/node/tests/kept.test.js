'use strict'
// Queries whose places are kept: a call answers as the first of its query did.

const assert = require('node:assert/strict')
const { test } = require('node:test')
const { mysqlParams } = require('./shared_cases.js')

const { Assignments, BindError, Decimal, Identifier, In, Template, bind, bindAnywhere, bindInBothModes } = mysqlParams

/** What a call gives, or what it throws, as one text. */
function told(call) {
  try {
    return call()
  } catch (error) {
    return `${error.name} ${error.message} ${JSON.stringify(error)}`
  }
}

let number = 0

/** The same query, which no call has seen: its places are not kept. */
function unseen(query) {
  return `${query} /* ${number++} */`
}

/** Each of several calls of one query says what a first call of it says. */
function same(query, params, options) {
  for (const call of [bind, bindAnywhere, bindInBothModes]) {
    const first = unseen(query)
    const comment = first.slice(query.length)
    const wanted = told(() => call(first, params, call === bind ? options : undefined))
    for (let i = 0; i < 4; i++) assert.equal(told(() => call(first, params, call === bind ? options : undefined)), wanted)
    if (call !== bind) continue
    const template = new Template(first, options)
    for (let i = 0; i < 2; i++) assert.equal(told(() => template.bind(params)), wanted)
    assert.ok(wanted.includes(comment) || /Error/.test(wanted), wanted)
  }
}

test('values by name in any order, and others', () => {
  const query = 'SELECT :a, :b, :c'
  for (const params of [
    { a: 1, b: 2, c: 3 }, { c: 3, b: 2, a: 1 }, { b: 2, a: 1, c: 3 }, { a: 1, b: 2, c: 3, d: 4 }, { d: 4, c: 3, a: 1, b: 2 },
      { a: 1, b: 2 },
    { a: 1, b: 2, d: 3 }, {}, null, [1, 2, 3], new Map([['c', 3], ['a', 1], ['b', 2]]), Object.assign(Object.create(null),
      { a: 1, c: 3, b: 2 }),
    { a: "it's", b: 'é', c: Buffer.from([255]) }, { a: [1, 'a'], b: [[1], [2]], c: new Identifier('x') },
    { a: new In([1, 'a']), b: new In([[1], [2]]), c: new Identifier('x') }, { a: 0.5,
      b: new Decimal('1.5'), c: 2n ** 70n },
    { a: [new Identifier('x'), new Identifier('t', 'y')], b: new Assignments({ b: 1 }), c: new Assignments([['b', "it's"]]) },
    { a: [new Identifier('x'), 1], b: 1, c: 2 }, { a: 1, b: new Assignments({}), c: [] }, { a: new Assignments({ b: [] }), b: 1,
      c: 2 },
    { a: 1, b: undefined, c: 3 }, { c: {}, b: undefined, a: 1 }, { a: 1, b: 2, c: 3, d: undefined }, { a: [1, undefined], b: 1,
      c: 2 }, { a: NaN, b: 1, c: [] },
    { a: [], b: NaN, c: 1 }, { a: '\ud800', b: 1, c: 1 }, { a: 2 ** 53, b: 1, c: 1 }, 'x', 5, new Date(),
      { a: 'x'.repeat(70000), b: 'y'.repeat(50), c: '' }
  ]) same(query, params)
})

test('queries of all kinds', () => {
  for (const query of [
    'SELECT :a, :a', 'SELECT ?, ?', 'SELECT 1', 'SELECT :a ?', '1:a', ':a1', "':a' :a", '[ :a', '/*! :a */ 1', "'\\' :a ' :b'",
      '"\\" :a', 'é :a', ':größe',
    ':A, :a', ':a:b', '-:a', '/:a*/ 1', '1e+:a', '1.:a', '$:a', 'lbl:LOOP', '\ufffd :a', '-- :b\n:a', '`:b` = :a', ':__proto__',
      ':constructor', ':a IN (:b)', 'VALUES :a', 'COALESCE(:a)'
  ]) {
    for (const params of [{ a: 1 }, { a: 'x', b: 'y' }, { A: 1, a: 2 }, [1], [1, 2], {}, undefined,
      JSON.parse('{"__proto__": 1}'), { constructor: 1 }, { größe: 1 },
      { a: [1, 2] }, { a: [[1, 2]] }, { a: 1, b: [1, 2] }, { b: [1, 2], a: 1 }, { a: new In([1, 2]), b: 'y' }]) {
      same(query, params)
      same(query, params, { noBackslashEscape: true })
    }
  }
})

test('only own properties are values', () => {
  const query = unseen('SELECT :a, :b')
  for (let i = 0; i < 4; i++) {
    assert.equal(bind(query, { a: 1, b: 2 }), query.replace(':a', '1').replace(':b', '2'))
    assert.throws(() => bind(query, Object.create({ a: 1, b: 2 })), { number: 9 })
    assert.throws(() => bind(query, Object.assign(Object.create({ b: 2 }), { a: 1 })), { number: 9, placeName: 'b' })
  }
  // eslint-disable-next-line no-extend-native
  Object.prototype.b = 2
  try {
    for (let i = 0; i < 4; i++) {
      assert.throws(() => bind(query, { a: 1 }), { number: 9, placeName: 'b' })
      assert.throws(() => bind(query, { a: 1, c: 3 }), { number: 9, placeName: 'b' })
      assert.equal(bind(query, { a: 1, b: 3 }), query.replace(':a', '1').replace(':b', '3'))
    }
  } finally {
    delete Object.prototype.b
  }
})

test('getters that bind the same query', () => {
  const query = unseen('SELECT :a, :b')
  const inner = { a: 'inner', b: 2 }
  for (let i = 0; i < 4; i++) {
    const params = { a: 'outer', get b() { return bind(query, inner).length } }
    assert.equal(bind(query, params), query.replace(':a', "'outer'").replace(':b', String(bind(query, inner).length)))
  }
})

test('modes are kept apart', () => {
  const query = unseen("SELECT '\\' :a ' :b '")
  for (let i = 0; i < 4; i++) {
    assert.ok(bind(query, { b: 1 }).includes(':a'))
    assert.throws(() => bind(query, { b: 1 }, { noBackslashEscape: true }), BindError)
    assert.ok(bind(query, { a: 1 }, { noBackslashEscape: true }).includes(':b'))
  }
})

test('many queries', () => {
  for (let round = 0; round < 3; round++) {
    for (let i = 0; i < 1800; i++) {
      const name = `n${Math.floor(i / 3)}`
      assert.equal(bind(`SELECT :${name}`, { [name]: round }), `SELECT ${round}`)
    }
  }
  const long = `SELECT /*${'x'.repeat(5000)}*/ :a`
  for (let i = 0; i < 4; i++) assert.equal(bind(long, { a: i }), long.replace(':a', String(i)))
})
