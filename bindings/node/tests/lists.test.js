'use strict'
// Where an array may stand that no In says to be several values, and what an In is.

const assert = require('node:assert/strict')
const { test } = require('node:test')
const { mysqlParams } = require('./shared_cases.js')

const { Assignments, BindError, Decimal, Identifier, In, Template, bind, bindAnywhere, bindInBothModes, bindRows } = mysqlParams

// Each kind of a call that takes more than values, with one parameter.
const CALLS = [
  (query, value) => bind(query, { a: value }),
  (query, value) => bind(query, new Map([['a', value]])),
  (query, value) => bind(query.replace(':a', '?'), [value]),
  (query, value) => bind(query, { a: value }, { noBackslashEscape: true }),
  (query, value) => bind(Buffer.from(query), { a: value }).toString(),
  (query, value) => bindAnywhere(query, { a: value }),
  (query, value) => bindAnywhere(query.replace(':a', '?'), [value]),
  (query, value) => new Template(query).bind({ a: value }),
  (query, value) => bindRows(query, [{ a: value }])[0]
]

/** Each call writes a value as this text; twice, so that the query's places are kept. */
function writes(query, value, text) {
  for (const call of CALLS) for (let i = 0; i < 3; i++) assert.equal(call(query, value), query.replace(':a', text))
}

/** Each call refuses an array in the place of a value. */
function refuses(query, value) {
  for (const call of CALLS) {
    for (let i = 0; i < 3; i++) {
      assert.throws(() => call(query, value), (error) => {
        assert.ok(error instanceof BindError, String(error))
        assert.deepEqual([error.number, error.kind, error.code], [21, 'UNBRACKETED', 'ERR_MYSQL_PARAMS_UNBRACKETED'])
        assert.deepEqual([error.place, error.position], [0, Buffer.from(query).indexOf(':a')])
        assert.ok(error.placeName === 'a' || error.placeName === undefined)
        return true
      })
    }
  }
}

test('arrays where a query says that several values stand', () => {
  for (const query of ['id IN (:a)', 'id NOT IN (:a)', 'id in(:a)', 'id IN ( /* c */ :a )', 'id IN(:a\n)', 'VALUES (:a)',
    't (b, c) VALUE (:a)', 'VALUES (1, 2), (:a)', 'VALUES ROW(:a)', '(b, c) = (:a)', '(b, c) IN ((:a))', '((:a))']) {
    writes(query, [1, 2], '1, 2')
    writes(query, [1], '1')
  }
  for (const query of ['(b, c) IN (:a)', 'VALUES :a', 't (b, c) VALUE :a', 'values /* c */ :a', 'VALUES :a ON DUPLICATE KEY UPDATE b = 1']) {
    writes(query, [[1, 2], [3, 4]], '(1, 2), (3, 4)')
    writes(query, [[1]], '(1)')
  }
})

test('arrays where one value stands are refused', () => {
  for (const query of ["JSON_SET(doc, '$.name', :a)", 'JSON_ARRAY(:a)', 'COALESCE(:a, owner)', 'COALESCE(:a)', 'LIMIT :a',
    'FIELD(id, :a)', "CONCAT_WS(',', :a)", 'ROUND(:a)', 'IN (0, :a)', 'IN (:a, 0)', 'SET b = :a', 'id = :a', 'WHERE f(:a)',
    'id IN :a', 'xIN (:a)', "'IN' (:a)", 'SELECT :a', ':a', '(:a)', 'id = (:a)', 'CALL value(:a)', 'CALL db . row (:a)', 'CALL value :a',
    'id IN /*M! f */ (:a)', 'HANDLER t READ i = (:a)']) {
    for (const value of [['x', '$.role', 'admin'], [1], [], [[1, 2], [3, 4]], [[1]], [NaN], [new Decimal('x')]]) {
      refuses(query, value)
    }
  }
  refuses('VALUES :a', [1, 2])
  refuses('id IN :a', [[1, 2]])
})

test('an In stands anywhere', () => {
  for (const query of ["JSON_SET(doc, '$.name', :a)", 'COALESCE(:a, owner)', 'FIELD(id, :a)', 'LIMIT :a', 'id IN (:a)', ':a']) {
    writes(query, new In([1, null, new Decimal('2.50')]), '1, NULL, 2.50')
    writes(query, new In([[1, 2], [3, 4]]), '(1, 2), (3, 4)')
    writes(query, [new Identifier('b'), new Identifier('t', 'c')], '`b`, `t`.`c`')
  }
  assert.equal(bind('FIELD(?, ?)', [new In(['x']), new In([new Date(0)])], { timezone: 'Z' }), "FIELD('x', '1970-01-01')")
})

test('an In is of an array, which is copied', () => {
  for (const other of [undefined, null, 1, 'ab', {}, { length: 1, 0: 1 }, new Set([1]), Buffer.from('x'), [1].values(),
    new In([1])]) {
    assert.throws(() => new In(other), { name: 'TypeError', message: 'an In is made of an array: of values, or of rows' })
  }
  const row = [1, 2]
  const given = [row]
  const value = new In(given)
  given.push([3])
  row.push(3)
  assert.deepEqual(value.items, [[1, 2]])
  assert.throws(() => value.items.push([3, 4]), TypeError)
  assert.throws(() => value.items[0].push(3), TypeError)
  assert.equal(bind('f(?)', [value]), 'f((1, 2))')
  // Its length is that of the copy, whatever an array says later.
  let count = 3
  const lying = new Proxy(['x', 'y', 'z'], { get: (target, name) => (name === 'length' ? count-- : target[name]) })
  assert.equal(bind('f(?, ?)', [new In(lying), 7]), "f('x', 'y', 7)")
})

test('what an In may not hold', () => {
  const values = 'give a list of values, or one of rows alone'
  for (const [held, said] of [
    [[new In([1])], 'item 0 of the value of `:a` is an In, which is no value: write a place for it'],
    [[1, new In([1])], 'item 1 of the value of `:a` is an In, which is no value: write a place for it'],
    [[[1, new In([1])]], 'item 1 of row 0 of the value of `:a` is an In, which is no value: write a place for it'],
    [[1, [2]], `item 1 of the value of \`:a\` is an array: ${values}`],
    [[[1], 2], `row 1 of the value of \`:a\` is no array: ${values}`],
    [[[[1]]], 'item 0 of row 0 of the value of `:a` is an array, which stands in a place by itself: it is no value, and no item ' +
      'of a row'],
    [[new Identifier('b')],
      'item 0 of the value of `:a` is an Identifier: give a list of values, or one of Identifiers alone'],
    // eslint-disable-next-line no-sparse-arrays
    [[1, , 2], 'item 1 of the value of `:a` is undefined: give null for NULL']
  ]) {
    const refusal = { name: 'TypeError', message: said }
    assert.throws(() => bind('f(:a)', { a: new In(held) }), refusal)
    if (!(held[0] instanceof Identifier)) assert.throws(() => bind('IN (:a)', { a: held }), refusal)
  }
  assert.throws(() => bind('SET :a', { a: new Assignments({ b: new In([1]) }) }), { name: 'TypeError',
    message: 'the value of `:a` sets `b` to a value that is an In: a column takes one value' })
  assert.throws(() => bindInBothModes('IN (:a)', { a: new In([1]) }), { name: 'TypeError',
    message: 'the value of `:a` is an In, and this call takes only values: bind and bindAnywhere take it' })
  assert.throws(() => bind('f(:a)', { a: new In([]) }), { number: 17, fault: 'EMPTY', message: 'The list for `:a` is empty' })
  assert.throws(() => bind('f(:a)', { a: new In([[1], [2, 3]]) }), { number: 17, fault: 'ROW_LENGTH', inRow: 1 })
  assert.throws(() => bind('f(:a)', { a: new In([NaN]) }), { number: 14, placeName: 'a' })
})

test('forms of lists and rows', () => {
  // Written by hand from mysql_params.h, as the types 129, 130, 136 and 137.
  const { Form, writeParams } = require(`${process.env.MYSQL_PARAMS}/lib/form.js`)
  const one = '08000100000000000000'
  for (const [value, hex] of [
    [new In([1, null]), `81000200 0000 ${one} 0600`], [new In([[1], [null]]), `82000200 0000 01000000 ${one} 01000000 0600`],
    [[1, null], `88000200 0000 ${one} 0600`], [[[1], [null]], `89000200 0000 01000000 ${one} 01000000 0600`],
    [[], '880000000000'], [[[]], '89000100000000000000'], [new In([]), '810000000000']
  ]) {
    const form = new Form(1)
    writeParams(form, { a: value })
    assert.equal(Buffer.from(form.bytes.subarray(0, form.len)).toString('hex'), `0161${hex.replaceAll(' ', '')}`)
    assert.equal(form.isFragments, true)
  }
})
