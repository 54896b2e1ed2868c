'use strict'
// Each type of a value, and each refusal of one by its name.

const assert = require('node:assert/strict')
const { spawnSync } = require('node:child_process')
const { test } = require('node:test')
const { inspect } = require('node:util')
const vm = require('node:vm')
const { mysqlParams } = require('./shared_cases.js')

const { Assignments, BindError, Decimal, Double, Identifier, In, Keyword, KEYWORDS, bind, bindAnywhere, bindInBothModes,
  bindRows } = mysqlParams

/** The literal of a value. */
const literal = (value, options) => bind('?', [value], options)

/** A value is refused at a place with a name, and at one by position, by an error of this kind whose message is this. */
function refused(value, Kind, said, options) {
  const check = (where) => (error) => {
    assert.equal(error.constructor, Kind, `${error.name}: ${error.message}`)
    assert.equal(error.message, `${where} ${said}`)
    return true
  }
  for (const call of [bind, bindAnywhere]) {
    assert.throws(() => call(':a, :b', { a: 1, b: value }, options), check('the value of `:b`'))
    assert.throws(() => call('?, ?', [null, value], options), check('the value for place 1'))
    assert.throws(() => call('?', [new Map([['b', value]]).get('b')], options), check('the value for place 0'))
  }
  assert.throws(() => bindRows('?', [[1], [value]], options), check('row 1: the value for place 0'))
  assert.throws(() => new mysqlParams.Template(':b').bind({ b: value }, options), check('the value of `:b`'))
}

/** The same of an item of a list and of a row. */
function refusedItem(value, Kind, said, options) {
  const check = (where) => (error) => {
    assert.equal(error.constructor, Kind, `${error.name}: ${error.message}`)
    assert.equal(error.message, `${where} ${said}`)
    return true
  }
  assert.throws(() => bind('a IN (:b)', { b: [1, value] }, options), check('item 1 of the value of `:b`'))
  assert.throws(() => bind('VALUES ?', [[[1, 2], [3, value]]], options), check('item 1 of row 1 of the value for place 0'))
}

/** The same of a value wherever it stands. */
function refusedEverywhere(value, Kind, said, options) {
  refused(value, Kind, said, options)
  refusedItem(value, Kind, said, options)
}

test('numbers that are whole', () => {
  for (const number of [0, 1, -1, 127, 128, 255, 256, 2 ** 31 - 1, 2 ** 31, -(2 ** 31), -(2 ** 31) - 1, 2 ** 32, 2 ** 53 - 1,
    1 - 2 ** 53]) {
    assert.equal(literal(number), String(number))
    assert.equal(bind('IN (?)', [[number, number]]), `IN (${number}, ${number})`)
    assert.equal(bindAnywhere(':a', { a: number }), String(number))
    assert.equal(bindInBothModes('?', [number]), String(number))
  }
  assert.equal(literal(-0), '0')
})

test('numbers that are not whole are doubles', () => {
  // The digits are those of ECMAScript's Number::toString, which are the fewest that say the double.
  for (const number of [0.5, -0.1, 1.5, 3.141592653589793, 123456.789, 2 ** 52 - 0.5]) {
    assert.equal(literal(number), `${number}e0`)
    assert.equal(bindAnywhere('a IN (?)', [[number]]), `a IN (${number}e0)`)
  }
  assert.equal(literal(5e-324), '5e-324')
  assert.equal(literal(new Double(2)), '2.0e0')
  assert.equal(literal(new Double(-0)), '-0.0e0')
  assert.equal(literal(new Double(1e300)), '1e300')
  assert.equal(bind('IN (?)', [[new Double(1e16)]]), 'IN (1e16)')
  assert.equal(new Double(0.5).number, 0.5)
  for (const other of ['1', 1n, null, undefined]) assert.throws(() => new Double(other), TypeError)
})

test('numbers that none can say', () => {
  for (const number of [NaN, Infinity, -Infinity]) {
    for (const given of [number, new Double(number), [number], [[number]], new In([number]), new In([[number]])]) {
      for (const call of [bind, bindAnywhere]) {
        assert.throws(() => call('IN (:a)', { a: given }), (error) => {
          assert.ok(error instanceof BindError)
          assert.deepEqual([error.number, error.kind, error.place, error.placeName], [14, 'FLOAT', 0, 'a'])
          return error.message === "A float for `:a` can't be written: give null for NaN and infinities, else a text"
        })
      }
    }
  }
  const beyond = 'is a whole number beyond 2^53, which a number may not hold exactly: give a BigInt, or a new Double(..)'
  for (const number of [2 ** 53, -(2 ** 53), 1e16, 1e300, Number.MAX_VALUE]) refusedEverywhere(number, RangeError, beyond)
})

test('bigints', () => {
  for (const bits of [0n, 7n, 31n, 32n, 52n, 53n, 62n, 63n]) {
    for (const number of [2n ** bits, -(2n ** bits), 2n ** bits - 1n]) assert.equal(literal(number), String(number))
  }
  assert.equal(literal(2n ** 64n - 1n), '18446744073709551615')
  assert.equal(bindInBothModes('?', [2n ** 64n - 1n]), '18446744073709551615')
  for (const number of [2n ** 64n, -(2n ** 63n) - 1n, 10n ** 65n - 1n, 1n - 10n ** 65n]) {
    assert.equal(literal(number), String(number))
    assert.equal(bindAnywhere('IN (?)', [[number, 1n]]), `IN (${number}, 1)`)
  }
  const many = 'has more than 65 digits, of which servers keep no more'
  for (const number of [10n ** 65n, -(10n ** 65n), 2n ** 255n, 2n ** 100000n]) refusedEverywhere(number, RangeError, many)
})

test('exact numbers', () => {
  assert.equal(literal(new Decimal('9.99')), '9.99')
  assert.equal(literal(new Decimal(123n)), '123')
  assert.equal(bindAnywhere('IN (?)', [[new Decimal('-0.10'), 1]]), 'IN (-0.10, 1)')
  assert.equal(String(new Decimal('1.50')), '1.50')
  assert.equal(new Decimal('1.50').digits, '1.50')
  assert.equal(literal(new Decimal(`${'1'.repeat(35)}.${'2'.repeat(30)}`)), `${'1'.repeat(35)}.${'2'.repeat(30)}`)
  refusedEverywhere(new Decimal('1'.repeat(66)), RangeError, 'has more than 65 digits, of which servers keep no more')
  for (const digits of ['', 'x', '1; DROP TABLE t', '0x1F', 'NaN', '1 2', '--1']) {
    assert.throws(() => bind(':a', { a: new Decimal(digits) }), { name: 'BindError', number: 17, fault: 'NUMBER',
      placeName: 'a' })
  }
  for (const other of [1, 1.5, null, undefined, {}]) assert.throws(() => new Decimal(other), TypeError)
})

test('texts', () => {
  assert.equal(literal("x' OR '1'='1"), "'x\\' OR \\'1\\'=\\'1'")
  assert.equal(bind('?', ["x'\\"], { noBackslashEscape: true }), "'x''\\'")
  assert.equal(bindAnywhere('?', ["it's"]), "_utf8mb4'it''s'")
  assert.equal(bindAnywhere('?, ?', ['é', '\u{1F600}']), '_utf8mb4 0xC3A9, _utf8mb4 0xF09F9880')
  // Lengths about each width of a length, in letters of one to four bytes.
  for (const letter of ['a', 'é', '€', '\u{1F600}']) {
    for (const count of [0, 1, 10, 39, 40, 41, 62, 63, 83, 84, 125, 126, 250, 251, 252, 16384, 21845, 21846, 65535, 65536,
      5592405, 5592406]) {
      const text = letter.repeat(count)
      assert.ok(literal(text) === `'${text}'`, `${letter} ${count}`)
    }
  }
  // Texts that are joined of parts, and parts of a text.
  let joined = ''
  for (let i = 0; i < 100; i++) joined += `part ${i}, `
  assert.equal(literal(joined), `'${joined}'`)
  assert.equal(literal(joined.slice(3, 90)), `'${joined.slice(3, 90)}'`)
})

test('texts with a lone surrogate', () => {
  const said = 'is a string with a lone surrogate, which has no UTF-8'
  for (const text of ['\ud800', 'a\udfffb', '\ude00\ud83d', `${'x'.repeat(100)}\udbff`, `\ufffd\ud800`]) refusedEverywhere(text,
    TypeError, said)
  assert.equal(literal('\ufffd'), "'\ufffd'")
  assert.equal(literal('\ud83d\ude00'), "'\u{1F600}'")
  for (const query of ['SELECT \ud800, ?', '\ufffd\udc00 ?']) {
    for (const call of [
      () => bind(query, [1]),
      () => bindInBothModes(query, [1]),
      () => bindRows(query, [[1]]),
      () => mysqlParams.names(query),
      () => mysqlParams.firstUnportable(query),
      () => new mysqlParams.Template(query)
    ]) assert.throws(call, { name: 'TypeError', message: 'the query has a lone surrogate, which has no UTF-8' })
  }
  assert.equal(bind('SELECT "\ufffd", ?', [1]), 'SELECT "\ufffd", 1')
  assert.equal(new mysqlParams.Template('"\ufffd", ?').bind([1]), '"\ufffd", 1')
  assert.deepEqual(bindRows('"\ufffd", ?', [[1], [2]]), ['"\ufffd", 1', '"\ufffd", 2'])
  assert.equal(mysqlParams.names('"\ufffd", :a').query, '"\ufffd", ?')
  assert.equal(mysqlParams.firstUnportable('"\ufffd", :a'), null)
  assert.throws(() => bind(':a', { a: 1, '\ud800': 1 }), { name: 'TypeError',
    message: 'a name of a parameter has a lone surrogate' })
  assert.throws(() => bind('?', [new Identifier('a', '\ud800')]), { name: 'TypeError',
    message: /for place 0 is an Identifier with a lone/ })
})

test('bytes', () => {
  for (const bytes of [Buffer.from("a'b"), Uint8Array.from([97, 39, 98]), Uint8Array.from([120, 97, 39, 98, 120]).subarray(1,
    4)]) {
    assert.equal(literal(bytes), "'a\\'b'")
  }
  assert.equal(literal(Buffer.alloc(0)), "''")
  assert.equal(literal(Buffer.from([255, 0])), '0xFF00')
  assert.equal(bindAnywhere('?', [Buffer.from([0xc3, 0x28])]), '0xC328')
  // UTF-8 to both, or to none: the text of a query that is a string is one.
  for (const hex of ['eda080', 'edbfbf', 'c080', 'e08080', 'f4908080', 'f8', 'c3', 'efbfbd', 'f48fbfbf', 'ee8080', 'ed9fbf']) {
    const bytes = Buffer.from(hex, 'hex')
    const isUtf8 = Buffer.from(bytes.toString()).equals(bytes)
    assert.equal(literal(bytes), isUtf8 ? `'${bytes}'` : `0x${hex.toUpperCase()}`, hex)
  }
  for (const length of [250, 251, 65535, 65536, 100000]) assert.equal(literal(Buffer.alloc(length, 97)),
    `'${'a'.repeat(length)}'`)
  assert.equal(literal(new Uint8Array(new SharedArrayBuffer(2)).fill(97)), "'aa'")
  for (const [view, kind] of [[new Uint16Array(2), 'Uint16Array'], [new DataView(new ArrayBuffer(2)), 'DataView'],
    [new ArrayBuffer(2), 'ArrayBuffer'], [new Uint8ClampedArray(1), 'Uint8ClampedArray']]) {
    refusedEverywhere(view, TypeError, `is of type ${kind}, which has no literal: give a Buffer of its bytes`)
  }
})

/** A Uint8Array that says of itself what isn't so. */
class Lying extends Uint8Array {
  get length() { return 1000 }
  get byteLength() { return 1000 }
  get byteOffset() { return 1 }
  get buffer() { return new ArrayBuffer(1000) }
  subarray() { return this }
  slice() { return this }
  * [Symbol.iterator]() { yield 39 }
  static get [Symbol.species]() { return Array }
}

test('bytes are those that are there', () => {
  bind('?', ['of an earlier call'.repeat(100)])
  const lying = Lying.from(Buffer.from("a'b"))
  const short = Object.defineProperty(Uint8Array.from([97, 98]), 'length', { value: 1 })
  assert.equal(bind('SELECT ?, ?', [lying, 7]), "SELECT 'a\\'b', 7")
  assert.equal(bind('SELECT ?, ?', [short, 7]), "SELECT 'ab', 7")
  assert.equal(bind('VALUES :a, :b', { a: [[lying, 1]], b: 7 }), "VALUES ('a\\'b', 1), 7")
  assert.equal(bindAnywhere(':a', { a: lying }), "_utf8mb4'a''b'")
  const query = Lying.from(Buffer.from('SELECT ?, :'))
  assert.deepEqual(bind(query, [1]), Buffer.from('SELECT 1, :'))
  assert.deepEqual(new mysqlParams.Template(query).query, Buffer.from('SELECT ?, :'))
  assert.deepEqual(new mysqlParams.Template(query).bind([1]), Buffer.from('SELECT 1, :'))
  assert.throws(() => bind(Lying.from(Buffer.from('SELECT :größe')), {}), { kind: 'MISSING', word: 'größe' })
  assert.equal(mysqlParams.bindForm('?', Lying.from([0, 6, 0])), 'NULL')
})

test('bytes of memory that is gone', () => {
  const buffers = [new ArrayBuffer(8), new ArrayBuffer(8)]
  const gone = [Buffer.from(buffers[0]), new Lying(buffers[1])]
  structuredClone(null, { transfer: buffers })
  const resizable = new ArrayBuffer(8, { maxByteLength: 16 })
  if (resizable.resizable) {
    gone.push(new Uint8Array(resizable, 4, 4))
    resizable.resize(2)
  }
  const said = 'is a Uint8Array whose buffer was transferred, or made too short'
  for (const array of gone) {
    refusedEverywhere(array, TypeError, said)
    const { names, firstUnportable, Template } = mysqlParams
    for (const call of [bind, bindAnywhere, names, firstUnportable, (query) => new Template(query)]) {
      assert.throws(() => call(array), { name: 'TypeError', message: `the query ${said}` })
    }
    assert.throws(() => mysqlParams.bindForm('?', array), { name: 'TypeError', message: /^a form is a Uint8Array, whose buffer/ })
  }
})

test('memory that another thread makes longer', (t) => {
  // So long that the bytes still fit in the form, and so long that they don't.
  for (const longer of [75000, 200000]) {
    const shared = new SharedArrayBuffer(70000, { maxByteLength: longer })
    if (!shared.growable) {
      t.skip('no SharedArrayBuffer grows here')
      return
    }
    const view = new Uint8Array(shared).fill(97)
    bind('?', ['x'.repeat(1 << 20)]) // So long a form isn't kept, and the next one has to grow.
    // The other thread does it while the form gets more room.
    const { allocUnsafeSlow } = Buffer
    Buffer.allocUnsafeSlow = (size) => {
      shared.grow(longer)
      view.fill(98, 70000)
      return allocUnsafeSlow(size)
    }
    try {
      assert.equal(bind('?, ?', [view, 7]), `'${'a'.repeat(70000)}', 7`)
    } finally {
      Buffer.allocUnsafeSlow = allocUnsafeSlow
    }
    assert.equal(view.length, longer)
  }
})

test('null and booleans', () => {
  assert.equal(bind('?, ?, ?', [null, true, false]), 'NULL, 1, 0')
  assert.equal(bindAnywhere('IN (?)', [[null, true]]), 'IN (NULL, 1)')
})

test('dates by the clock of a time zone', () => {
  const date = new Date(Date.UTC(2019, 10, 27, 12, 30, 5, 7))
  assert.equal(literal(date, { timezone: 'Z' }), "'2019-11-27 12:30:05.007000'")
  assert.equal(literal(date, { timezone: '+02:00' }), "'2019-11-27 14:30:05.007000'")
  assert.equal(literal(date, { timezone: '-13:30' }), "'2019-11-26 23:00:05.007000'")
  assert.equal(bindAnywhere('IN (?)', [[date]], { timezone: '+00:00' }), "IN ('2019-11-27 12:30:05.007000')")
  assert.deepEqual(bindRows('?', [[date]], { timezone: 'Z' }), ["'2019-11-27 12:30:05.007000'"])
  assert.equal(new mysqlParams.Template('?').bind([date], { timezone: 'Z' }), "'2019-11-27 12:30:05.007000'")
  const local = new Date(2019, 10, 27, 12, 30)
  assert.equal(literal(local, { timezone: 'local' }), "'2019-11-27 12:30:00'")
  assert.equal(literal(new Date(Date.UTC(2019, 10, 27)), { timezone: 'Z' }), "'2019-11-27'")
  const ancient = new Date(0)
  ancient.setUTCFullYear(12, 0, 2)
  assert.equal(literal(ancient, { timezone: 'Z' }), "'0012-01-02'")
  const foreign = vm.runInNewContext('new Date(0)')
  assert.equal(literal(foreign, { timezone: 'Z' }), "'1970-01-01'")
})

test('dates that are refused', () => {
  const said = "is a Date: say by the option timezone which clock is written, 'Z', 'local' or an offset as '+02:00'"
  refusedEverywhere(new Date(), TypeError, said)
  for (const timezone of ['Z', 'local', '+02:00']) refusedEverywhere(new Date(NaN), RangeError, 'is an invalid Date',
    { timezone })
  for (const year of [-1, 10000, 200000]) {
    const date = new Date(0)
    date.setUTCFullYear(year)
    refusedEverywhere(date, RangeError, 'is a Date outside of the years 0 to 9999', { timezone: 'Z' })
  }
  for (const timezone of ['', 'z', 'UTC', '+2:00', '+14:01', '+02:60', '02:00', '+02:00 ', 'Europe/Berlin', 0, null, 120]) {
    assert.throws(() => bind('SELECT 1', [], { timezone }), { name: 'TypeError',
      message: "timezone is 'Z', 'local' or an offset as '+02:00'" })
  }
})

test('dates that the local clocks show twice', () => {
  const program = `
    const { bind } = require(process.env.MYSQL_PARAMS)
    for (const time of [0, 1, 2, 3]) {
      const date = new Date(Date.UTC(2019, 9, 26, 22 + time, 30))
      try { console.log(bind('?', [date], { timezone: 'local' })) } catch (error) { console.log(error.name, error.message) }
    }`
  const { stdout, stderr } = spawnSync(process.execPath, ['-e', program], { env: { ...process.env, TZ: 'Europe/Berlin' },
    encoding: 'utf8' })
  const twice =
    "RangeError the value for place 0 is a Date that the clocks of the local zone show twice: give timezone: 'Z', in a session whose time_zone is '+00:00'"
  assert.equal(stderr, '')
  // Summer time ended at 1:00 UTC, so 2:30 came twice.
  assert.deepEqual(stdout.trim().split('\n'), ["'2019-10-27 00:30:00'", "'2019-10-27 01:30:00'", twice, twice])
})

test('lists and rows', () => {
  assert.equal(bind('a IN (?)', [[1, 'a', null, 0.25, 7n, true, Buffer.from('x')]]), "a IN (1, 'a', NULL, 0.25e0, 7, 1, 'x')")
  assert.equal(bind('VALUES ?', [[[1, 'a'], [2, 'b']]]), "VALUES (1, 'a'), (2, 'b')")
  assert.equal(bindAnywhere('VALUES :rows', { rows: [[1, 'a']] }), "VALUES (1, _utf8mb4'a')")
  const fault = (value, name, inRow = 0) => {
    for (const [query, given] of [['IN (:a)', value], [':a', new In(value)]]) {
      assert.throws(() => bind(query, { a: given }), { name: 'BindError', number: 17, kind: 'FAULT', fault: name, inRow,
        placeName: 'a' })
      assert.throws(() => bindAnywhere(query.replace(':a', '?'), [given]), { name: 'BindError', number: 17, fault: name, inRow,
        placeName: undefined })
    }
  }
  fault([], 'EMPTY')
  fault([[]], 'EMPTY_ROW')
  fault([[1], []], 'EMPTY_ROW', 1)
  fault([[1, 2], [3]], 'ROW_LENGTH', 1)
  fault([[1], [2], [3, 4]], 'ROW_LENGTH', 2)
  const mixed = 'give a list of values, or one of rows alone'
  assert.throws(() => bind(':a', { a: [1, [2]] }), { name: 'TypeError',
    message: `item 1 of the value of \`:a\` is an array: ${mixed}` })
  assert.throws(() => bind(':a', { a: [[1], 2] }), { name: 'TypeError',
    message: `row 1 of the value of \`:a\` is no array: ${mixed}` })
  assert.throws(() => bind('?', [[[[1]]]]), { name: 'TypeError',
    message: /^item 0 of row 0 of the value for place 0 is an array/ })
  // eslint-disable-next-line no-sparse-arrays
  assert.throws(() => bind('?', [[1, , 2]]), { name: 'TypeError', message: /^item 1 of the value for place 0 is undefined/ })
})

test('100,000 values', () => {
  const numbers = Array.from({ length: 100000 }, (_, i) => i - 50000)
  assert.equal(bind('a IN (?)', [numbers]), `a IN (${numbers.join(', ')})`)
  assert.equal(bind(numbers.map(() => '?').join(), numbers), numbers.join())
  const texts = numbers.map((number) => `text ${number}`)
  const rows = texts.map((text, i) => `(${i}, _utf8mb4'${text}')`)
  assert.equal(bindAnywhere('VALUES ?', [texts.map((text, i) => [i, text])]), `VALUES ${rows.join(', ')}`)
  const named = Object.fromEntries(texts.map((_, i) => [`n${i}`, i]))
  assert.equal(bind(texts.map((_, i) => `:n${i}`).join(), named), texts.map((_, i) => i).join())
  assert.deepEqual(bindRows('SELECT ?', numbers.map((number) => [number])), numbers.map((number) => `SELECT ${number}`))
})

test('identifiers and keywords', () => {
  assert.equal(bind('SELECT ? FROM ?', [new Identifier('a`b'), new Identifier('shop', 't')]), 'SELECT `a``b` FROM `shop`.`t`')
  assert.deepEqual(new Identifier('a', 'b').parts, ['a', 'b'])
  assert.throws(() => new Identifier(), TypeError)
  assert.throws(() => new Identifier('a', 1), TypeError)
  for (const word of KEYWORDS) {
    assert.equal(bind('a ?', [new Keyword(word, KEYWORDS)]), `a ${word}`)
    assert.equal(new Keyword(word, KEYWORDS).word, word)
  }
  assert.equal(KEYWORDS.length, 33)
  assert.throws(() => new Keyword('DROP', ['ASC', 'DESC']), { name: 'RangeError',
    message: 'the word is none of the keywords "ASC", "DESC"' })
  assert.throws(() => new Keyword('ASC', 'ASC'), TypeError)
  assert.throws(() => new Keyword(['ASC'], ['ASC']), TypeError)
  assert.throws(() => bind('?', [new Keyword('desc', ['desc'])]), { number: 17, fault: 'KEYWORD' })
  refusedItem(new Keyword('ASC', ['ASC']), TypeError, 'is a Keyword, which is no value: write a place for it')
  // What only looks like one is an object.
  for (const like of [Object.create(Identifier.prototype), Object.create(Decimal.prototype),
    Object.create(Keyword.prototype), Object.create(Assignments.prototype), Object.create(In.prototype)]) {
    assert.throws(() => bind('?', [like]), { name: 'TypeError', message: /is an object, which has no literal/ })
  }
})

test('lists of identifiers', () => {
  const [a, b] = [new Identifier('a'), new Identifier('t', 'b`')]
  for (const [value, wanted] of [[[a], '`a`'], [[a, b], '`a`, `t`.`b```'], [[a, a, a], '`a`, `a`, `a`']]) {
    for (const call of [bind, bindAnywhere, (query, params) => new mysqlParams.Template(query).bind(params)]) {
      assert.equal(call('?, ?', [value, 1]), `${wanted}, 1`)
      assert.equal(call(':a', { a: value }), wanted)
    }
    assert.deepEqual(bindRows('SELECT ?', [[1], [value]]), ['SELECT 1', `SELECT ${wanted}`])
  }
  const many = Array.from({ length: 5000 }, (_, i) => new Identifier('t', `column ${i}`))
  assert.equal(bind('?', [many]), many.map((_, i) => `\`t\`.\`column ${i}\``).join(', '))
  const names = 'give a list of values, or one of Identifiers alone'
  const no = 'is no value: write a place for it'
  for (const [value, said] of [
    [[1, a], `item 1 of the value of \`:a\` is an Identifier: ${names}`],
    [[a, 1], `item 1 of the value of \`:a\` is no Identifier: ${names}`],
    [[a, 'b'], `item 1 of the value of \`:a\` is no Identifier: ${names}`],
    [[a, null], `item 1 of the value of \`:a\` is no Identifier: ${names}`],
    [[a, b, [a]], `item 2 of the value of \`:a\` is no Identifier: ${names}`],
    [[a, Object.create(Identifier.prototype)], `item 1 of the value of \`:a\` is no Identifier: ${names}`],
    [[[1, a]], `item 1 of row 0 of the value of \`:a\` is an Identifier, which ${no}`],
    [[a, new Identifier('t', '\ud800')],
      'item 1 of the value of `:a` is an Identifier with a lone surrogate, which has no UTF-8']
  ]) assert.throws(() => bind(':a', { a: value }), { name: 'TypeError', message: said })
  assert.throws(() => bind('?', [[b, new Identifier('c\0')]]), { number: 17, fault: 'ZERO_BYTE', item: 2 })
})

test('assignments', () => {
  const pairs = [['a`', "it's"], [new Identifier('t', 'b'), null]]
  const ofPairs = "`a``` = 'it\\'s', `t`.`b` = NULL"
  for (const [assigned, wanted] of [
    [{ a: 1 }, '`a` = 1'],
    [{ b: 2n ** 70n, a: true }, '`b` = 1180591620717411303424, `a` = 1'],
    [Object.assign(Object.create(null), { 'a, b': new Decimal('1.50') }), '`a, b` = 1.50'],
    [pairs, ofPairs],
    [new Map(pairs), ofPairs],
    [[['a', 0.5], ['b', new Double(2)], ['a', Buffer.from([255])]], '`a` = 0.5e0, `b` = 2.0e0, `a` = 0xFF'],
    [JSON.parse('{"__proto__": 1, "constructor": "x"}'), "`__proto__` = 1, `constructor` = 'x'"],
    [vm.runInNewContext('({ a: 1 })'), '`a` = 1'],
    [vm.runInNewContext('[["a", 1]]'), '`a` = 1'],
    [vm.runInNewContext('new Map([["a", 1]])'), '`a` = 1'],
    [new (class Row { a = 1; get b() { return 2 } })(), '`a` = 1'],
    [{ a: 'é'.repeat(40000), b: 1 }, `\`a\` = '${'é'.repeat(40000)}', \`b\` = 1`]
  ]) {
    const value = new Assignments(assigned)
    for (const call of [bind, (query, params) => new mysqlParams.Template(query).bind(params)]) {
      assert.equal(call('SET ? WHERE ?', [value, 1]), `SET ${wanted} WHERE 1`)
      assert.equal(call('SET :a, :a', { a: value }), `SET ${wanted}, ${wanted}`)
    }
    assert.deepEqual(bindRows('SET ?', [[1], [value]]), ['SET 1', `SET ${wanted}`])
  }
  assert.equal(bindAnywhere('SET ?', [new Assignments({ a: "it's", b: 'é' })]),
    "SET `a` = _utf8mb4'it''s', `b` = _utf8mb4 0xC3A9")
  assert.equal(bind('SET ?', [new Assignments({ a: new Date(0) })], { timezone: 'Z' }), "SET `a` = '1970-01-01'")
  // Of an object only own properties that can be enumerated, by a string, are columns.
  const given = Object.defineProperty({ a: 1, [Symbol('b')]: 2 }, 'c', { value: 3 })
  const value = new Assignments(given)
  assert.deepEqual(value.pairs.map(([column, assigned]) => [column.parts, assigned]), [[['a'], 1]])
  // What is changed later isn't seen.
  given.d = 4
  assert.throws(() => value.pairs.push(1), TypeError)
  assert.throws(() => { value.pairs[0][1] = 2 }, TypeError)
  assert.equal(bind('?', [value]), '`a` = 1')
})

test('assignments that are refused', () => {
  const one = ': a column takes one value'
  for (const [value, said] of [
    [[1], `an array${one}`], [[], `an array${one}`], [new Identifier('t'), `an Identifier${one}`],
    [new Keyword('NULL', ['NULL']), `a Keyword${one}`], [new In([1]), `an In${one}`],
    [new Assignments({ b: 1 }), `of type Assignments${one}`],
    [undefined, 'undefined: give null for NULL'],
    [{ b: 1 }, 'an object, which has no literal: give JSON.stringify(..) of it'],
    [() => 1, 'a function, which has no literal'],
    ['\ud800', 'a string with a lone surrogate, which has no UTF-8'],
    [new Date(0), "a Date: say by the option timezone which clock is written, 'Z', 'local' or an offset as '+02:00'"]
  ]) {
    for (const [column, shown] of [['aé', '`a\\xc3\\xa9`'], [new Identifier('t', 'b'), '`t`.`b`']]) {
      const set = new Assignments([['x', 1], [column, value]])
      for (const call of [bind, bindAnywhere]) {
        assert.throws(() => call(':set', { set }), { name: 'TypeError',
          message: `the value of \`:set\` sets ${shown} to a value that is ${said}` })
      }
    }
  }
  assert.throws(() => bind('?', [new Assignments({ a: 2 ** 53 })]), { name: 'RangeError',
    message: /^the value for place 0 sets `a` to a value that is a whole number beyond 2\^53/ })
  assert.throws(() => bind('?', [new Assignments({ a: 10n ** 65n })]), { name: 'RangeError',
    message: 'the value for place 0 sets `a` to a value that has more than 65 digits, of which servers keep no more' })
  assert.throws(() => bind('?', [new Assignments({ a: NaN })]), { number: 14, kind: 'FLOAT', place: 0 })
  assert.throws(() => bind('?', [new Assignments({ '\ud800': 1 })]), { name: 'TypeError',
    message: 'the value for place 0 is of type Assignments with a lone surrogate, which has no UTF-8' })
  refusedItem(new Assignments({ a: 1 }), TypeError, 'is of type Assignments, which is no value: write a place for it')
  for (const none of [{}, [], new Map()]) {
    assert.throws(() => bind(':set', { set: new Assignments(none) }), { number: 17, fault: 'EMPTY',
      message: 'The list for `:set` is empty' })
  }
  assert.throws(() => bind('?', [new Assignments([[new Identifier('t', 'a'), 1], ['b\0', 2]])]), { number: 17,
    fault: 'ZERO_BYTE', item: 2 })
  const made = 'Assignments are made of an object of columns, or of an array or a Map of pairs: a column and a value'
  for (const [assigned, said] of [[5, ', and not of type number'], ['ab', ', and not of type string'],
    [null, ', and not of null'], [undefined, ', and not of type undefined'], [new Set(), ', and not of a Set'],
    [Buffer.from('x'), ', and not of a Uint8Array'],
    [new URLSearchParams('a=1'), ', and not of a URLSearchParams'], [Promise.resolve({}), ', and not of a Promise: await it'],
    [new Date(), ', and not of a Date'], [['ab'], ''], [[['a']], ''], [[['a', 1, 2]], ''], [new Array(1), '']]) {
    assert.throws(() => new Assignments(assigned), { name: 'TypeError', message: made + said })
  }
  for (const column of [5, null, undefined, Buffer.from('a'), new Keyword('NULL', ['NULL']),
    Object.create(Identifier.prototype)]) {
    for (const assigned of [[[column, 1]], new Map([[column, 1]])]) {
      assert.throws(() => new Assignments(assigned), { name: 'TypeError',
        message: 'a column is a string, which is one name, or an Identifier' })
    }
  }
})

test('forms of identifiers and assignments', () => {
  // Written by hand from mysql_params.h, as the types 134 and 135.
  const { Form, writeParams } = require(`${process.env.MYSQL_PARAMS}/lib/form.js`)
  const form = new Form(1)
  const column = new Identifier('t', 'b')
  writeParams(form, { columns: [new Identifier('a'), column],
    set: new Assignments([['a', 1], [column, 'x'], ['c', new Decimal('-1.50')]]) })
  const count = (number) => Buffer.from([number, 0, 0, 0])
  const wanted = Buffer.concat([
    Buffer.from('\x07columns\x86\0', 'latin1'), count(2), count(1), Buffer.from('\x01a'), count(2), Buffer.from('\x01t\x01b'),
    Buffer.from('\x03set\x87\0', 'latin1'), count(3), count(1), Buffer.from('\x01a\x08\0\x01\0\0\0\0\0\0\0'),
    count(2), Buffer.from('\x01t\x01b\xfd\0\x01x', 'latin1'), count(1), Buffer.from('\x01c\x80\0\x05-1.50', 'latin1')
  ])
  assert.deepEqual(form.bytes.subarray(0, form.len), wanted)
  assert.equal(form.isFragments, true)
})

test('what has no literal', () => {
  const json = 'is an object, which has no literal: give JSON.stringify(..) of it'
  const columns = 'is an object, which has no literal: for SET give new Assignments(..) of it, else JSON.stringify(..) of it'
  refusedEverywhere(undefined, TypeError, 'is undefined: give null for NULL')
  for (const value of [{ password: 1 }, {}, Object.create(null), new Map(), { toString: () => '1' }]) {
    refused(value, TypeError, columns)
    refusedItem(value, TypeError, json)
    assert.throws(() => bindInBothModes(':a', { a: value }), { name: 'TypeError', message: `the value of \`:a\` ${json}` })
  }
  for (const value of [new Set([1]), new Error('x'), /x/]) refusedEverywhere(value, TypeError, json)
  refusedEverywhere(Symbol('x'), TypeError, 'is a symbol, which has no literal')
  refusedEverywhere(() => 1, TypeError, 'is a function, which has no literal')
  refusedEverywhere(class {}, TypeError, 'is a function, which has no literal')
  for (const value of [Object(1), Object('x'), Object(true), Object(1n)]) refusedEverywhere(value, TypeError,
    'is an object around a value: give its valueOf()')
  refusedEverywhere(Promise.resolve(1), TypeError, 'is a Promise: await it')
  refusedEverywhere({ then() {} }, TypeError, 'is a Promise: await it')
  refused({ toSqlString: () => '1 OR 1' }, TypeError,
    'is an object with toSqlString: the words of a query stand in the query, so give an Identifier or a Keyword')
  // node-mysql writes `password` = 1 for this one.
  assert.throws(() => bind('SELECT * FROM u WHERE password = :password', { password: { password: 1 } }), { name: 'TypeError',
    message: `the value of \`:password\` ${columns}` })
})

test('both modes take only values', () => {
  const only = 'and this call takes only values: bind and bindAnywhere take it'
  const kinds = [
    [new Decimal('1.5'), TypeError, `is a Decimal, ${only}`],
    [2n ** 64n, RangeError, `is a whole number of more than 64 bits, ${only}`],
    [[1], TypeError, 'is an array, which stands in a place by itself: it is no value, and no item of a row'],
    [new Identifier('a'), TypeError, `is an Identifier, ${only}`],
    [new Assignments({ a: 1 }), TypeError, `is of type Assignments, ${only}`],
    [new Keyword('ASC', ['ASC']), TypeError, `is a Keyword, ${only}`],
    [new In([1]), TypeError, `is an In, ${only}`]
  ]
  for (const [value, Kind, said] of kinds) {
    assert.throws(() => bindInBothModes(':a', { a: value }), (error) => error.constructor === Kind &&
      error.message === `the value of \`:a\` ${said}`)
  }
  assert.throws(() => bindInBothModes(':a', { a: 0.5 }), { number: 14, placeName: 'a' })
})

test('parameters', () => {
  assert.equal(bind('SELECT 1'), 'SELECT 1')
  for (const none of [undefined, null, [], {}, new Map()]) assert.equal(bind('SELECT 1', none), 'SELECT 1')
  assert.equal(bind(':a', new Map([['a', 1]])), '1')
  assert.equal(bind(':a', Object.assign(Object.create(null), { a: 1 })), '1')
  class Row {
    a = 1
  }
  assert.equal(bind(':a', new Row()), '1')
  assert.equal(bind(':a', vm.runInNewContext('({ a: 1 })')), '1')
  assert.equal(bind('?', vm.runInNewContext('[1]')), '1')
  // Only own properties are parameters.
  assert.throws(() => bind(':a', Object.create({ a: 1 })), { number: 9, placeName: 'a' })
  assert.throws(() => bind(':toString', {}), { number: 9 })
  assert.throws(() => bind(':__proto__', { ['a']: 1, __proto__: null }), { number: 9, placeName: '__proto__' })
  assert.equal(bind(':__proto__, :constructor', JSON.parse('{"__proto__": 1, "constructor": 2}')), '1, 2')
  const wanted = /^parameters are an array, an object of names, or a Map, and not /
  for (const params of ['x', 1, 1n, true, Symbol('x'), () => 1, Buffer.from('x'), new Date(), new Set(), /x/,
    new Uint16Array(1), [1].values(), Promise.resolve({})]) {
    assert.throws(() => bind('?', params), (error) => error instanceof TypeError && wanted.test(error.message))
  }
  assert.throws(() => bind(':a', { '': 1 }), { name: 'RangeError', message: 'a parameter has an empty name' })
  assert.throws(() => bind(':a', new Map([[1, 1]])), { name: 'TypeError',
    message: 'a name is a string, and not of type number' })
  assert.throws(() => bind(':a', { a: 1, größe: undefined }),
    { message: 'the value of `:gr\\xc3\\xb6\\xc3\\x9fe` is undefined: give null for NULL' })
  const long = 'n'.repeat(300)
  assert.equal(bind(`:${long}`, { [long]: 1, größe: 2 }), '1')
})

test('getters that bind', () => {
  const params = {
    a: 'first',
    get b() {
      return bind('SELECT ?, ?', ['within', 'x'.repeat(70000)]).slice(0, 15)
    },
    c: 'last'
  }
  assert.equal(bind(':a, :b, :c', params), "'first', 'SELECT \\'within\\'', 'last'")
  const broken = { a: 1, get b() { throw new Error('of a getter') } }
  for (let i = 0; i < 3; i++) assert.throws(() => bind(':a, :b', broken), { message: 'of a getter' })
  assert.equal(bind(':a, :b, :c', params), "'first', 'SELECT \\'within\\'', 'last'")
  const shrinking = [1, 2, 3]
  Object.defineProperty(shrinking, 1, { get() { shrinking.length = 2; return 1 } })
  assert.throws(() => bind('IN (?)', [shrinking]), /item 2 of the value for place 0 is undefined/)
})

test('arrays that say what is no count', () => {
  /** An array that says this of its length. */
  const lying = (items, length) => new Proxy(items, { get: (target, name) => (name === 'length' ? length : target[name]) })
  for (const [length, wanted] of [[1.5, 1], [2 ** 32 + 2, 2], ['1', 1], [2.999, 2], [{ valueOf: () => 1 }, 1], [true, 1]]) {
    const items = ['x', 'y', 'z']
    const list = items.slice(0, wanted).map((item) => `'${item}'`)
    assert.equal(bind('IN (?), ?', [lying(items, length), 7]), `IN (${list.join(', ')}), 7`)
    const rows = items.map((item) => lying([item, 1, 2], length))
    const row = (item) => `(${[`'${item}'`, 1, 2].slice(0, wanted).join(', ')})`
    assert.equal(bind('VALUES ?, ?', [lying(rows, length), 7]), `VALUES ${items.slice(0, wanted).map(row).join(', ')}, 7`)
    const names = lying(items.map((item) => new Identifier(item)), length)
    assert.equal(bind('?, ?', [names, 7]), `${items.slice(0, wanted).map((item) => `\`${item}\``).join(', ')}, 7`)
  }
  for (const length of [0, NaN, -0.5, 2 ** 32, null, undefined]) {
    assert.throws(() => bind('IN (?)', [lying([1], length)]), { kind: 'FAULT', fault: 'EMPTY' })
  }
  for (const length of [1n, Symbol('x'), { valueOf() { throw new TypeError('of the length') } }]) {
    assert.throws(() => bind('IN (?)', [lying([1], length)]), TypeError)
  }
})

test('options and queries', () => {
  const known = 'the options are noBackslashEscape, timezone'
  assert.throws(() => bind('?', [1], { no_backslash_escape: true }), { name: 'TypeError',
    message: `there is no option "no_backslash_escape": ${known}` })
  for (const mode of [1, 0, 'true', null, 'NO_BACKSLASH_ESCAPES']) assert.throws(() => bind('?', [1],
    { noBackslashEscape: mode }), TypeError)
  for (const options of [true, null, 'Z', [], 1]) {
    for (const call of [bind, bindAnywhere, bindInBothModes]) assert.throws(() => call('?', [1], options), { name: 'TypeError',
      message: /^options are an object/ })
  }
  // Only own properties are options.
  // eslint-disable-next-line no-extend-native
  Object.prototype.noBackslashEscape = true
  try {
    for (const options of [undefined, {}, { timezone: 'Z' }]) assert.equal(bind('?', ['\\'], options), "'\\\\'")
    assert.deepEqual(bindRows('?', [['\\']]), ["'\\\\'"])
    assert.equal(new mysqlParams.Template('?').noBackslashEscape, false)
  } finally {
    delete Object.prototype.noBackslashEscape
  }
  // A call without a mode has no option for one.
  for (const call of [bindAnywhere, bindInBothModes]) assert.throws(() => call('?', [1], { noBackslashEscape: true }),
    TypeError)
  for (const query of [undefined, null, 1, {}, [], ['?'], new Uint16Array(2), Object('?'), { sql: '?' }]) {
    for (const call of [() => bind(query, [1]), () => bindAnywhere(query), () => mysqlParams.names(query),
      () => mysqlParams.firstUnportable(query), () => new mysqlParams.Template(query), () => bindRows(query, [])]) {
      assert.throws(call, { name: 'TypeError', message: /^a query is a string or a Uint8Array, and not / })
    }
  }
  assert.deepEqual(bind(Uint8Array.from([63]), [1]), Buffer.from('1'))
  assert.deepEqual(bind(new Uint8Array(new SharedArrayBuffer(1)).fill(63), [1]), Buffer.from('1'))
  assert.deepEqual(bind(Buffer.alloc(0)), Buffer.alloc(0))
  assert.equal(bind(''), '')
  const long = `SELECT ? /*${'x'.repeat(70000)}*/`
  assert.equal(bind(long, [1]), long.replace('?', '1'))
  assert.deepEqual(bind(Buffer.from(long), [1]), Buffer.from(long.replace('?', '1')))
  for (const count of [65520, 65530, 65531, 65532, 65533, 65534, 65535, 65536, 65537]) {
    const query = `${'é'.repeat(count / 2)}${'x'.repeat(count % 2)}`
    assert.equal(bind(query), query)
  }
})

test('rows of all kinds', () => {
  const rows = [[1, 'a'], [new Decimal('0.10'), 2n ** 70n], [Buffer.from([255]), null], [new Identifier('a`'), new In([1, 2])],
    [0.25, 'a'], [new In([1, -0.5]), 3]]
  const texts = ["1, 'a'", '0.10, 1180591620717411303424', '0xFF, NULL', '`a```, 1, 2', "0.25e0, 'a'", '1, -0.5e0, 3']
  assert.deepEqual(bindRows('SELECT ?, ?', rows), texts.map((text) => `SELECT ${text}`))
  assert.deepEqual(bindRows(Buffer.from('?, ?'), rows), texts.map((text) => Buffer.from(text)))
  assert.deepEqual(bindRows('SELECT 1', [undefined, null, []]), ['SELECT 1', 'SELECT 1', 'SELECT 1'])
  assert.deepEqual(bindRows('?', []), [])
  function * generated() {
    for (let i = 0; i < 3000; i++) yield { a: i % 500 === 499 ? 0.5 : i }
  }
  const many = bindRows(':a', generated())
  assert.deepEqual(many, Array.from({ length: 3000 }, (_, i) => (i % 500 === 499 ? '0.5e0' : String(i))))
  // The row that is refused, with the texts before it, also within a batch and before a value that is refused.
  for (const [bad, check] of [[[1, 2], { number: 12 }], [[new In([])], { number: 17 }], [[[1, 2]], { number: 21 }],
    [[undefined], { name: 'TypeError' }], [[NaN], { number: 14 }]]) {
    for (const row of [0, 1, 2, 700]) {
      const given = Array.from({ length: row }, (_, i) => [i]).concat([bad, [undefined]])
      assert.throws(() => bindRows('?', given), (error) => {
        for (const [name, value] of Object.entries(check)) assert.equal(error[name], value)
        assert.equal(error.row, row)
        assert.ok(error.message.startsWith(`row ${row}: `))
        assert.deepEqual(error.texts, Array.from({ length: row }, (_, i) => String(i)))
        return true
      })
    }
  }
  // The texts show values, so nothing that writes an error does.
  for (const bad of [[1, 2], [undefined], [NaN]]) {
    assert.throws(() => bindRows('?', [['hunter2'], bad]), (error) => {
      assert.deepEqual([error.row, error.texts], [1, ["'hunter2'"]])
      assert.equal(Object.keys(error).includes('texts'), false)
      for (const shown of [inspect(error), JSON.stringify(error), String(error.stack), JSON.stringify({ ...error })]) {
        assert.equal(shown.includes('hunter2'), false)
      }
      return true
    })
  }
  const program = "require(process.env.MYSQL_PARAMS).bindRows('?', [['hunter2'], [1, 2]])"
  const { stderr, status } = spawnSync(process.execPath, ['-e', program], { encoding: 'utf8' })
  assert.equal(status, 1)
  assert.match(stderr, /BindError: row 1: /)
  assert.equal(stderr.replace(program, '').includes('hunter2'), false)
  for (const rows of [undefined, null, 1, {}, 'ab']) assert.throws(() => bindRows('?', rows), { name: 'TypeError',
    message: /^rows are an array/ })
  const ends = (function * () {
    yield [1]
    throw new Error('of the rows')
  })()
  assert.throws(() => bindRows('?', ends), { message: 'of the rows' })
})

test('templates', () => {
  const template = new mysqlParams.Template("'\\' :a '", { noBackslashEscape: true })
  assert.deepEqual([template.query, template.noBackslashEscape], ["'\\' :a '", true])
  assert.equal(template.bind({ a: 1 }), "'\\' 1 '")
  assert.equal(new mysqlParams.Template("'\\' :a '").bind(), "'\\' :a '")
  const bytes = Buffer.from('?, ?')
  const ofBytes = new mysqlParams.Template(bytes)
  bytes.fill(120)
  ofBytes.query.fill(120)
  assert.deepEqual(ofBytes.bind([1, 2]), Buffer.from('1, 2'))
  assert.equal(new mysqlParams.Template('a IN (?)').bind([[1, 2]]), 'a IN (1, 2)')
  assert.throws(() => new mysqlParams.Template(':a').bind({}), { number: 9, placeName: 'a' })
  assert.throws(() => new mysqlParams.Template('?', { timezone: 'Z' }), TypeError)
  assert.throws(() => mysqlParams.Template.prototype.bind.call({}, [1]), TypeError)
  assert.throws(() => Object.create(template).query, TypeError)
})

test('every value of one byte', () => {
  const escapes = { 0: '0', 10: 'n', 13: 'r', 26: 'Z', 92: '\\', 39: "'", 34: '"' }
  for (let byte = 0; byte < 256; byte++) {
    const hex = `0x${byte.toString(16).toUpperCase().padStart(2, '0')}`
    const letter = String.fromCharCode(byte)
    const literalOf = byte >= 128 ? hex : byte in escapes ? `'\\${escapes[byte]}'` : `'${letter}'`
    assert.equal(literal(Buffer.from([byte])), literalOf)
    const plain = byte >= 128 ? hex : byte === 39 ? "''''" : `'${letter}'`
    assert.equal(literal(Buffer.from([byte]), { noBackslashEscape: true }), plain)
    if (byte < 128) assert.equal(literal(letter), literalOf)
  }
})
