'use strict'
// What texts `query` and `execute` send: guarded literals, plain ones, and the text of bindAnywhere. Each text is what "Guarded
// binding" and "Steady literals" of docs/RULES.md say.

const assert = require('node:assert/strict')
const { test } = require('node:test')
const { Connection, Telling } = require('./played.js')
const { mysqlParams } = require('./shared_cases.js')

const { Assignments, BindError, Decimal, Identifier, In, Keyword, bind, bindAnywhere, execute,
  firstUnportable, query } = mysqlParams
const MODES = ['', 'NO_BACKSLASH_ESCAPES']
const UTC = { timezone: 'Z' }

// Each value with its literal in a mode with backslash escapes, and in one without if that is another.
const LITERALS = [
  ["it's", "'it''s'"],
  ['', "''"],
  ['é', "'é'"],
  ['\0\n\r\x1a"`%', "'\0\n\r\x1a\"`%'"],
  ['\\', "'\\\\'", '_utf8mb4 0x5C'],
  ["\\'", "'\\\\'''", '_utf8mb4 0x5C27'],
  ['a\\\n\0', "'a\\\\\n\0'", '_utf8mb4 0x615C0A00'],
  ['é\\', "'é' '\\\\'", '_utf8mb4 0xC3A95C'],
  ["é\\'\\\\", "'é' '\\\\''\\\\\\\\'", '_utf8mb4 0xC3A95C275C5C'],
  ["é'\\", "'é''\\\\'", '_utf8mb4 0xC3A9275C'],
  ['é\\é\\n', "'é' '\\\\é' '\\\\n'", '_utf8mb4 0xC3A95CC3A95C6E'],
  [Buffer.from([255]), '0xFF'],
  [Buffer.from([255, 92, 39, 0]), '0xFF5C2700'],
  [Buffer.from("a'\\"), "'a''\\\\'", '_utf8mb4 0x61275C'],
  [null, 'NULL'],
  [true, '1'],
  [-7, '-7'],
  [0.5, '0.5e0'],
  [2n ** 70n, '1180591620717411303424'],
  [new Decimal('9.90'), '9.90'],
  [new Date(Date.UTC(2019, 10, 27)), "'2019-11-27'"],
  [new In(["it's", '\\', null]), "'it''s', '\\\\', NULL", "'it''s', _utf8mb4 0x5C, NULL"],
  [new In([['é\\', 1], ["'", 2]]), "('é' '\\\\', 1), ('''', 2)", "(_utf8mb4 0xC3A95C, 1), ('''', 2)"],
  [new Identifier('a`b', "c'd"), "`a``b`.`c'd`"],
  [[new Identifier('a'), new Identifier('t', 'b')], '`a`, `t`.`b`'],
  [new Assignments({ a: "\\'" }), "`a` = '\\\\'''", '`a` = _utf8mb4 0x5C27'],
  [new Keyword('DESC', ['DESC']), 'DESC']
]

let number = 0

/** The same query, which no call has seen: its places are not kept. */
function unseen(sql) {
  return `${sql} /* ${number++} */`
}

/** The text that is sent over a connection in a mode. Several calls of a query, whose places are then kept, send the same. */
async function sent(m, sql, params, options) {
  const connection = new Telling({ m })
  for (const call of [query, execute, query, execute]) await call(connection, sql, params, options)
  assert.deepEqual(connection.sent, Array(4).fill(connection.sent[0]))
  return connection.sent[0]
}

/** A query is sent as this text with the literal of each mode in the place of `{}`. */
async function expectSent(sql, params, text, literals, options) {
  for (const [i, m] of MODES.entries()) {
    const first = unseen(sql)
    const wanted = text.replaceAll('{}', () => literals[i]) + first.slice(sql.length)
    assert.equal(await sent(m, first, params, options), wanted)
  }
}

test('guarded literals', async () => {
  for (const [value, escaped, bare = escaped] of LITERALS) {
    const literals = [escaped, bare]
    await expectSent('SELECT :a', { a: value }, 'SELECT {}', literals, UTC)
    await expectSent('SELECT ?', [value], 'SELECT {}', literals, UTC)
    await expectSent(":B = :a, ':a', :B", { a: value, B: value }, "{} = {}, ':a', {}", literals, UTC)
    await expectSent(':b = :a', new Map([['a', value], ['b', 1]]), '1 = {}', literals, UTC)
    await expectSent(':b = :a', { a: value, b: "x'", c: 7 }, "'x''' = {}", literals, UTC)
  }
  await expectSent('SELECT 1 IN (?), (?)', [["it's", 2], [['\\', 3]]], "SELECT 1 IN ('it''s', 2), (({}, 3))",
    ["'\\\\'", '_utf8mb4 0x5C'])
})

test('guarded literals in long texts', async () => {
  const columns = 'a, '.repeat(2000)
  for (const sql of [`SELECT ${columns}`, 'SELECT ']) {
    for (const count of [1, 30000, 100000]) {
      const value = "it's".repeat(count)
      await expectSent(`${sql}:a, :b`, { a: value, b: '\\' }, `${sql}'${"it''s".repeat(count)}', {}`,
        ["'\\\\'", '_utf8mb4 0x5C'])
    }
  }
  const [pairs, hex] = ["é' '\\\\".repeat(50000), 'C3A95C'.repeat(50000)]
  await expectSent('SELECT ?', ['é\\'.repeat(50000)], 'SELECT {}', [`'${pairs}'`, `_utf8mb4 0x${hex}`])
})

test('plain literals where the query or a name is not ASCII without a backslash', async () => {
  const name = new Identifier('é')
  const columns = 'é, '.repeat(2000)
  for (const [sql, params, text] of [
    ['SELECT :a /* é */', {}, 'SELECT {} /* é */'], ["SELECT :a, '\\\\'", {}, "SELECT {}, '\\\\'"],
    ['SELECT :n = :a', { n: name }, 'SELECT `é` = {}'],
    ['SELECT :n = :a', { n: new Identifier('a\\b', 'c') }, 'SELECT `a\\b`.`c` = {}'],
    ['SET :n, b = :a', { n: new Assignments([[name, 'x']]) }, "SET `é` = 'x', b = {}"],
    ['(:n) VALUES (:a)', { n: [new Identifier('b'), name] }, '(`b`, `é`) VALUES ({})'],
    [`SELECT ${columns}:A, :a`, { A: 0.5 }, `SELECT ${columns}0.5e0, {}`]
  ]) {
    await expectSent(sql, { a: "it's\\\n", ...params }, text, ["'it\\'s\\\\\\n'", "'it''s\\\n'"])
    const long = "it's".repeat(30000)
    await expectSent(sql, { a: long, ...params }, text,
      [`'${"it\\'s".repeat(30000)}'`, `'${"it''s".repeat(30000)}'`])
  }
  // A backslash that only one mode reads as an escape.
  assert.equal(await sent(MODES[1], "SELECT '\\', :a", { a: "'" }), "SELECT '\\', ''''")
  await assert.rejects(query(new Telling(), "SELECT '\\', :a", { a: "'" }), { name: 'BindError' })
})

/** What a server in a mode reads outside of a text's strings, of which each is a quote; null if one has no end. */
function outside(text, escapes, isGbk) {
  const bytes = Buffer.from(text)
  let [read, isOpen] = ['', false]
  for (let at = 0; at < bytes.length; at++) {
    // To gbk a byte from 0x81 on is one letter with the byte after it, if that is from 0x40 on.
    const isWide = isGbk && bytes[at] >= 0x81 && bytes[at + 1] >= 0x40
    const letter = isWide ? '' : String.fromCharCode(bytes[at])
    if (isWide) at++
    if (isOpen && (letter === '\\' ? escapes : letter === "'" && bytes[at + 1] === 39)) {
      at++
      continue
    }
    if (letter === "'") isOpen = !isOpen
    if (letter === "'" ? isOpen : !isOpen) read += letter
  }
  return isOpen ? null : read
}

test('a session that has changed, and the package was not told', async () => {
  const values = ["\\' OR 1=1 -- ", "' , 7 -- ", '\\', "é\\' , 7 -- ", "誠' , 7 -- ", '誠\\', Buffer.from([191, 39, 32, 55]),
    "\\\\' '\\\\\\' , 7 -- "]
  for (const [told, other] of [MODES, [...MODES].reverse()]) {
    const connection = new Telling({ m: told })
    await query(connection, 'SELECT 1')
    connection.session.m = other
    for (const value of values) {
      await query(connection, "SELECT :a, 'kept', :b", { a: value, b: value })
      const text = connection.sent.at(-1)
      for (const [escapes, isGbk] of [[true, false], [false, false], [true, true], [false, true]]) {
        // Strings with white space between them are one, and digits stand for one too.
        const read = outside(text, escapes, isGbk).replaceAll(/' '|(?:_utf8mb4 )?0x[0-9A-F]+/g, "'")
        assert.equal(read, "SELECT ', ', '", text)
      }
    }
    assert.equal(connection.asked, 1)
  }
  // Of a plain text a value leaves its literal there.
  const plain = await sent('', "SELECT :a, 'é'", { a: "' , 7 -- " })
  assert.deepEqual([outside(plain, true, false), outside(plain, false, false)], ["SELECT ', '", null])
})

test('a steady text', async () => {
  const literals = "_utf8mb4'it''s', _utf8mb4 0x5C, _utf8mb4 0xC3A9, 0xFF, 1"
  const values = ["it's", '\\', 'é', Buffer.from([255]), 1]
  const steady = { steady: true, ...UTC }
  await expectSent('SELECT ?, ?, ?, ?, ?', values, 'SELECT {}', [literals, literals], steady)
  await expectSent('SELECT ?', [new In(values)], 'SELECT {}', [literals, literals], steady)
  for (const [value] of LITERALS) {
    const literal = bindAnywhere('?', [value], UTC)
    await expectSent('SELECT :a', { a: value }, 'SELECT {}', [literal, literal], steady)
  }
  const long = "it's".repeat(100000)
  await expectSent('SELECT ?', [long], "SELECT _utf8mb4'{}'", Array(2).fill("it''s".repeat(100000)), steady)
  // It is ASCII, whatever set the driver writes; a guarded text with the letter isn't.
  const connection = new Connection({}, { charsetNumber: 28 })
  await query(connection, 'SELECT ?', ['é'], { steady: true })
  assert.deepEqual(connection.sent, ['SELECT _utf8mb4 0xC3A9'])
  for (const options of [{}, { steady: false }, { steady: undefined }, Object.create({ steady: true })]) {
    await assert.rejects(query(connection, 'SELECT ?', ['é'], options), { kind: 'SESSION', variable: 'charsetNumber' })
    await query(connection, 'SELECT ?', ['\\'], options)
    assert.equal(connection.sent.at(-1), "SELECT '\\\\'")
  }
  // The connection is asked all the same.
  await assert.rejects(query(new Connection({ c: 'gbk' }), 'SELECT ?', ['x'], steady), { kind: 'SESSION', value: 'gbk' })
  await assert.rejects(query(new Connection({ p: 21 }), 'SELECT ?', ['x'], steady), { kind: 'PACKET', length: 18, most: 17 })
})

/** What a call throws, as one text. */
function thrown(error) {
  assert.ok(error instanceof BindError)
  return `${error.name} ${error.message} ${JSON.stringify(error)}`
}

/** The refusal of a call of `query`, which sends nothing; several calls of the query are refused alike. */
async function refusalOf(m, ...given) {
  const connection = new Telling({ m })
  const refusals = []
  for (let i = 0; i < 3; i++) await query(connection, ...given).catch((error) => refusals.push(thrown(error)))
  assert.deepEqual([connection.sent, refusals], [[], Array(3).fill(refusals[0])])
  return refusals[0]
}

test('a steady text that is refused', async () => {
  const name = new Identifier('é')
  for (const [sql, params, kind] of [
    ["SELECT 'é', :a", { a: 1 }, 'UNSTEADY'], ["SELECT '\\\\', :a", { a: 1 }, 'UNSTEADY'], ['SELECT [é', {}, 'UNSTEADY'],
    ['SELECT :n', { n: name }, 'UNSTEADY_FRAGMENT'], ['SELECT :n', { n: new Assignments([[name, 1]]) }, 'UNSTEADY_FRAGMENT'],
    ['SELECT [:a', { a: 1 }, 'UNPORTABLE'], ['SELECT /*! :a */ 1', {}, 'UNPORTABLE'], ['SELECT :a', {}, 'MISSING'],
    ['SELECT :a', { a: NaN }, 'FLOAT'], ['SELECT IN (:a)', { a: [] }, 'FAULT'], ['SELECT :a', { a: [1] }, 'UNBRACKETED']
  ]) {
    for (const m of MODES) {
      const whole = unseen(sql)
      const refusal = await refusalOf(m, whole, params, { steady: true })
      assert.throws(() => bindAnywhere(whole, params), (error) => thrown(error) === refusal && error.kind === kind)
    }
  }
})

test('values that are refused as bind refuses them', async () => {
  for (const [sql, params, kind] of [
    [':a, ?', {}, 'MIXED'], [':a', {}, 'MISSING'], [':a', [], 'MISSING'], [':a, :b', { c: 1 }, 'MISSING'],
    [':A, :a, :b', { c: 0.5 }, 'MISSING'], ['?', { a: 1 }, 'NAMED_FOR_POSITIONAL'], [':a', [1], 'POSITIONAL_FOR_NAMED'],
    ['?, ?', [1], 'MARK_COUNT'], ['1:a', { a: 1 }, 'NOT_ALONE'], [':b, :a', { a: NaN, b: 1 }, 'FLOAT'],
    ['IN (:a)', { a: [] }, 'FAULT'], [':a', { a: [1] }, 'UNBRACKETED'], [':n, :a', { n: new Identifier('é') }, 'MISSING']
  ]) {
    for (const whole of [unseen(`SELECT ${sql}`), unseen(`SELECT 'é', ${sql}`)]) {
      for (const [i, m] of MODES.entries()) {
        const refusal = await refusalOf(m, whole, params)
        assert.throws(() => bind(whole, params, { noBackslashEscape: i === 1 }),
          (error) => thrown(error) === refusal && error.kind === kind)
      }
    }
  }
})

test('a query that is not portable is refused before its values', async () => {
  for (const [sql, position, construct] of [
    ['SELECT /*! :a */ 1', 7, 'EXECUTABLE_COMMENT'], ['SELECT [:a, 1:b', 7, 'BRACKET'], ["SELECT 'é' /*+ x(:a) */", 12, 'HINT'],
    ["SELECT '\\\\' --\t:a", 12, 'DASHES'], [`SELECT ${'a, '.repeat(2000)}:A [`, 6010, 'BRACKET']
  ]) {
    const found = firstUnportable(sql)
    assert.deepEqual([found.position, found.construct], [position, construct])
    const fields = { code: 'ERR_MYSQL_PARAMS_UNPORTABLE', number: 16, kind: 'UNPORTABLE', position, construct }
    const message = `Not portable at byte ${position} of the query: ${found.message}`
    for (const m of MODES) {
      for (const params of [{ a: "it's" }, { A: 1 }, {}, [1], { a: new Identifier('é') }]) {
        assert.equal(await refusalOf(m, sql, params), `BindError ${message} ${JSON.stringify(fields)}`)
      }
    }
  }
})

test('a wrong option', async () => {
  const connection = new Connection()
  for (const given of [1, 0, null, 'true', [], {}]) {
    for (const name of ['steady', 'alwaysAsk']) {
      await assert.rejects(execute(connection, 'SELECT 1', [], { [name]: given }),
        { name: 'TypeError', message: `${name} is true or false` })
    }
  }
  await assert.rejects(query(connection, 'SELECT 1', [], { Steady: true }), { name: 'TypeError',
    message: 'there is no option "Steady": the options are timezone, alwaysAsk, steady' })
  assert.deepEqual([connection.asked, connection.sent], [0, []])
})
