'use strict'
// Texts sent over drivers that are played, in the shapes of mysql2 and mysql: server.test.js has a real driver and server.

const assert = require('node:assert/strict')
const { test } = require('node:test')
const { Connection, Query, Telling } = require('./played.js')
const { mysqlParams } = require('./shared_cases.js')

const { askAgain, execute, query } = mysqlParams
const HOSTILE = "\\' , 7 #"
// It as a guarded literal, with backslash escapes and without.
const [HOSTILE_ESCAPED, HOSTILE_BARE] = ["'\\\\'' , 7 #'", '_utf8mb4 0x5C27202C20372023']

// What is sent for a backslash, without backslash escapes and with them.
const [BARE, ESCAPED] = ['SELECT _utf8mb4 0x5C', "SELECT '\\\\'"]
const [WITHOUT, WITH] = ["SET sql_mode = 'NO_BACKSLASH_ESCAPES'", "SET sql_mode = ''"]

test('a connection that tells of its commands is asked once', async () => {
  const connection = new Telling()
  assert.deepEqual(await query(connection, 'SELECT ?', [HOSTILE]), [{ affectedRows: 1 }, ['fields']])
  assert.deepEqual(await execute(connection, 'SELECT ?', [HOSTILE]), { affectedRows: 2 })
  await Promise.all([1, 2, 3].map((id) => query(connection, 'SELECT :id', { id })))
  assert.deepEqual(connection.sent, [...Array(2).fill(`SELECT ${HOSTILE_ESCAPED}`), 'SELECT 1', 'SELECT 2', 'SELECT 3'])
  assert.equal(connection.asked, 1)
})

test('a connection that tells of no command is asked before each text', async () => {
  const connection = new Connection()
  for (const mode of [WITHOUT, WITH, WITHOUT]) {
    await connection.plain(mode)
    await query(connection, 'SELECT ?', ['\\'])
  }
  assert.deepEqual(connection.sent, [WITHOUT, BARE, WITH, ESCAPED, WITHOUT, BARE])
  assert.equal(connection.asked, 3)
})

test('the call of the first page', async () => {
  const connection = new Connection()
  await query(connection, 'SELECT :id', { id: 42 })
  assert.deepEqual(connection.sent, ['SELECT 42'])
})

test('a query with U+FFFD', async () => {
  const connection = new Connection()
  await query(connection, "SELECT '\ufffd', ?", ['\ufffd'])
  assert.deepEqual(connection.sent, ["SELECT '\ufffd', '\ufffd'"])
  await assert.rejects(query(connection, "SELECT '\ufffd' /*! ? */", [1]), { kind: 'UNPORTABLE', position: 13 })
  await assert.rejects(query(connection, "SELECT '\ud800'"), { name: 'TypeError' })
})

test('calls at once ask once', async () => {
  for (const connection of [new Connection(), new Telling()]) {
    await Promise.all([1, 2, 3].map((id) => query(connection, 'SELECT :id', { id })))
    assert.deepEqual([connection.asked, connection.sent], [1, ['SELECT 1', 'SELECT 2', 'SELECT 3']])
  }
})

test('calls at once, of which one changes the mode', async () => {
  for (const connection of [new Connection(), new Telling()]) {
    const sent = [query(connection, 'SELECT ?', ['\\']), query(connection, 'SET sql_mode = ?', ['NO_BACKSLASH_ESCAPES']),
      query(connection, 'SELECT ?', ['\\']), query(connection, 'SELECT ?', ['\\'])]
    await Promise.all(sent)
    assert.deepEqual([connection.asked, connection.sent], [2, [ESCAPED, WITHOUT, BARE, BARE]])
  }
})

test('the mode of the connection', async () => {
  for (const mode of ['NO_BACKSLASH_ESCAPES', 'ANSI,no_backslash_escapes', 'STRICT_TRANS_TABLES,NO_BACKSLASH_ESCAPES']) {
    const connection = new Connection({ m: Buffer.from(mode) })
    await query(connection, 'SELECT ?', [HOSTILE])
    assert.deepEqual(connection.sent, [`SELECT ${HOSTILE_BARE}`])
  }
  const connection = new Connection({ m: 'MY_NO_BACKSLASH_ESCAPES' })
  await query(connection, 'SELECT ?', ['\\'])
  assert.deepEqual(connection.sent, [ESCAPED])
})

test('it is asked again', async () => {
  const connection = new Telling()
  await query(connection, 'SELECT ?', ['\\'])
  connection.session.m = 'NO_BACKSLASH_ESCAPES'
  askAgain(connection)
  await query(connection, 'SELECT ?', ['\\'])
  connection.session.m = ''
  connection.threadId = 8 // The driver has connected anew.
  await query(connection, 'SELECT ?', ['\\'])
  connection.session.m = 'NO_BACKSLASH_ESCAPES'
  await query(connection, 'SELECT ?', ['\\'], { alwaysAsk: true })
  connection.session.m = ''
  await query(connection, 'SET sql_mode = ?', [''])
  await query(connection, 'SELECT ?', ['\\'])
  assert.deepEqual(connection.sent, [ESCAPED, BARE, ESCAPED, BARE, WITH, ESCAPED])
  assert.equal(connection.asked, 5)
  askAgain(new Connection()) // It wasn't asked yet.
  await assert.rejects(query(connection, 'SELECT 1', [], { alwaysAsk: 1 }),
    { name: 'TypeError', message: 'alwaysAsk is true or false' })
})

test('the connections of a pool are asked again', async () => {
  const connections = [new Telling(), new Telling()]
  const pool = { query() {}, getConnection: (done) => done(null, connections[0]) }
  for (const given of [pool, { pool, query() {} }]) {
    for (const [mode, wanted] of [['', ESCAPED], ['NO_BACKSLASH_ESCAPES', BARE]]) {
      for (const connection of connections) connection.session.m = mode
      askAgain(given)
      await query(given, 'SELECT ?', ['\\'])
      await query(connections[1], 'SELECT ?', ['\\']) // One that the program took from the pool itself.
      assert.deepEqual(connections.map((connection) => connection.sent.at(-1)), [wanted, wanted])
    }
  }
  assert.deepEqual(connections.map((connection) => connection.asked), [4, 4])
  askAgain(pool)
  const sent = query(pool, 'SELECT ?', ['\\'])
  askAgain(pool) // The question is under way.
  await sent
  assert.equal(connections[0].asked, 6)
})

test('it is asked again while a question is under way', async () => {
  const connection = new Telling()
  const sent = query(connection, 'SELECT ?', ['\\'])
  connection.session.m = 'NO_BACKSLASH_ESCAPES' // The program has sent a SET behind the question.
  askAgain(connection)
  await sent
  assert.deepEqual([connection.sent, connection.asked], [[BARE], 2])
  const always = query(connection, 'SELECT ?', ['\\'], { alwaysAsk: true })
  const other = query(connection, 'SELECT ?', ['\\'], { alwaysAsk: true })
  connection.session.m = ''
  await Promise.all([always, other])
  assert.deepEqual([connection.sent.length, connection.asked], [3, 4])
})

test('commands of the program behind a question', async () => {
  for (const connection of [new Connection(), new Telling()]) {
    const sent = query(connection, 'SELECT ?', ['\\'])
    const set = connection.plain(WITHOUT)
    const other = connection.plain('SELECT 1')
    await sent
    assert.deepEqual([connection.sent, connection.asked], [[WITHOUT, 'SELECT 1', BARE], 2])
    await Promise.all([set, other])
    await connection.plain(WITH)
    const again = query(connection, 'SELECT ?', ['\\'])
    const kept = [connection.plain('SELECT 1'), connection.plain('SELECT 2')]
    await Promise.all([again, ...kept])
    assert.deepEqual([connection.sent.slice(4), connection.asked], [['SELECT 1', 'SELECT 2', ESCAPED], 3])
  }
  // As mysql2 writes Latin-1, the letter is a semicolon.
  assert.equal(Buffer.from('Ļ', 'latin1').toString('latin1'), ';')
  const connection = new Connection({}, { charsetNumber: 8 })
  const sent = query(connection, 'SELECT ?', ['\\'])
  await Promise.all([sent, connection.plain(`SELECT 1Ļ ${WITHOUT}`)])
  assert.deepEqual(connection.sent.at(-1), BARE)
})

test('no text is read in another mode, in whatever order commands come', async () => {
  let seed = 1
  const below = (count) => {
    seed = (Math.imul(seed, 1103515245) + 12345) >>> 0
    return (seed >>> 16) % count
  }
  for (let round = 0; round < 300; round++) {
    const connection = round % 2 ? new Telling() : new Connection()
    const { run } = connection
    let texts = 0
    connection.run = function (sql) {
      if (sql === BARE || sql === ESCAPED) {
        texts++
        assert.equal(sql, this.session.m === '' ? ESCAPED : BARE, `round ${round}`)
      }
      return run.call(this, sql)
    }
    const sent = []
    let wanted = 0
    for (let i = 0; i < 30; i++) {
      const of = below(8)
      if (of < 3) wanted++
      if (of < 3) sent.push(query(connection, 'SELECT ?', ['\\'], { alwaysAsk: of === 0 }))
      else if (of === 3) sent.push(query(connection, 'SET sql_mode = ?', [below(2) ? '' : 'NO_BACKSLASH_ESCAPES']))
      else if (of === 4) sent.push(connection.plain(below(2) ? WITH : WITHOUT))
      else if (of === 5) sent.push(connection.plain('SELECT 1'))
      else if (of === 6) await new Promise((resolve) => setImmediate(resolve))
      else await sent[below(sent.length + 1)]
    }
    await Promise.all(sent)
    assert.equal(texts, wanted)
  }
})

test('a driver that shows neither its commands nor their queue', async () => {
  for (const queue of [undefined, null, {}, { length: 1 }, { length: 1, toArray: () => 'x' }]) {
    const connection = Object.assign(new Connection(), { _commands: queue })
    await assert.rejects(query(connection, 'SELECT 1'), { name: 'TypeError',
      message: 'the connection shows no queue of commands: a connection or a pool of mysql or mysql2 is wanted' })
    assert.deepEqual(connection.sent, [])
  }
})

test('connections and pools with promises', async () => {
  const core = new Connection({}, { namedPlaceholders: true })
  await query({ connection: core, query: async () => assert.fail() }, "SELECT :a, ':b ?'", { a: ':c ?' })
  assert.deepEqual(core.sent, ["SELECT ':c ?', ':b ?'"])
  const pool = { query() {}, getConnection: (done) => setImmediate(() => done(null, core)) }
  for (const given of [pool, { pool, query: async () => assert.fail() }]) await query(given, 'SELECT ?', [1])
  await assert.rejects(query(pool, 'SELECT :a', {}), { number: 9 })
  await assert.rejects(query(pool, 'SELECT ?', [{}]), { name: 'TypeError' })
  assert.deepEqual([core.asked, core.released], [4, 3])
  const empty = { query() {}, getConnection: (done) => done(new Error('no connection')) }
  await assert.rejects(query(empty, 'SELECT 1'), { message: 'no connection' })
  core.config.queryFormat = () => {}
  await assert.rejects(query(pool, 'SELECT 1'), { name: 'TypeError', message: /queryFormat/ })
  assert.equal(core.released, 4)
})

// Character sets in which the last byte of a letter may be a backslash, as TextDecoder names them: such a letter, its bytes, and
// the numbers of MySQL's collations of gbk, big5, cp932, sjis and gb18030.
const SETS = [
  ['gbk', '誠', 'd55c', [28, 87]],
  ['big5', '功', 'a55c', [1, 84]],
  ['shift_jis', '表', '955c', [95, 96]],
  ['shift_jis', '表', '955c', [13, 88]],
  ['gb18030', '誠', 'd55c', [248, 249, 250]]
]

test('a text that the driver would write in another character set', async () => {
  for (const [name, letter, hex, numbers] of SETS) {
    const bytes = Buffer.from(hex, 'hex')
    assert.equal(new TextDecoder(name).decode(bytes), letter)
    const value = `${letter}' OR 1=1 -- `
    // What a server with utf8mb4 would read behind the string.
    const written = `SELECT '${value.replace("'", "''")}'`.replace(letter, bytes.toString('latin1'))
    assert.equal(written.replace(/^SELECT '(?:[^'\\]|\\.|'')*'/s, ''), " OR 1=1 -- '")
    for (const charsetNumber of numbers) {
      const connection = new Connection({}, { charsetNumber })
      const message = `The driver writes texts by charsetNumber ${charsetNumber}, not utf8mb4's, and this one isn't ASCII: ` +
        "connect with charset: 'utf8mb4'"
      const wanted = { name: 'SessionError', kind: 'SESSION', variable: 'charsetNumber', value: String(charsetNumber), message }
      await assert.rejects(query(connection, 'SELECT ?', [value]), wanted)
      await assert.rejects(execute(connection, `SELECT '${letter}', ?`, [1]), wanted)
      await query(connection, 'SELECT ?', [HOSTILE])
      assert.deepEqual(connection.sent, [`SELECT ${HOSTILE_ESCAPED}`])
    }
  }
  assert.equal(Buffer.from('ħ', 'latin1').toString('latin1'), "'") // As mysql2 writes Latin-1.
  const others = [0, 5, 8, 11, 33, 35, 54, 63, 83, 192, 223, 248, 254, 324, 608, 1069, 2304, '45', 45.5, NaN, null, 45n]
  for (const charsetNumber of others) {
    await assert.rejects(query(new Connection({}, { charsetNumber }), 'SELECT ?', ['ħ OR 1=1 -- ']), { kind: 'SESSION' })
  }
  const hidden = new Connection()
  for (const config of [undefined, null, 7, {}, { charsetNumber: undefined }, Object.create({ charsetNumber: 224 })]) {
    hidden.config = config
    await assert.rejects(query(hidden, 'SELECT ?', ['é']), { kind: 'SESSION', value: 'undefined',
      message: /^The driver writes texts in a character set that it doesn't show, and/ })
  }
  assert.deepEqual(hidden.sent, [])
  for (const charsetNumber of [45, 46, 224, 246, 247, 255, 278, 323]) {
    const connection = new Connection({}, { charsetNumber })
    await query(connection, 'SELECT ?', ['誠ħ\u{1F600}'])
    assert.deepEqual(connection.sent, ["SELECT '誠ħ\u{1F600}'"])
  }
})

test('faults of the driver', async () => {
  const connection = new Connection()
  connection.fault = new Error('of the driver')
  await assert.rejects(query(connection, 'SELECT 1'), { message: 'of the driver' })
  await assert.rejects(query(connection, 'SELECT 1'), { message: 'of the driver' })
  delete connection.fault
  await query(connection, 'SELECT 1')
  assert.deepEqual([connection.asked, connection.sent.length], [3, 1])
  connection.query = () => { throw new Error('at once') }
  await assert.rejects(query(connection, 'SELECT 1'), { message: 'at once' })
  askAgain(connection)
  await assert.rejects(query(connection, 'SELECT 1'), { message: 'at once' })
  delete connection.query
  await query(connection, 'SELECT 1')
  assert.equal(connection.sent.length, 2)
  for (const session of [{ c: 'latin1' }, { n: 'gbk' }, { c: 'utf8mb3' }, { n: null }]) {
    const other = new Connection(session)
    for (let i = 0; i < 2; i++) await assert.rejects(query(other, 'SELECT 1'), { kind: 'SESSION' })
    assert.deepEqual([other.asked, other.sent], [2, []])
  }
})

test('an error shows the line of its call first', async () => {
  const connection = new Telling()
  async function ofProgram(call, ...given) {
    return await call(connection, ...given)
  }
  const isShown = (error) => {
    const [head, first] = error.stack.split('\n    at ')
    assert.equal(head, `${error.name}: ${error.message}`)
    assert.match(first, /^(?:async )?ofProgram \(.*sending\.test\.js:\d+:\d+\)$/)
    assert.equal(error.stack.split('--------------------').length, 2)
    assert.equal(Object.keys(error).includes('stack'), false)
    return true
  }
  const getter = { get a() { throw new Error('of a getter') } }
  const long = ['x'.repeat(1 << 20)]
  for (const call of [query, execute]) {
    for (const given of [['SELECT :b', { a: 1 }], ['SELECT ?', [{}]], ['SELECT ?', [NaN]], ['SELECT ?', long], ['SELECT [?', [1]],
      ['SELECT 1', [], { mode: 1 }], ['SELECT 1', [], { timezone: 1 }], [7], ['SELECT :a', getter]]) {
      await assert.rejects(ofProgram(call, ...given), isShown)
    }
    connection.fault = new Error('of the driver')
    await assert.rejects(ofProgram(call, 'SELECT 1'), isShown)
    delete connection.fault
  }
  await assert.rejects(ofProgram(query, 'SELECT :a', getter), (error) => /at get a /.test(error.stack))
  // What is found before anything is sent shows it without an await, too.
  function ofThen(call) {
    return call(connection, 'SELECT :b', { a: 1 }).then(() => assert.fail())
  }
  for (const call of [query, execute]) {
    await assert.rejects(ofThen(call), (error) => /^    at ofThen \(/.test(error.stack.split('\n')[1]))
  }
  // What several calls wait for fails once.
  connection.fault = new Error('of the question')
  askAgain(connection)
  await Promise.all([1, 2, 3].map(() => assert.rejects(ofProgram(query, 'SELECT 1'), isShown)))
  assert.equal(connection.asked, 2)
  delete connection.fault
  // What can't be changed stays, and what is no error.
  const frozen = Object.freeze(new Error('frozen'))
  for (const thrown of [frozen, 'a text', undefined, null, { stack: 7 }]) {
    await assert.rejects(ofProgram(query, 'SELECT :a', { get a() { throw thrown } }), (error) => error === thrown)
  }
})

test('commands that the driver tells of', async () => {
  class ChangeUser {}
  class Ping {}
  const a = class { constructor(sql) { this.sql = sql } } // As a minified bundle has it.
  const connection = new Telling()
  const kept = ['SELECT 1', ' insert into t values (1)', 'COMMIT', 'UPDATE t SET a = 1', 'START TRANSACTION', 'SHOW TABLES']
  const lost = [WITHOUT, 'CALL p()', 'SELECT 1; SET NAMES gbk', '/* x */ SET NAMES gbk', 'SELECTED', 'USE d', '',
    "SELECT ';'", `/*!${WITHOUT}*/`, 'SET STATEMENT max_statement_time = 1 FOR SELECT 1', undefined, null, 7, ['SELECT 1'],
    { toString: () => 'SELECT 1' }]
  await query(connection, 'SELECT 1')
  for (const sql of kept) {
    for (const command of [new Query(sql), new a(sql), { sql }, new Ping()]) connection.emit('enqueue', command)
    await query(connection, 'SELECT 1')
    assert.equal(connection.asked, 1, sql)
  }
  const commands = lost.flatMap((sql) => [new Query(sql), new a(sql)])
  for (const [i, command] of [...commands, new ChangeUser(), new (class b {})(), undefined, null, 'SELECT 1'].entries()) {
    connection.emit('enqueue', command)
    await query(connection, 'SELECT 1')
    assert.equal(connection.asked, 2 + i, command?.sql)
  }
})

test('commands within the driver\'s call', async () => {
  // A handshake stands before the question.
  const connection = new Telling()
  const { query: plain } = connection
  connection.query = function (...given) {
    if (this.asked === 0) this.emit('enqueue', { constructor: class Handshake {} })
    return plain.apply(this, given)
  }
  await query(connection, 'SELECT 1')
  assert.equal(connection.asked, 1)
  // What a listener sends stands behind it.
  const other = new Telling()
  other.once('enqueue', () => other.plain(WITHOUT))
  await query(other, 'SELECT ?', ['\\'])
  assert.deepEqual([other.sent, other.asked], [[WITHOUT, BARE], 2])
})

test('a polluted Object.prototype', async () => {
  const inner = { query: () => assert.fail() }
  const polluted = { values: ['x'], typeCast: () => 'x', timeout: 1, nestTables: '_', rowsAsArray: true, charsetNumber: 224,
    infileStreamFactory: () => {}, noBackslashEscape: true, alwaysAsk: true, steady: true, pool: inner, connection: inner }
  for (const [name, value] of Object.entries(polluted)) {
    // eslint-disable-next-line no-extend-native
    Object.defineProperty(Object.prototype, name, { value, configurable: true, writable: true })
  }
  try {
    for (const connection of [new Telling(), new Telling({}, { typeCast: false, nestTables: '.' })]) {
      await query(connection, 'SELECT ?, \'?\'', ['\\'])
      await query(connection, 'SELECT ?, \'?\'', ['\\'], { timezone: 'Z' })
      assert.deepEqual([connection.sent, connection.asked], [Array(2).fill("SELECT '\\\\', '?'"), 1])
      connection.config = {}
      await assert.rejects(query(connection, 'SELECT ?', ['é']), { kind: 'SESSION' })
    }
  } finally {
    for (const name of Object.keys(polluted)) delete Object.prototype[name]
  }
})
