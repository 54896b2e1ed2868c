'use strict'
// Texts sent to a real MariaDB by node-mysql: hostile values come back as they are, and none runs.

const assert = require('node:assert/strict')
const { after, before, test } = require('node:test')
const { promisify } = require('node:util')
const { mysqlParams } = require('./shared_cases.js')
const server = require('./server.js')

const { Assignments, BindError, Decimal, Double, Identifier, In, Keyword, SessionError, askAgain, bindAnywhere, execute,
  query } = mysqlParams

let mysql
let why = server.missing()
try {
  mysql = require('mysql')
} catch {
  why ??= 'node-mysql is missing'
}
const skip = why ?? false

const HOSTILE = [
  "x' OR '1'='1", "\\' OR 1=1 -- ", '\\', "'", '"', '`', "\\'", "''", '%s', '?', ':a', '??', '\0', '\n', '\r', '\x1a',
    '; DROP TABLE t; --',
  '/* */', '/*! 1 */', '#', '-- ', "\\', 7 #", ', 7 #', "' UNION SELECT 7 -- ", 'é', '\u{1F600}', '縗', '\u00bf\\', '¿\'',
    '{ 7 }', '',
  `${"'".repeat(50)}${'\\'.repeat(51)}`, 'a'.repeat(70000), "it's", '\ufffd', '\u2028', 'NULL', '0', ' x '
]
const MODES = ['STRICT_TRANS_TABLES', 'STRICT_TRANS_TABLES,NO_BACKSLASH_ESCAPES', 'ANSI_QUOTES', '']

let running
const open = []

/** A connection of node-mysql. */
function connect(options = {}) {
  const connection = mysql.createConnection({ socketPath: running.socket, user: 'root', charset: 'utf8mb4', ...options })
  open.push(connection)
  return connection
}

/** Sends a text by the driver alone. */
function plain(connection, sql) {
  return promisify(connection.query).call(connection, sql)
}

/** Sends a text by the driver, which doesn't tell the package of it. */
async function unseen(connection, sql) {
  const listeners = connection.listeners('enqueue')
  connection.removeAllListeners('enqueue')
  await plain(connection, sql)
  for (const listener of listeners) connection.on('enqueue', listener)
}

before(async () => {
  if (skip) return
  running = await server.start()
  const connection = connect()
  await plain(connection, 'CREATE DATABASE d')
  await plain(connection,
    'CREATE TABLE d.t (id INT PRIMARY KEY AUTO_INCREMENT, a TEXT, b BLOB, c DECIMAL(30, 10), d DOUBLE, e DATETIME(3))')
}, { timeout: 120000 })

after(async () => {
  for (const connection of open) connection.destroy()
  await running?.stop()
})

test('hostile values come back, in each mode', { skip }, async () => {
  const connection = connect()
  for (const mode of MODES) {
    await plain(connection, `SET sql_mode = '${mode}'`)
    askAgain(connection)
    for (const value of HOSTILE) {
      const [rows, fields] = await query(connection, 'SELECT :a AS a, :b AS b, :c AS c', { a: value, b: 7, c: value })
      assert.deepEqual({ ...rows[0] }, { a: value, b: 7, c: value })
      assert.equal(fields.length, 3)
      const [marks] = await query(connection, "SELECT ? AS a, '?' AS b, ':a' AS c", [value])
      assert.deepEqual({ ...marks[0] }, { a: value, b: '?', c: ':a' })
      const [list] = await query(connection, 'SELECT 1 AS found WHERE ? IN (?)', [value, ['other', value]])
      assert.equal(list.length, 1)
    }
    // As node-mysql writes it, the 7 runs without backslash escapes.
    const [rows] = await query(connection, "SELECT ?, '1'", ["\\', 7 #"])
    assert.equal(Object.keys(rows[0]).length, 2)
  }
})

test('steady texts, in each mode', { skip }, async () => {
  const connection = connect()
  for (const mode of MODES) {
    await plain(connection, `SET sql_mode = '${mode}'`)
    for (const value of HOSTILE) {
      const [[row]] = await query(connection, 'SELECT :a AS a, :b AS b', { a: value, b: 7 }, { steady: true })
      assert.deepEqual({ ...row }, { a: value, b: 7 })
    }
  }
  await assert.rejects(query(connection, "SELECT 'é', ?", [1], { steady: true }), { kind: 'UNSTEADY', position: 8 })
})

test('no value runs in a session that has changed, and the package was not told', { skip }, async () => {
  const values = [...HOSTILE, "誠' AS a, 'x' AS b, 7 -- ", "é\\' AS a, 'x' AS b, 7 -- ", '誠\\', Buffer.from([191, 39, 32, 55])]
  for (const [told, other] of [['', 'NO_BACKSLASH_ESCAPES'], ['NO_BACKSLASH_ESCAPES', '']]) {
    for (const charset of ['utf8mb4', 'gbk', 'sjis', 'big5', 'latin1']) {
      const connection = connect()
      await plain(connection, `SET sql_mode = '${told}'`)
      await query(connection, 'SELECT 1')
      await unseen(connection, `SET sql_mode = '${other}'`)
      await unseen(connection, `SET NAMES ${charset}`)
      const before = await asked(connection)
      for (const value of values) {
        const [[row]] = await query(connection, "SELECT :a AS a, 'kept' AS b, :c AS c", { a: value, c: value })
        assert.deepEqual([Object.keys(row), row.b], [['a', 'b', 'c'], 'kept'])
        if (charset !== 'utf8mb4' || typeof value !== 'string') continue
        // Where no backslash is an escape, one that was doubled for the other mode stays two.
        assert.equal(row.a, told === '' ? value.replaceAll('\\', '\\\\') : value)
      }
      assert.equal(await asked(connection) - before, values.length + 1)
      connection.destroy()
    }
  }
})

test('each text of bindAnywhere, sent by the driver alone, in each mode', { skip }, async () => {
  for (const charset of ['utf8mb4', 'latin1', 'gbk', 'sjis']) {
    const connection = connect({ charset })
    for (const mode of MODES) {
      await plain(connection, `SET sql_mode = '${mode}'`)
      for (const value of HOSTILE) {
        const rows = await plain(connection, bindAnywhere('SELECT HEX(:a) AS a, :b AS b', { a: value, b: 7 }))
        assert.deepEqual({ ...rows[0] }, { a: Buffer.from(value).toString('hex').toUpperCase(), b: 7 })
      }
    }
    connection.destroy()
  }
})

test('values of all kinds are stored as they are', { skip }, async () => {
  const connection = connect({ database: 'd' })
  const bytes = Buffer.from(Array.from({ length: 256 }, (_, i) => i))
  const date = new Date(Date.UTC(2019, 10, 27, 12, 30, 5, 7))
  const values = { a: "it's \u{1F600}", b: bytes, c: new Decimal('12345678901234567890.0123456789'), d: 0.1, e: date }
  const done = await execute(connection, 'INSERT INTO t (a, b, c, d, e) VALUES (:a, :b, :c, :d, :e)', values, { timezone: 'Z' })
  assert.equal(done.affectedRows, 1)
  const [[row]] = await query(connection, 'SELECT a, b, CAST(c AS CHAR) AS c, d, CAST(e AS CHAR) AS e FROM t WHERE id = :id',
    { id: done.insertId })
  assert.deepEqual({ ...row }, { a: values.a, b: bytes, c: '12345678901234567890.0123456789', d: 0.1,
    e: '2019-11-27 12:30:05.007' })
  const [[other]] = await query(connection, 'SELECT CAST(? AS CHAR) AS a, CAST(? AS CHAR) AS b, ? AS c, ? AS d, ? IS NULL AS e',
    [2n ** 64n - 1n, 2n ** 70n, true, new Double(2), null])
  assert.deepEqual({ ...other }, { a: '18446744073709551615', b: '1180591620717411303424', c: 1, d: 2, e: 1 })
})

test('many rows, names and keywords', { skip }, async () => {
  const connection = connect({ database: 'd' })
  await plain(connection, 'CREATE TABLE `many ``rows` (id INT, `user``s name` VARCHAR(200))')
  const table = new Identifier('d', 'many `rows')
  const column = new Identifier('user`s name')
  const rows = HOSTILE.slice(0, 20).map((value, id) => [id, value])
  const done = await execute(connection, 'INSERT INTO :table (id, :column) VALUES :rows', { table, column, rows })
  assert.equal(done.affectedRows, rows.length)
  const [found] = await query(connection, 'SELECT id, :column AS name FROM :table ORDER BY id :order', { table, column,
    order: new Keyword('DESC', ['ASC', 'DESC']) })
  assert.deepEqual(found.map(({ id, name }) => [id, name]).reverse(), rows)
})

test('columns, and what they are set to', { skip }, async () => {
  const connection = connect({ database: 'd' })
  await plain(connection, "CREATE TABLE `a``b` (id INT PRIMARY KEY, `c``d` VARCHAR(200) DEFAULT 'old', `e, f` DECIMAL(10, 2))")
  const table = new Identifier('a`b')
  const [id, text] = [new Identifier('id'), new Identifier('a`b', 'c`d')]
  const rows = [[1, 'x'], [2, 'y']]
  await execute(connection, 'INSERT INTO :table (:columns) VALUES :rows', { table, columns: [id, text], rows })
  const assigned = { 'c`d': "', `e, f` = 7 -- ", 'e, f': new Decimal('9.99') }
  for (const mode of MODES) {
    await plain(connection, `SET sql_mode = '${mode}'`)
    await execute(connection, 'UPDATE :table SET :set WHERE id = :id', { table, set: new Assignments(assigned), id: 1 })
    const [found] = await query(connection, 'SELECT :columns, `e, f` FROM :table ORDER BY id', { table, columns: [id, text] })
    assert.deepEqual(found.map((row) => Object.values(row).map(String)), [['1', assigned['c`d'], '9.99'], ['2', 'y', 'null']])
    await plain(connection, 'UPDATE `a``b` SET `c``d` = NULL, `e, f` = NULL WHERE id = 1')
  }
  const set = new Assignments([[id, 2], [text, "it's"]])
  await execute(connection, 'INSERT INTO ? SET ? ON DUPLICATE KEY UPDATE ?', [table, set, set])
  const [[{ found }]] = await query(connection, 'SELECT ? AS found FROM ? WHERE id = 2', [text, table])
  assert.equal(found, "it's")
})

/** The questions that a connection's server was asked since then. */
async function asked(connection) {
  const [{ Value: count }] = await plain(connection, "SHOW SESSION STATUS LIKE 'Questions'")
  return Number(count)
}

test('a connection is asked once, and again after a SET', { skip }, async () => {
  const connection = connect()
  await query(connection, 'SELECT 1')
  const before = await asked(connection)
  for (let i = 0; i < 5; i++) await query(connection, 'SELECT ?', [i])
  assert.equal(await asked(connection) - before, 6)
  // node-mysql tells of a statement that may set something, and of another user, also without askAgain.
  for (const change of ["SET sql_mode = 'NO_BACKSLASH_ESCAPES'", "SET SESSION sql_mode = ''"]) {
    for (const set of [plain, query]) {
      await set(connection, change)
      const [[row]] = await query(connection, "SELECT ? AS a, '1' AS b", ["\\', 7 #"])
      assert.deepEqual({ ...row }, { a: "\\', 7 #", b: '1' })
    }
  }
  await plain(connection, "SET sql_mode = 'NO_BACKSLASH_ESCAPES'")
  await promisify(connection.changeUser).call(connection, { user: 'root' })
  const [rows] = await query(connection, 'SELECT @@sql_mode AS mode, ? AS a', ["\\' #"])
  assert.equal(rows[0].a, "\\' #")
  const again = await asked(connection)
  await query(connection, 'SELECT 1', [], { alwaysAsk: true })
  assert.equal(await asked(connection) - again, 3)
})

test('a SET between question and text', { skip }, async () => {
  const connection = connect()
  for (let i = 0; i < 20; i++) {
    const set = i % 2 ? "SET sql_mode = ''" : "SET sql_mode = 'NO_BACKSLASH_ESCAPES'"
    askAgain(connection)
    const sent = query(connection, "SELECT ? AS a, '1' AS b", ["\\', 7 #"])
    const changed = plain(connection, set)
    const after = query(connection, "SELECT ? AS a, '1' AS b", ["\\', 7 #"])
    for (const [rows] of [await sent, await after]) assert.deepEqual({ ...rows[0] }, { a: "\\', 7 #", b: '1' })
    await changed
  }
})

test('several texts at once keep their order', { skip }, async () => {
  const connection = connect()
  await plain(connection, 'CREATE TEMPORARY TABLE d.o (id INT AUTO_INCREMENT PRIMARY KEY, n INT)')
  await Promise.all(Array.from({ length: 50 }, (_, n) => execute(connection, 'INSERT INTO d.o (n) VALUES (?)', [n])))
  const [rows] = await query(connection, 'SELECT n FROM d.o ORDER BY id')
  assert.deepEqual(rows.map(({ n }) => n), Array.from({ length: 50 }, (_, n) => n))
})

test('values are those of the call, also if they change before the text goes out', { skip }, async () => {
  const values = { a: ['x', 'y'] }
  const sent = query(connect(), 'SELECT 1 AS found WHERE ? IN (?)'.replace('?', "'y'").replace('?', ':a'), values)
  values.a.pop()
  values.a.push({})
  assert.equal((await sent)[0].length, 1)
})

test('a reconnect', { skip }, async () => {
  const first = connect()
  await plain(first, "SET sql_mode = 'NO_BACKSLASH_ESCAPES'")
  askAgain(first)
  await query(first, 'SELECT ?', ['\\'])
  await promisify(first.end).call(first)
  await assert.rejects(query(first, 'SELECT 1'), { code: 'PROTOCOL_ENQUEUE_AFTER_QUIT' })
  const [[row]] = await query(connect(), "SELECT ? AS a, '1' AS b", ["\\' , 7 #"])
  assert.deepEqual({ ...row }, { a: "\\' , 7 #", b: '1' })
})

test('a pool, whose connections are made anew', { skip }, async () => {
  const pool = mysql.createPool({ socketPath: running.socket, user: 'root', charset: 'utf8mb4', connectionLimit: 2 })
  const answers = await Promise.all(HOSTILE.map((value) => query(pool, 'SELECT ? AS a', [value])))
  assert.deepEqual(answers.map(([[row]]) => row.a), HOSTILE)
  const held = await promisify(pool.getConnection).call(pool)
  await plain(held, "SET sql_mode = 'NO_BACKSLASH_ESCAPES'")
  const other = await promisify(pool.getConnection).call(pool)
  for (const connection of [held, other]) {
    const [[row]] = await query(connection, "SELECT ? AS a, '1' AS b", ["\\', 7 #"])
    assert.deepEqual({ ...row }, { a: "\\', 7 #", b: '1' })
  }
  const id = held.threadId
  await assert.rejects(query(held, 'KILL :id', { id }))
  held.release()
  other.release()
  const [[row]] = await query(pool, "SELECT ? AS a, '1' AS b", ["\\', 7 #"])
  assert.deepEqual({ ...row }, { a: "\\', 7 #", b: '1' })
  // A refusal gives the connection back too.
  for (let i = 0; i < 5; i++) await assert.rejects(query(pool, 'SELECT :a', {}), { number: 9 })
  await promisify(pool.end).call(pool)
})

test('a connection of a pool is asked once, and again after askAgain of the pool', { skip }, async () => {
  const pool = mysql.createPool({ socketPath: running.socket, user: 'root', charset: 'utf8mb4', connectionLimit: 1 })
  await query(pool, 'SELECT 1')
  const before = await asked(pool)
  for (let i = 0; i < 5; i++) await query(pool, 'SELECT ?', [i])
  assert.equal(await asked(pool) - before, 6)
  askAgain(pool)
  await query(pool, 'SELECT 1')
  assert.equal(await asked(pool) - before, 9)
  await promisify(pool.end).call(pool)
})

test('a bundle in which the classes of the driver have other names', { skip }, async () => {
  const connection = connect()
  const { constructor: Query } = connection.query('SELECT 1')
  const name = Object.getOwnPropertyDescriptor(Query, 'name')
  Object.defineProperty(Query, 'name', { value: 'a', configurable: true })
  try {
    await query(connection, 'SELECT ?', ['\\'])
    await plain(connection, "SET sql_mode = 'NO_BACKSLASH_ESCAPES'")
    const [[row]] = await query(connection, "SELECT ? AS a, '1' AS b", ["\\', 7 #"])
    assert.deepEqual({ ...row }, { a: "\\', 7 #", b: '1' })
  } finally {
    Object.defineProperty(Query, 'name', name)
  }
})

test('what a routine or a trigger sets is set back', { skip }, async () => {
  const connection = connect({ database: 'd' })
  const set = "BEGIN SET sql_mode = 'NO_BACKSLASH_ESCAPES'; SET character_set_client = gbk;"
  await plain(connection, `CREATE FUNCTION changes() RETURNS INT ${set} RETURN @@sql_mode = 'NO_BACKSLASH_ESCAPES'; END`)
  await plain(connection, 'CREATE TABLE changed (a INT)')
  await plain(connection, `CREATE TRIGGER changes_too BEFORE INSERT ON changed FOR EACH ROW ${set} END`)
  const [[found]] = await query(connection, 'SELECT changes() AS is_changed')
  assert.equal(found.is_changed, 1)
  await query(connection, 'INSERT INTO changed VALUES (?)', [1])
  await query(connection, 'SHOW TABLES WHERE changes()')
  const [{ mode, charset }] = await plain(connection, 'SELECT @@sql_mode AS mode, @@character_set_client AS charset')
  assert.deepEqual([mode.includes('NO_BACKSLASH_ESCAPES'), charset], [false, 'utf8mb4'])
})

test('another character set is refused', { skip }, async () => {
  for (const charset of ['latin1', 'gbk', 'utf8', undefined]) {
    const connection = connect(charset === undefined ? { charset: undefined } : { charset })
    await assert.rejects(query(connection, 'SELECT ?', ['x']), (error) => {
      assert.ok(error instanceof SessionError && error instanceof BindError)
      assert.deepEqual([error.name, error.kind, error.variable], ['SessionError', 'SESSION', 'character_set_client'])
      return /has to be utf8mb4: connect with charset: 'utf8mb4'$/.test(error.message)
    })
  }
  const connection = connect()
  await query(connection, 'SELECT 1')
  await plain(connection, 'SET NAMES gbk')
  await assert.rejects(query(connection, 'SELECT ?', ['\u{1F600}']), { kind: 'SESSION', value: 'gbk' })
  await plain(connection, 'SET NAMES utf8mb4')
  await plain(connection, 'SET character_set_connection = latin1')
  await assert.rejects(query(connection, 'SELECT 1'), { kind: 'SESSION', variable: 'character_set_connection',
    value: 'latin1' })
  await plain(connection, 'SET NAMES utf8mb4')
  await query(connection, 'SELECT 1')
  // The driver's own character set counts too.
  const other = connect({ charset: 'gbk' })
  await plain(other, 'SET NAMES utf8mb4')
  await assert.rejects(query(other, 'SELECT ?', ["誠' OR 1=1 -- "]), { kind: 'SESSION', variable: 'charsetNumber', value: '28' })
  await query(other, 'SELECT ?', ["it's"])
})

test('refusals send nothing', { skip }, async () => {
  const connection = connect()
  const { max_allowed_packet: packet } = (await plain(connection, 'SELECT @@max_allowed_packet AS max_allowed_packet'))[0]
  await query(connection, 'SELECT 1')
  const before = await asked(connection)
  await assert.rejects(query(connection, 'SELECT /*! :a */ 1', { a: 1 }), { number: 16, construct: 'EXECUTABLE_COMMENT',
    position: 7 })
  await assert.rejects(query(connection, 'SELECT :a', {}), { number: 9, placeName: 'a' })
  await assert.rejects(query(connection, 'SELECT :a', { a: undefined }), { name: 'TypeError' })
  await assert.rejects(query(connection, 'SELECT :a', { a: { b: 1 } }), { name: 'TypeError' })
  await assert.rejects(query(connection, 'SELECT \ud800'), { name: 'TypeError' })
  await assert.rejects(query(connection, Buffer.from('SELECT 1')), { name: 'TypeError' })
  await assert.rejects(query(connection, { sql: 'SELECT 1' }), { name: 'TypeError' })
  await assert.rejects(query(connection, 'SELECT 1', [], { noBackslashEscape: true }), { name: 'TypeError' })
  await assert.rejects(query(connection, 'SELECT 1', [], () => {}), { name: 'TypeError' })
  await assert.rejects(query(connection, 'SELECT LENGTH(?)', ['x'.repeat(packet)]), { kind: 'PACKET', most: packet - 4 })
  assert.equal(await asked(connection) - before, 1)
  const [[row]] = await query(connection, 'SELECT LENGTH(?) AS length', ['x'.repeat(packet - 100)])
  assert.equal(row.length, packet - 100)
  const [[steady]] = await query(connection, 'SELECT 1 AS "é", ? AS a', ['ü'])
  assert.deepEqual({ ...steady }, { é: 1, a: 'ü' })
})

test('an array in the place of a value is refused before anything is sent', { skip }, async () => {
  const connection = connect({ database: 'd' })
  await plain(connection, 'CREATE TABLE people (id INT PRIMARY KEY, doc TEXT)')
  const rows = [[1, '{"name": "a", "role": "user"}'], [2, '{"name": "b", "role": "user"}']]
  await execute(connection, 'INSERT INTO people VALUES :rows', { rows })
  const rename = "UPDATE people SET doc = JSON_SET(doc, '$.name', :name) WHERE id = :id"
  const before = await asked(connection)
  for (const [sql, params] of [[rename, { name: ['x', '$.role', 'admin'], id: 1 }],
    ['SELECT COALESCE(:a, doc) FROM people', { a: [1] }],
    ['SELECT id FROM people ORDER BY FIELD(id, :a)', { a: [2, 1] }], ['SELECT id FROM people LIMIT :a', { a: [0, 1] }],
    ['SELECT id FROM people WHERE id IN (0, :a)', { a: [1] }], ['INSERT INTO people VALUES (3, :a)', { a: ['x', 'y'] }]]) {
    for (let i = 0; i < 3; i++) await assert.rejects(query(connection, sql, params), { name: 'BindError', kind: 'UNBRACKETED' })
    await assert.rejects(execute(connection, sql, params), { kind: 'UNBRACKETED', placeName: 'name' in params ? 'name' : 'a' })
  }
  assert.equal(await asked(connection) - before, 1)
  await execute(connection, rename, { name: "it's", id: 1 })
  const [[found]] = await query(connection, 'SELECT doc FROM people WHERE id = 1')
  assert.deepEqual(JSON.parse(found.doc), { name: "it's", role: 'user' })
})

test('several values where they may stand', { skip }, async () => {
  const connection = connect({ database: 'd' })
  await plain(connection, 'CREATE TABLE several (id INT PRIMARY KEY, name VARCHAR(20))')
  await execute(connection, 'INSERT INTO several VALUES :rows', { rows: [[1, 'a'], [2, 'b']] })
  await execute(connection, 'INSERT INTO several VALUES (:row), (4, :name)', { row: [3, 'c'], name: 'd' })
  const idsOf = async (sql, params) => (await query(connection, sql, params))[0].map(({ id }) => id)
  assert.deepEqual(await idsOf('SELECT id FROM several WHERE id IN ( /* c */ :ids ) ORDER BY id', { ids: [1, 3] }), [1, 3])
  assert.deepEqual(await idsOf('SELECT id FROM several WHERE id NOT IN (?) ORDER BY id', [[1, 3]]), [2, 4])
  assert.deepEqual(await idsOf('SELECT id FROM several WHERE (id, name) IN (?) ORDER BY id', [[[2, 'b'], [4, 'x']]]), [2])
  assert.deepEqual(await idsOf('SELECT id FROM several WHERE (id, name) = (?)', [[4, 'd']]), [4])
  assert.deepEqual(await idsOf('SELECT id FROM several ORDER BY FIELD(id, :ids)', { ids: new In([3, 1, 4, 2]) }), [3, 1, 4, 2])
  const [[row]] = await query(connection, 'SELECT COALESCE(?) AS a, CONCAT_WS(?) AS b',
    [new In([null, "it's"]), new In(['-', 1, 2])])
  assert.deepEqual({ ...row }, { a: "it's", b: '1-2' })
})

test('what the driver itself would read in a text is refused', { skip }, async () => {
  const queryFormat = (sql, values) => (values ? sql.replace(/:(\w+)/g, (found, name) => values[name] ?? found) : sql)
  await assert.rejects(query(connect({ queryFormat }), 'SELECT ?', [1]), { name: 'TypeError', message: /has a queryFormat/ })
  for (const other of [null, undefined, {}, 'x', { query: 1 }]) {
    await assert.rejects(query(other, 'SELECT 1'), { name: 'TypeError',
      message: 'a connection or a pool of mysql or mysql2 is wanted' })
  }
  await assert.rejects(query(connect(), 'SELECT nothing FROM nowhere.t'), { code: 'ER_NO_SUCH_TABLE' })
  // Options of the connection leave the question's answer as it is.
  const connection = connect({ typeCast: () => 'x', supportBigNumbers: true, bigNumberStrings: true, dateStrings: true })
  const [[row]] = await query(connection, 'SELECT ? AS a', [1])
  assert.deepEqual({ ...row }, { a: 'x' })
})
