'use strict'
// The page of the package, packages/node.md, and what it sends its reader to: each program of the page and of examples/ writes what
// stands beside it, and each row of the tables of texts is true, on the page and in index.d.ts.

const assert = require('node:assert/strict')
const { spawnSync } = require('node:child_process')
const fs = require('node:fs')
const os = require('node:os')
const path = require('node:path')
const { after, before, test } = require('node:test')
const vm = require('node:vm')
const { Telling } = require('./played.js')
const { mysqlParams } = require('./shared_cases.js')
const server = require('./server.js')

const PAGE = fs.readFileSync(path.resolve(__dirname, '../../../packages/node.md'), 'utf8')
const TYPES = fs.readFileSync(path.resolve(__dirname, '../index.d.ts'), 'utf8')
const EXAMPLES = path.resolve(__dirname, '../examples')
const BLOCKS = PAGE.matchAll(/^```js\n(.*?)^```\n\n```text\n(.*?)^```$/gms)
const PROGRAMS = [...BLOCKS].map(([, program, text], i) => ({ name: `program ${i + 1} of the page`, program, text }))
const ON_PAGE = PROGRAMS.length
for (const file of fs.readdirSync(EXAMPLES).filter((file) => file.endsWith('.js'))) {
  const read = (file) => fs.readFileSync(path.join(EXAMPLES, file), 'utf8')
  PROGRAMS.push({ name: `examples/${file}`, program: read(file), text: read(file.replace(/js$/, 'text')) })
}

let driverWhy = null
try {
  require('mysql')
} catch {
  driverWhy = 'node-mysql is missing'
}
const why = server.missing() ?? driverWhy

let folder
let running

before(async () => {
  folder = fs.mkdtempSync(path.join(os.tmpdir(), 'mysql-params-page-'))
  fs.mkdirSync(path.join(folder, 'node_modules'))
  fs.symlinkSync(path.resolve(process.env.MYSQL_PARAMS), path.join(folder, 'node_modules/mysql-params'))
  if (why === null) running = await server.start()
  // The page's connections are those of the test's server.
  fs.writeFileSync(path.join(folder, 'here.js'), `
    const mysql = require('mysql')
    const here = { user: 'root', socketPath: ${JSON.stringify(running?.socket ?? '')}, database: undefined }
    for (const name of ['createConnection', 'createPool']) {
      const made = mysql[name]
      mysql[name] = (options) => made({ ...options, ...here })
    }`)
  if (why === null) spawnSync(process.execPath, ['-e',
    "require('mysql').createConnection({}).query('CREATE DATABASE shop', () => process.exit())"], run())
}, { timeout: 120000 })

after(async () => {
  await running?.stop()
  fs.rmSync(folder, { recursive: true, force: true })
})

/** How a program of the page is run. */
function run() {
  const env = { ...process.env, NODE_OPTIONS: why === null ? `--require ${path.join(folder, 'here.js')}` : '' }
  return { cwd: folder, env, encoding: 'utf8' }
}

test('each block of JavaScript is a program with its text', () => {
  assert.equal(ON_PAGE, [...PAGE.matchAll(/^```js$/gm)].length)
  assert.ok(ON_PAGE >= 3)
  assert.ok(PROGRAMS.length >= 6)
})

for (const [i, { name, program, text }] of PROGRAMS.entries()) {
  const skip = program.includes("require('mysql')") && why !== null ? why : false
  test(name, { skip }, () => {
    const file = path.join(folder, `${i}.${program.includes('import {') ? 'mjs' : 'cjs'}`)
    fs.writeFileSync(file, program)
    const { stdout, stderr } = spawnSync(process.execPath, [file], run())
    assert.equal(stderr, '')
    assert.equal(stdout, text)
  })
}

/** The cells of the rows of a table with this head, without the backquotes of a code. */
function rowsOf(head, text) {
  const [, rows] = new RegExp(`^${head.replaceAll('|', '\\|')}\\n\\|[-|]*\\n((?:\\|.*\\n)*)`, 'm').exec(text)
  const plain = (cell) => cell.trim().replace(/^``(.*?) ?``$|^`(.*?)`$/, (found, one, other) => one ?? other)
  return rows.trim().split('\n').map((row) => row.split('|').slice(1, -1).map(plain))
}

/** The value of an example, which may name the classes of the package. */
function valueOf(text) {
  const program = `({ Assignments, Decimal, Double, Identifier, In, Keyword }) => (${text})`
  return vm.runInThisContext(program)(mysqlParams)
}

test('the table of what to write', () => {
  const rows = rowsOf('| You want | Query | Values | Text |', PAGE)
  assert.ok(rows.length >= 9)
  for (const [, query, values, text] of rows) assert.equal(mysqlParams.bind(query, valueOf(values)), text)
})

test('the table of values', () => {
  const rows = rowsOf('| Value | Example | Written by `bind` |', TYPES.replace(/^ \* ?/gm, ''))
  assert.ok(rows.length >= 20)
  for (const [, example, written] of rows) {
    const refused = /^(\w+Error)\b/.exec(written)
    const call = () => mysqlParams.bind('?', [valueOf(example)])
    if (refused === null) assert.equal(call(), written)
    else assert.throws(call, { name: refused[1] }, example)
    const other = /, with a `timezone` (\w+Error)$/.exec(written)
    if (other !== null) assert.throws(() => mysqlParams.bind('?', [valueOf(example)], { timezone: 'Z' }), { name: other[1] })
  }
})

test('the examples within the text', () => {
  const { bind, firstUnportable } = mysqlParams
  assert.equal(bind("SELECT ':a', :a", { a: 1 }), "SELECT ':a', 1")
  for (const query of ['1?', '??', 'lbl:LOOP', 'x:a']) {
    assert.ok(PAGE.includes(`\`${query}\``))
    assert.throws(() => bind(query,
      query.includes('?') ? query.split('').filter((letter) => letter === '?').map(() => 1) : { a: 1, LOOP: 1 }),
      { kind: 'NOT_ALONE' })
  }
  assert.equal(bind('lbl: LOOP'), 'lbl: LOOP')
  assert.equal(bind(':user_id, :userId, :ID, :id', { user_id: 1, userId: 2, ID: 3, id: 4 }), '1, 2, 3, 4')
  assert.equal(firstUnportable('SELECT /*! :a */ 1').construct, 'EXECUTABLE_COMMENT')
})

test('what the call of the page sends', async () => {
  const [, program, text] = /^```js\n(.*?)^```\n.*?^This sends `(.*?)`\./ms.exec(PAGE)
  const [, sql, params] = /query\(connection, '(.*?)', (\{.*\})\)$/m.exec(program)
  const connection = new Telling()
  await mysqlParams.query(connection, sql, valueOf(params))
  assert.deepEqual(connection.sent, [text])
  await mysqlParams.query(connection, 'SELECT ?', ["it's"])
  assert.ok(PAGE.includes("`'it''s'`"))
  assert.equal(connection.sent[1], "SELECT 'it''s'")
})

test('the types say when each kind comes, and have those of the header', () => {
  const [, listed] = /^export type Kind =\n((?: {2}.*\n)*)/m.exec(TYPES)
  const told = [...listed.matchAll(/^ {2}\/\*\* \S.* \*\/\n {2}\| '(\w+)'\n/gm)].map(([, kind]) => kind)
  assert.deepEqual(told, [...listed.matchAll(/'(\w+)'/g)].map(([, kind]) => kind))
  const header = fs.readFileSync(path.resolve(__dirname, '../../c/mysql_params.h'), 'utf8')
  const [, numbers] = /^enum mysql_params_number \{\n(.*?)^\};$/ms.exec(header)
  const others = ['DONE', 'OUT_OF_MEMORY', 'ROOM', 'OTHER_TABLE']
  const kinds = [...numbers.matchAll(/^ {4}MYSQL_PARAMS_(\w+) = /gm)].map(([, kind]) => kind).filter((kind) => !others.includes(kind))
  assert.deepEqual(told, [...kinds, 'SESSION', 'PACKET'])
})

test('what node-mysql does there', { skip: driverWhy ?? false }, () => {
  const { format } = require('mysql')
  assert.equal(format('password = ?', [{ password: 1 }]), 'password = `password` = 1')
  assert.equal(format("JSON_SET(doc, '$.a', ?)", [['x', '$.b', 'y']]), "JSON_SET(doc, '$.a', 'x', '$.b', 'y')")
  assert.equal(format('?, ?', [undefined, NaN]), 'NULL, NaN')
  assert.equal(format("'?' /* ? */", [1, 2]), "'1' /* 2 */")
  assert.equal(format('SET ?', [{ a: 1, b: 'x' }]), "SET `a` = 1, `b` = 'x'")
  assert.equal(format('??, ??', ['a', ['a', 'b']]), '`a`, `a`, `b`')
  assert.equal(format('?, ?', [1]), '1, ?')
  assert.equal(format('?, ?', [1.5, 1e21]), '1.5, 1e+21')
  const date = new Date(2019, 0, 2, 3, 4, 5)
  assert.equal(format('?', [date]), "'2019-01-02 03:04:05.000'")
})
