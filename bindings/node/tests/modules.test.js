'use strict'
// The package as it is loaded: by `require`, by `import`, in workers; and what its types list.

const assert = require('node:assert/strict')
const fs = require('node:fs')
const path = require('node:path')
const { pathToFileURL } = require('node:url')
const { test } = require('node:test')
const { Worker } = require('node:worker_threads')
const { mysqlParams } = require('./shared_cases.js')

const FOLDER = path.resolve(process.env.MYSQL_PARAMS)

test('the same by import', async () => {
  const all = await import(pathToFileURL(path.join(FOLDER, 'index.mjs')))
  const { default: whole, ...named } = all
  assert.equal(whole, mysqlParams)
  assert.deepEqual({ ...named }, mysqlParams)
})

test('the types list what there is', () => {
  const types = fs.readFileSync(path.join(FOLDER, 'index.d.ts'), 'utf8')
  const listed = [...types.matchAll(/^export (?:class|function|const) (\w+)/gm)].map(([, name]) => name)
  assert.deepEqual([...new Set(listed)].sort(), Object.keys(mysqlParams).sort())
})

test('what the errors are', () => {
  const { BindError, SessionError } = mysqlParams
  for (const Kind of [BindError, SessionError]) {
    const error = new Kind('text', { kind: 'MISSING', number: 9 })
    assert.ok(error instanceof Error && error instanceof BindError)
    assert.deepEqual([error.name, error.message, String(error)], [Kind.name, 'text', `${Kind.name}: text`])
    assert.deepEqual([error.code, error.kind, error.number], ['ERR_MYSQL_PARAMS_MISSING', 'MISSING', 9])
    assert.ok(!Object.keys(error).includes('name'))
  }
  assert.throws(() => mysqlParams.bind(':a', {}), (error) => /modules\.test\.js/.test(error.stack) &&
    error.stack.startsWith('BindError: `:a` is given no value'))
})

test('workers at once', async () => {
  const program = `
    const { parentPort, workerData } = require('node:worker_threads')
    const { bind, bindRows, Template } = require(workerData.folder)
    const template = new Template(':a')
    let wrong = 0
    for (let i = 0; i < 3000; i++) {
      const value = String(workerData.number).repeat(i % 50)
      if (bind('?', [value]) !== "'" + value + "'" || template.bind({ a: i }) !== String(i)) wrong++
      if (bindRows('?', [[i], [value]])[1] !== "'" + value + "'") wrong++
    }
    try { bind(':a', {}) } catch { parentPort.postMessage(wrong) }`
  const answers = await Promise.all([1, 2, 3, 4].map((number) => new Promise((resolve, reject) => {
    const worker = new Worker(program, { eval: true, workerData: { folder: FOLDER, number } })
    worker.once('message', resolve)
    worker.once('error', reject)
  })))
  assert.deepEqual(answers, [0, 0, 0, 0])
})

test('a platform without an addon', () => {
  const { spawnSync } = require('node:child_process')
  const program = `
    Object.defineProperty(process, 'platform', { value: 'sunos' })
    try { require(process.argv[1]) } catch (error) { console.log(error.message) }`
  const { stdout } = spawnSync(process.execPath, ['-e', program, FOLDER], { encoding: 'utf8' })
  const build = "for another platform of x86-64 run `npx node-gyp rebuild` in the package's folder"
  assert.equal(stdout.trim(), `mysql-params: there is no addon for sunos-${process.arch}; ${build}`)
})

test('calls of the addon with other arguments', () => {
  const { native } = require(path.join(FOLDER, 'lib/native.js'))
  const buffer = new ArrayBuffer(8)
  const calls = [
    [native.bind], [native.bind, 0, '?'], [native.bind, 0, 5, buffer, 0, 0], [native.bind, 0, '?', {}, 0, 0], [native.bind, 16,
      '?', buffer, 0, 0],
    [native.bind, 0, '?', buffer, 0, 9], [native.bind, 0, '?', buffer, 5, 4], [native.bind, 0, '?', buffer, -1, 4],
      [native.bind, 0, '?', buffer, 0, 'x'],
    [native.bind, 'x', '?', buffer, 0, 0], [native.bindTemplate, 0, {}, buffer, 0, 0], [native.bindTemplate, 0, native, buffer,
      0, 0],
    [native.names, 0], [native.names, 0, null], [native.firstUnportable, 0, 1], [native.template, 16, 'x'],
      [native.constructMessage],
    [native.bindRows, 0, '?', buffer, 0, 0, [], 'x'], [native.bindRows, 0, '?', buffer, 0, 0]
  ]
  for (const [call, ...given] of calls) assert.throws(() => call(...given), TypeError)
  assert.equal(native.constructMessage(1000), null)
  assert.equal(native.constructMessage(2 ** 32 - 1), null)
  assert.equal(native.bind(0, 'x', new ArrayBuffer(0), 0, 0), 'x')
})
