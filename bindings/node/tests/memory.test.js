'use strict'
// No call keeps memory: each kind of answer and of refusal, CALLS / 10 times, and CALLS times if that leaves more than noise does
// (40,000). The heap of JavaScript, the memory of its buffers and that of the process stay as they were. It needs
// `node --expose-gc`.

const assert = require('node:assert/strict')
const path = require('node:path')
const { test } = require('node:test')
const { mysqlParams } = require('./shared_cases.js')

const { FOR_CONNECTION } = require(path.resolve(process.env.MYSQL_PARAMS, 'lib/native.js'))
const { boundWritten } = require(path.resolve(process.env.MYSQL_PARAMS, 'lib/calls.js'))

const { Assignments, Decimal, Double, Identifier, In, Keyword, Template, bind, bindAnywhere, bindForm, bindInBothModes,
  bindRows } = mysqlParams

const CALLS = Number(process.env.CALLS ?? 40000)
// What all calls may leave; fewer may leave a share of it.
const MORE_HEAP = 1 << 20
const MORE_RSS = 12 << 20

const VALUES = [null, true, 7, 2n ** 63n, 0.5, "it's", 'é', Buffer.from([255]), new Date(0), new Decimal('1.5'), new Double(2),
  2n ** 70n]
const NAMES = [new Identifier('a'), new Identifier('t', 'b')]
const MORE = [...VALUES, [1, 'a', null], [[1, 2], [3, 'é']], new In([1, 'a']), NAMES[1], new Keyword('ASC', ['ASC']), NAMES,
  new Assignments([['a', "it's"], [NAMES[1], 2n ** 70n]])]
const MARKS = MORE.map(() => 'IN (?)').join()
const UTC = { timezone: 'Z' }
const NAMED = { a: 1, b: "it's" }
const LONG = 'x'.repeat(1 << 17)
const TEMPLATE = new Template(':a')
const form = (hex) => Buffer.from(hex, 'hex')

const ANSWERS = {
  values: () => bind(MARKS, MORE, UTC),
  names: () => bind(':a, :b', NAMED),
  'without escapes': () => bind(':a, :b', NAMED, { noBackslashEscape: true }),
  anywhere: () => bindAnywhere(MARKS, MORE, UTC),
  'both modes': () => bindInBothModes('?, ?', [1, 'é']),
  assignments: () => bind('SET :set', { set: new Assignments({ a: 1, b: 'é', c: null }) }),
  bytes: () => bind(Buffer.from('?'), [1]),
  form: () => bindForm('?', form('000600')),
  template: () => TEMPLATE.bind({ a: new In([1, 2]) }),
  'new template': () => new Template('?, ?').bindForm(form('000600000600')),
  'for a connection': () => boundWritten(FOR_CONNECTION, '?', { form: form('000600'), isFragments: false }),
  'plain for a connection': () => boundWritten(FOR_CONNECTION, '? /* é */', { form: form('000600'), isFragments: true }),
  rows: () => bindRows('?, ?', [[1, 'a'], [0.5, null], [3, 'b']]),
  'names of a query': () => mysqlParams.names(':a, :b'),
  portable: () => mysqlParams.firstUnportable(':a'),
  unportable: () => mysqlParams.firstUnportableInClient('[:a')
}

const REFUSALS = {
  3: () => bindForm('?', form('000800')),
  4: () => bindForm('?', form('fb')),
  5: () => bindForm('?', form('00110000')),
  6: () => bindForm('?', form('00060001610600')),
  7: () => bindForm(':a', form('0161060001610600')),
  8: () => bind(':a ?'),
  9: () => bind(':a, :b', { a: 1 }),
  10: () => bind('?', { a: 1 }),
  11: () => bind(':a', [1]),
  12: () => bind('?', MORE, UTC),
  13: () => bind('1:größe', { gr: 1 }),
  14: () => bind(':a', { a: NaN }),
  15: () => bindAnywhere('ä?', [1]),
  16: () => bindAnywhere('[?', [1]),
  17: () => bind('IN (:a)', { a: [] }),
  18: () => bindInBothModes("'\\\\' ?", [1]),
  19: () => bindAnywhere('?', [new Identifier('ä')]),
  21: () => bind('?', [[1, 2]]),
  value: () => bind('?', [{ a: 1 }]),
  item: () => bind('?', [[1, undefined]]),
  'item of identifiers': () => bind('?', [[NAMES[0], 1]]),
  assigned: () => bind('?', [new Assignments({ a: 1, b: [1] })]),
  'no assignments': () => new Assignments(new Set()),
  'lone surrogate': () => bind('?', ['\ud800']),
  query: () => bind('\ud800'),
  row: () => bindRows('?', [[1], [1, 2]]),
  option: () => bind('?', [1], { mode: true })
}

const LONG_CALLS = {
  'long text': () => bind('?', [LONG]),
  'long query': () => bind(`/*${LONG}*/?`, [1]),
  'long rows': () => bindRows('?', [[LONG], [LONG]]),
  'long refusal': () => bind('?, ?', [LONG]),
  'long template': () => new Template(`/*${LONG}*/?`).bind([1]),
  'long bytes': () => bind(Buffer.from(`/*${LONG}*/?`), [LONG])
}

/** Calls so often; what is thrown says nothing here. */
function repeat(call, count) {
  for (let i = 0; i < count; i++) {
    try {
      call()
    } catch {}
  }
}

/** The bytes of the heap and of buffers, and of the process, once what can be freed is. */
async function held() {
  for (let i = 0; i < 3; i++) {
    gc()
    await new Promise(setImmediate) // Finalizers run then.
  }
  const { heapUsed, external, rss } = process.memoryUsage()
  return { heap: heapUsed + external, rss }
}

/** Memory doesn't grow by calls. Node may keep something once; a leak comes again. */
async function judge(name, call, count) {
  repeat(call, count / 10)
  let more
  for (const share of [0.1, 1, 1, 1]) {
    const before = await held()
    repeat(call, share * count)
    const after = await held()
    more = { heap: after.heap - before.heap, rss: after.rss - before.rss }
    if (more.heap < share * MORE_HEAP && more.rss < share * MORE_RSS) return
  }
  assert.fail(`${name}: ${count} calls leave ${more.heap} bytes more on the heap, and ${more.rss} of the process`)
}

const skip = typeof gc === 'function' ? false : 'node --expose-gc is wanted'

test(`answers, up to ${CALLS} times each`, { skip }, async () => {
  for (const [name, call] of Object.entries(ANSWERS)) {
    call()
    await judge(name, call, CALLS)
  }
})

test(`refusals, up to ${CALLS} times each`, { skip }, async () => {
  for (const [name, call] of Object.entries(REFUSALS)) {
    assert.throws(call, (error) => (/^\d/.test(name) ? error.number === Number(name) : error instanceof Error))
    await judge(name, call, CALLS)
  }
})

test(`long calls, up to ${CALLS / 100} times each`, { skip }, async () => {
  for (const [name, call] of Object.entries(LONG_CALLS)) await judge(name, call, CALLS / 100)
})

test('each refusal is here', () => {
  // All numbers except those of memory, of a room, and of another table.
  const all = [...Array.from({ length: 17 }, (_, i) => String(i + 3)), '21']
  assert.deepEqual(Object.keys(REFUSALS).filter((name) => /^\d/.test(name)), all)
})
