// Times the package mysql-params beside `mysql.format` of node-mysql in one process, and prints rows of a table: the call, the
// input, the driver's own, the driver's calls a second, the package's, and how many times as many that is.
//
// `run` beside it calls it.
//
// With 2.00 the package takes half the time. Each way has its turn ROUNDS (15) times, on the same values, and its best counts, of
// processor time. ROWS (100000) rows have a number and a text. No server is needed: texts are made and not sent. Where both write
// the same literals, the texts have to be equal.
'use strict'

const path = require('node:path')

const ROWS = Number(process.env.ROWS ?? 100000)
const ROUNDS = Number(process.env.ROUNDS ?? 15)
const CALLS = 20000
const NAMES = ['id', 'name', 'city', 'born', 'since', 'mail', 'state', 'height', 'parent', 'note', 'kind', 'rank']
const VALUES = [42, "it's a name", 'Dublin', 1990, '2019-11-27', 'a.name@example.com', null, 181, 7, 'no note', 'user', -3]

const folder = process.argv[2]
if (folder === undefined) {
  console.error('usage: bench/languages/node/run FOLDER')
  process.exit(2)
}
const params = require(path.resolve(folder, 'mysql-params'))
const mysql = require('mysql')

/** Stops unless two texts are equal. */
function same(one, other) {
  if (one === other) return
  console.error(`bench/languages/node/run: the texts differ:\n${one.slice(0, 300)}\n${other.slice(0, 300)}`)
  process.exit(1)
}

/** The microseconds of processor time that so many calls take. */
function timeOf(call, count) {
  const before = process.cpuUsage()
  for (let i = 0; i < count; i++) call()
  const { user, system } = process.cpuUsage(before)
  return user + system
}

/** The best microseconds of a call of each of the ways, which take turns. */
function timesOf(ways, count) {
  const best = Object.fromEntries(Object.keys(ways).map((name) => [name, Infinity]))
  for (let round = 0; round < ROUNDS; round++) {
    for (const [name, way] of Object.entries(ways)) {
      globalThis.gc?.()
      best[name] = Math.min(best[name], timeOf(way, count) / count)
    }
  }
  return best
}

function ofNames() {
  const conditions = (mark) => NAMES.map((name, i) => `${name} ${i % 3 ? '=' : '<'} ${mark(name)}`)
  const where = (mark) => `SELECT * FROM users WHERE ${conditions(mark).join(' AND ')}`
  const [marks, names] = [where(() => '?'), where((name) => `:${name}`)]
  const named = Object.fromEntries(NAMES.map((name, i) => [name, VALUES[i]]))
  const template = new params.Template(names)
  for (const text of [params.bind(names, named), params.bind(marks, VALUES), template.bind(named)]) same(text,
    mysql.format(marks, VALUES))
  return timesOf({
    format: () => mysql.format(marks, VALUES),
    bindAnywhere: () => params.bindAnywhere(names, named),
    bind: () => params.bind(names, named),
    'bind by ?': () => params.bind(marks, VALUES),
    Template: () => template.bind(named)
  }, CALLS)
}

function ofRows() {
  const rows = Array.from({ length: ROWS }, (_, i) => [i, `it's name ${i}`])
  const query = 'INSERT INTO t (id, name) VALUES ?'
  same(params.bind(query, [rows]), mysql.format(query, [rows]))
  return timesOf({
    format: () => mysql.format(query, [rows]),
    bindAnywhere: () => params.bindAnywhere(query, [rows]),
    bind: () => params.bind(query, [rows])
  }, 1)
}

/** The rows of the table of an input: each way's calls a second, and how many times as many it makes as the first way. */
function rowsOf(input, best) {
  const [first, ...others] = Object.entries(best)
  const second = (time) => Math.round(1e6 / time)
  return others.map(([name, time]) => {
    const cells = [`Node: \`${name}\``, input, '`mysql.format`', second(first[1]), second(time), (first[1] / time).toFixed(2)]
    return `| ${cells.join(' | ')} |`
  })
}

for (const row of [...rowsOf('12 names', ofNames()), ...rowsOf(`${ROWS} rows of 2 values`, ofRows())]) console.log(row)
