// Callers that TypeScript has to take, and those that it has to refuse.
import mysqlParams = require('mysql-params')
import { Assignments, BindError, Decimal, Double, Identifier, In, Keyword, SessionError, Template, bind, bindAnywhere,
  bindInBothModes } from 'mysql-params'
import { type Code, askAgain, bindRows, execute, firstUnportable, names, query } from 'mysql-params'

const text: string = bind('SELECT ?', [1])
const bytes: Buffer = bind(Buffer.from('SELECT ?'), [1])
const named: string = bindAnywhere('SELECT :a', { a: 'x', b: null, c: 1n, d: true, e: new Date(), f: Buffer.from('x') },
  { timezone: 'Z' })
const mapped: string = bind(':a', new Map([['a', 1]]))
const lists: string = bind('? ? ? ?', [[1, 'a', new Decimal('1.5')], [[1, 'a'], [2, 'b']], new Identifier('a', 'b'),
  new Keyword('ASC', ['ASC'])])
const several: string = bind('COALESCE(?), ?', [new In([1, 'a', new Decimal('1.5')]), new In([[1, 'a'], [2, 'b']])])
const column = new Identifier('t', 'b')
const columns: string = bind('INSERT INTO t (?) VALUES ?', [[new Identifier('a'), column], [[1, 'x']]])
const assigned = new Assignments({ a: 1, b: 'x', c: null, d: new Decimal('1.5'), e: new Date(), f: Buffer.from('x') })
const pairs = new Assignments([['a', 1], [column, 'x']])
const map = new Assignments(new Map([['a', 1]]))
const changed: string = bindAnywhere('UPDATE t SET :set WHERE id = :id', { set: assigned, id: 7 })
const ofMap: string = bind('SET ?, ?', [map, new Assignments(new Map([[column, 'x']]))])
const first: readonly [column: Identifier, value: unknown] | undefined = pairs.pairs[0]
const plain: string = bindInBothModes('?', [new Double(1)], { timezone: 'local' })
const rows: string[] = bindRows('?', [[1], [2]], { noBackslashEscape: true })
const template: string = new Template('?').bind([1])
const ofBytes: Buffer = new Template(Buffer.from('?')).bind([1])
const found: string[] = names('SELECT :a').names
const construct: string | undefined = firstUnportable('SELECT 1')?.construct
const all: typeof bind = mysqlParams.bind

declare const connection: { query(sql: string, done: () => void): void }
async function sent(): Promise<void> {
  const [results, fields] = await query(connection, 'SELECT ?', [1], { alwaysAsk: true })
  const { affectedRows } = await execute(connection, 'DELETE FROM t WHERE id = :id', { id: 1 }, { steady: true })
  askAgain(connection)
  void [results, fields, affectedRows]
}

try {
  bind('?', [1])
} catch (error) {
  if (error instanceof SessionError) error.variable.trim()
  else if (error instanceof BindError && error.kind === 'MISSING') error.placeName?.trim()
  else if (error instanceof BindError && error.code === 'ERR_MYSQL_PARAMS_FAULT') error.number?.toFixed()
}

declare const code: Code
// @ts-expect-error
if (code === 'MISSING') void code
// @ts-expect-error
bind('?', [undefined])
// @ts-expect-error
bind('?', [{ password: 1 }])
// @ts-expect-error
bind('?', [[new Identifier('a'), 1]])
// @ts-expect-error
new In(1)
// @ts-expect-error
new In([new In([1])])
// @ts-expect-error
bind('?', [[new In([1])]])
// @ts-expect-error
bindInBothModes('?', [new In([1])])
// @ts-expect-error
new Assignments({ a: undefined })
// @ts-expect-error
new Assignments({ a: [1] })
// @ts-expect-error
new Assignments([[1, 2]])
// @ts-expect-error
new Assignments('a')
// @ts-expect-error
new Assignments(column)
// @ts-expect-error
bindInBothModes('?', [assigned])
// @ts-expect-error
bind('?', [[assigned]])
// @ts-expect-error
bind(':a', { a: () => 1 })
// @ts-expect-error
bind('?', [Symbol('x')])
// @ts-expect-error
bind('?', [1], { no_backslash_escape: true })
// @ts-expect-error
bindAnywhere('?', [1], { noBackslashEscape: true })
// @ts-expect-error
bindInBothModes('?', [[1, 2]])
// @ts-expect-error
bind(5)
// @ts-expect-error
new Keyword('ASC', 'ASC')
// @ts-expect-error
new Identifier()
// @ts-expect-error
query({}, 'SELECT 1')
// @ts-expect-error
query(connection, 'SELECT 1', [], { steady: 'yes' })
// @ts-expect-error
bindAnywhere('SELECT 1', [], { steady: true })

void [several, columns, changed, ofMap, first]
void [text, bytes, named, mapped, lists, plain, rows, template, ofBytes, found, construct, all, sent]
