'use strict'
// Connections of drivers that are played, in the shapes of mysql2 and mysql.

const assert = require('node:assert/strict')
const { EventEmitter } = require('node:events')

const QUESTION = /^SELECT @@sql_mode AS m,/

/** A queue of commands, as mysql2's connections have one. */
class Queue {
  #commands = []
  #first = 0

  get length() {
    return this.#commands.length - this.#first
  }

  toArray() {
    return this.#commands.slice(this.#first)
  }

  push(command) {
    this.#commands.push(command)
  }

  shift() {
    return this.length === 0 ? undefined : this.#commands[this.#first++]
  }
}

/** A connection as mysql2's to a session that is played: one command after another, and nothing tells of them. */
class Connection extends EventEmitter {
  constructor(session = {}, config = {}) {
    super()
    this.session = { m: '', c: 'utf8mb4', n: 'utf8mb4', p: 1 << 20, ...session }
    this.config = { charsetNumber: 224, ...config }
    this.queue = new Queue()
    Object.assign(this, { threadId: 7, asked: 0, sent: [], released: 0, _commands: this.queue, _command: undefined })
  }

  query(options, done) {
    const isOurs = typeof options === 'object'
    const command = this.commandOf(isOurs ? options.sql : options, done)
    if (isOurs) this.judge(options)
    this.enqueue(command)
    return command
  }

  enqueue(command) {
    if (this._command) this.queue.push(command)
    else this.start(command)
  }

  /** The options of the package hide what stands on Object.prototype. */
  judge(options) {
    assert.equal(Object.getPrototypeOf(options), Object.prototype)
    assert.deepEqual(Object.keys(options).sort(),
      ['infileStreamFactory', 'nestTables', 'rowsAsArray', 'sql', 'timeout', 'typeCast', 'values'])
    const { sql, values, timeout, infileStreamFactory, ...others } = options
    assert.deepEqual([values, timeout, infileStreamFactory], [[], undefined, undefined])
    const { typeCast, nestTables, rowsAsArray } = Object.assign(Object.create(null), this.config)
    const ofQuestion = { typeCast: true, nestTables: false, rowsAsArray: false }
    assert.deepEqual(others, QUESTION.test(sql) ? ofQuestion : { typeCast, nestTables, rowsAsArray })
  }

  commandOf(sql, done) {
    assert.equal(typeof sql, 'string')
    assert.equal(typeof done, 'function')
    return Object.assign(new Query(sql), { done })
  }

  start(command) {
    this._command = command
    setImmediate(() => {
      const answer = this.run(command.sql)
      this._command = this.queue.shift()
      if (this._command) this.start(this._command)
      process.nextTick(() => command.done(this.fault ?? null, answer, ['fields']))
    })
  }

  run(sql) {
    if (QUESTION.test(sql)) {
      this.asked++
      return [{ ...this.session }]
    }
    const [, mode] = /SET sql_mode = '(.*)'/.exec(sql) ?? []
    if (mode !== undefined) this.session.m = mode
    this.sent.push(sql)
    return { affectedRows: this.sent.length }
  }

  /** Sends a text of the program's own. */
  plain(sql) {
    return new Promise((resolve) => this.query(sql, resolve))
  }

  release() {
    this.released++
  }
}

class Query {
  constructor(sql) {
    this.sql = sql
  }
}

/** A connection as those of mysql, which tells of each command by an event. */
class Telling extends Connection {
  enqueue(command) {
    super.enqueue(command)
    this.emit('enqueue', command)
  }
}

module.exports = { Connection, Query, Telling }
