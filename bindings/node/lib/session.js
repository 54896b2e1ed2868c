'use strict'
// What a connection of `mysql` or `mysql2` answers on what a text depends on, and when it is asked anew.

const { MODE } = require('./native.js')
const { SessionError } = require('./errors.js')
const { ownOf } = require('./objects.js')

const QUESTION =
  'SELECT @@sql_mode AS m, @@character_set_client AS c, @@character_set_connection AS n, @@max_allowed_packet AS p'

// A text is shorter than max_allowed_packet by so much: the packet is shorter, and has a byte before the text, and query
// attributes.
const BESIDE_TEXT = 4

// Statements that leave the mode and the character sets as they are, and stand by themselves. What a routine or a trigger sets is
// set back at its end.
const LEAVES_SESSION = /^\s*(?:select|insert|update|delete|replace|begin|start|commit|rollback|show)\b[^;]*$/i

const WANTED = 'a connection or a pool of mysql or mysql2 is wanted'

function isAscii(text) {
  return Buffer.byteLength(text) === text.length
}

/** Whether a command of a driver leaves the session as it is. A bundle may have other names of classes, and then it may not. */
function leavesSession(command) {
  const sql = command?.sql
  return typeof sql === 'string' ? LEAVES_SESSION.test(sql) : command?.constructor?.name === 'Ping'
}

/**
 * Whether all commands that stand behind a question leave the session as it is, by the queue of `mysql2`, which tells of none.
 * Throws if there is no such queue.
 */
function leavesAnswer({ _command: current, _commands: queue }) {
  const queued = queue?.length === 0 ? [] : queue?.toArray?.()
  if (!Array.isArray(queued)) throw new TypeError(`the connection shows no queue of commands: ${WANTED}`)
  const commands = current ? [current, ...queued] : queued
  // What isn't ASCII may be another statement as the driver writes it.
  return commands.every((command) => leavesSession(command) && isAscii(command.sql ?? ''))
}

// How often all connections were to be asked anew.
let generation = 0

/** Has all connections be asked anew. */
function forgetAll() {
  generation++
}

/** What a connection answered, and who waits for it. */
class Session {
  constructor(connection) {
    this.connection = connection
    this.waiting = []
    // The text that the driver is being given.
    this.giving = null
    // Whether the driver tells of each command, as `mysql` does. What another answers is soon stale.
    this.tells = false
    this.forget()
    connection.prependListener?.('enqueue', (command) => this.see(command))
  }

  /** Has the connection be asked anew. An answer that is under way doesn't count either. */
  forget() {
    this.told = null
    this.question = null
  }

  /** Sees a command that the driver tells of. */
  see(command) {
    if (this.giving !== null && command?.sql === this.giving) {
      this.tells = true
      this.giving = null
      return
    }
    // What comes before the question, as a handshake, doesn't change its answer.
    if (this.giving !== QUESTION && !leavesSession(command)) this.forget()
  }

  /** Sends the text of a query, and has the connection asked anew if that may change the session. */
  send(query, text, done) {
    try {
      this.give(text, done)
    } finally {
      if (!LEAVES_SESSION.test(query)) this.forget()
    }
  }

  /** Gives the driver a text without parameters, and nothing that it would put into the text. */
  give(text, done, more) {
    const { connection, giving } = this
    const { config } = connection
    // What the driver looks for is here, so that it finds nothing on Object.prototype.
    const options = {
      sql: text,
      values: [],
      timeout: undefined,
      infileStreamFactory: undefined,
      typeCast: ownOf(config, 'typeCast'),
      nestTables: ownOf(config, 'nestTables'),
      rowsAsArray: ownOf(config, 'rowsAsArray'),
      ...more
    }
    this.giving = text
    try {
      connection.query(options, done)
    } finally {
      this.giving = giving
    }
  }

  /** Calls with what the connection answered, now or before; or with an error. */
  ask(always, use) {
    const { told, thread, connection } = this
    if (!always && told?.generation === generation && thread === connection.threadId) {
      use(null, told)
      return
    }
    this.waiting.push(use)
    if (always || this.question === null) this.askNow()
  }

  askNow() {
    const question = { generation }
    this.question = question
    this.told = null
    const answered = (error, rows) => this.answer(question, error, rows)
    try {
      this.give(QUESTION, answered, { typeCast: true, nestTables: false, rowsAsArray: false })
    } catch (fault) {
      answered(fault)
    }
  }

  /** Takes the answer to a question, or the error. */
  answer(question, error, rows) {
    if (this.question !== null && this.question !== question) return // A later question is under way.
    try {
      if (error) throw error
      const isStale = this.question === null || question.generation !== generation
      if (isStale || !(this.tells || leavesAnswer(this.connection))) {
        if (this.waiting.length > 0) this.askNow()
        return
      }
      this.told = { ...toldBy(rows[0]), generation }
      this.thread = this.connection.threadId
    } catch (fault) {
      error = fault
    }
    this.question = null
    this.serve(error)
  }

  /** Calls those who wait, until one of them sends what may change the session: the others wait for another answer. */
  serve(error) {
    const { told, waiting } = this
    this.waiting = []
    for (const [i, use] of waiting.entries()) {
      if (this.told !== told) {
        this.waiting = waiting.slice(i).concat(this.waiting)
        break
      }
      use(error, told)
    }
    if (!this.tells) this.told = null
    if (this.waiting.length > 0 && this.question === null) this.askNow()
  }
}

/** What an answer says: the bit of the mode, and the length of the longest text. It throws a SessionError. */
function toldBy({ m, c, n, p }) {
  for (const [variable, value] of [['character_set_client', String(c)], ['character_set_connection', String(n)]]) {
    if (value === 'utf8mb4') continue
    const to_do = "and has to be utf8mb4: connect with charset: 'utf8mb4'"
    throw new SessionError(`The connection's ${variable} is ${value}, ${to_do}`, { kind: 'SESSION', variable, value })
  }
  const mode = String(m).toUpperCase().split(',').includes('NO_BACKSLASH_ESCAPES') ? MODE : 0
  return { mode, most: Number(p) - BESIDE_TEXT }
}

const sessions = new WeakMap()

function sessionOf(connection) {
  let session = sessions.get(connection)
  if (session === undefined) {
    session = new Session(connection)
    sessions.set(connection, session)
  }
  return session
}

module.exports = { WANTED, forgetAll, sessionOf }
