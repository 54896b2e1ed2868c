'use strict'
// Bound texts sent over a connection of `mysql` or `mysql2`, which is asked for what a text depends on.

const { isNativeError } = require('node:util/types')
const { ANYWHERE, CHECKED, FOR_CONNECTION } = require('./native.js')
const { judgeQuery } = require('./asked.js')
const { BindError, SessionError } = require('./errors.js')
const { giveForm, takeForm, writeParams } = require('./form.js')
const { ownOf } = require('./objects.js')
const { WANTED, forgetAll, sessionOf } = require('./session.js')
const calls = require('./calls.js')
const dates = require('./dates.js')

const OPTIONS = ['timezone', 'alwaysAsk', 'steady']

/** Whether a number is that of a collation of utf8mb4 in MySQL. */
function isUtf8mb4(number) {
  if (!Number.isInteger(number)) return false
  return number === 45 || number === 46 || (number >= 224 && number <= 247) || (number >= 255 && number <= 323)
}

/**
 * Throws unless the driver writes letters outside ASCII as utf8mb4, whatever the server takes them for. `mysql2` writes a text by
 * charsetNumber: the last byte of a letter in GBK may be a backslash, and a letter that Latin-1 lacks may become a quote. `mysql`
 * always writes UTF-8, but nothing shows for sure that a connection is one of `mysql`. A text in ASCII needs no such number: the
 * question is one too, and had an answer.
 */
function judgeEncoding(connection) {
  const number = ownOf(connection.config, 'charsetNumber')
  if (isUtf8mb4(number)) return
  const charset = number === undefined ? "in a character set that it doesn't show" : `by charsetNumber ${number}, not utf8mb4's`
  const message = `The driver writes texts ${charset}, and this one isn't ASCII: connect with charset: 'utf8mb4'`
  throw new SessionError(message, { kind: 'SESSION', variable: 'charsetNumber', value: String(number) })
}

/** The driver's connection or pool with callbacks, of one with promises too. */
function coreOf(given) {
  for (const core of [ownOf(given, 'pool'), ownOf(given, 'connection'), given]) {
    if (typeof core === 'object' && core !== null && typeof core.query === 'function') return core
  }
  throw new TypeError(WANTED)
}

function isPool(core) {
  return typeof core.getConnection === 'function'
}

/** Throws for a driver that would read the text again. */
function judge(connection) {
  if (typeof connection.config?.queryFormat === 'function') {
    throw new TypeError('the connection has a queryFormat, which would read the text again: connect without')
  }
}

/** The parameters as they are now: a copy of their form. */
function writtenOf(params, zone) {
  const form = takeForm(zone, true)
  try {
    writeParams(form, params)
    return { form: Buffer.from(form.bytes.subarray(0, form.len)), isFragments: form.isFragments }
  } finally {
    giveForm(form)
  }
}

/**
 * The text for a connection, or what refuses it. The archive decides whether its literals are guarded, so that no other mode and no
 * character set except swe7 ends them elsewhere, or plain. A steady text is the same in each mode.
 */
function textFor(connection, told, { query, written, steady }) {
  const flags = steady ? ANYWHERE : FOR_CONNECTION | told.mode
  const text = calls.boundWritten(flags | CHECKED, query, written) // It was looked at before the connection was asked.
  const length = Buffer.byteLength(text)
  if (length !== text.length) judgeEncoding(connection) // The text isn't ASCII.
  if (length > told.most) {
    const most = `the connection's max_allowed_packet lets ${told.most} through`
    throw new BindError(`The text has ${length} bytes, and ${most}`, { kind: 'PACKET', length, most: told.most })
  }
  return text
}

/** Sends over one connection, and calls with what the driver answers. */
function sendOver(connection, call, done) {
  judge(connection)
  const session = sessionOf(connection)
  session.ask(call.always, (error, told) => {
    try {
      if (error) throw error
      session.send(call.query, textFor(connection, told, call), done)
    } catch (fault) {
      done(fault)
    }
  })
}

/** Whether an option is true; it isn't if it isn't given. */
function isTrue(options, name) {
  const given = options[name]
  if (given === undefined || given === true || given === false) return given === true
  throw new TypeError(`${name} is true or false`)
}

/** Sends over a connection, or one of a pool, which gets it back. */
function send(given, query, params, options, done) {
  const own = calls.optionsOf(options, OPTIONS)
  if (typeof query !== 'string') throw new TypeError('a query that is sent is a string')
  judgeQuery(query)
  const core = coreOf(given)
  const written = writtenOf(params, dates.zoneOf(own.timezone))
  const call = { query, written, always: isTrue(own, 'alwaysAsk'), steady: isTrue(own, 'steady') }
  if (!isPool(core)) {
    sendOver(core, call, done)
    return
  }
  core.getConnection((error, connection) => {
    if (error) {
      done(error)
      return
    }
    const release = (...answer) => {
      connection.release()
      done(...answer)
    }
    try {
      sendOver(connection, call, release)
    } catch (fault) {
      release(fault)
    }
  })
}

// Errors that show already which call they are of: what several calls wait for may fail.
const shown = new WeakSet()

/**
 * Has an error show the frames of a call's caller before its own, which are those of the package and the driver. The call runs now,
 * or goes on after an `await`: then the caller has to await it too.
 */
function showCaller(error, call) {
  if (!isNativeError(error) || shown.has(error) || typeof error.stack !== 'string') return
  const caller = {}
  Error.captureStackTrace(caller, call)
  const frames = String(caller.stack).match(/\n {4}at (?!.*\bnode:internal\/).*/g)
  const at = error.stack.search(/\n {4}at /)
  if (frames === null || at < 0) return
  shown.add(error)
  const stack = `${error.stack.slice(0, at)}${frames.join('')}\n    --------------------${error.stack.slice(at)}`
  Reflect.defineProperty(error, 'stack', { value: stack, writable: true, configurable: true })
}

/** Sends for a call of the package, and resolves to the driver's results and fields. */
function sent(call, given, sql, params, options) {
  return new Promise((resolve, reject) => {
    const fail = (error) => {
      showCaller(error, call)
      reject(error)
    }
    try {
      send(given, sql, params, options, (error, results, fields) => (error ? fail(error) : resolve([results, fields])))
    } catch (fault) {
      fail(fault)
    }
  })
}

async function query(connection, sql, params, options = {}) {
  try {
    return await sent(query, connection, sql, params, options)
  } catch (error) {
    showCaller(error, query)
    throw error
  }
}

async function execute(connection, sql, params, options = {}) {
  try {
    const [results] = await sent(execute, connection, sql, params, options)
    return results
  } catch (error) {
    showCaller(error, execute)
    throw error
  }
}

function askAgain(connection) {
  const core = coreOf(connection)
  if (isPool(core)) forgetAll()
  else sessionOf(core).forget()
}

module.exports = { askAgain, execute, query }
