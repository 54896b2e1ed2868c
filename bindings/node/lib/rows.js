'use strict'
// One query bound to row after row, in few calls of the addon.

const { BIND, FRAGMENTS, native } = require('./native.js')
const { asked, judgeQuery } = require('./asked.js')
const { BindError } = require('./errors.js')
const { giveForm, takeForm, writeParams } = require('./form.js')
const calls = require('./calls.js')
const dates = require('./dates.js')

// Once the forms of rows have so many bytes, the rows are bound: few enough to stay in a processor's cache with their texts.
const MOST_FORMS = 1 << 15

/** Has an error tell the row that it is about, and the texts before it. */
function tell(fault, row, texts) {
  if (fault instanceof BindError || fault instanceof TypeError || fault instanceof RangeError) {
    fault.message = `row ${row}: ${fault.message}`
    fault.row = row
    // The texts show values, so they aren't shown with the error.
    Object.defineProperty(fault, 'texts', { value: texts, writable: true, configurable: true })
  }
  return fault
}

/** Rows that are gathered, and their texts. */
class Rows {
  constructor(flags, query, zone) {
    this.flags = flags
    this.query = query
    this.texts = []
    this.form = takeForm(zone, true)
  }

  /** Binds the rows whose forms stand before a byte. */
  bindUntil(end) {
    if (end === 0) return
    const { flags, form, query, texts } = this
    try {
      asked((all) => native.bindRows(all, query, form.buffer, 0, end, texts, texts.length), flags, query)
    } catch (fault) {
      throw tell(fault, texts.length, texts)
    }
  }

  /** Binds a row with more than values by itself, whose form begins at a byte. */
  bindAlone(begin) {
    const { flags, form, query, texts } = this
    const ask = (all) => native.bind(all, query, form.buffer, begin, form.len)
    try {
      texts.push(asked(ask, flags | FRAGMENTS, query))
    } catch (fault) {
      throw tell(fault, texts.length, texts)
    }
  }

  add(row) {
    const { form } = this
    const begin = form.len
    if (begin + 1 > form.size) form.grow(1)
    form.len = begin + 1
    form.isFragments = false
    try {
      writeParams(form, row)
    } catch (fault) {
      this.bindUntil(begin) // It may refuse an earlier row.
      throw tell(fault, this.texts.length, this.texts)
    }
    if (form.isFragments) {
      this.bindUntil(begin)
      this.bindAlone(begin + 1)
      form.len = 0
      return
    }
    form.enclose(begin)
    if (form.len >= MOST_FORMS) {
      this.bindUntil(form.len)
      form.len = 0
    }
  }

  end() {
    this.bindUntil(this.form.len)
    return this.texts
  }
}

/** The texts of rows, by flags and a zone. */
function boundRows(flags, query, rows, zone) {
  if (rows === null || rows === undefined || typeof rows[Symbol.iterator] !== 'function' || typeof rows === 'string') {
    throw new TypeError('rows are an array, or another iterable, of parameters')
  }
  if (typeof query === 'string') judgeQuery(query)
  const gathered = new Rows(flags, query, zone)
  try {
    for (const row of rows) gathered.add(row)
    return gathered.end()
  } finally {
    giveForm(gathered.form)
  }
}

function bindRows(query, rows, options = {}) {
  const own = calls.optionsOf(options, calls.OF_MODE)
  return boundRows(BIND | calls.kindOf(query) | calls.modeOf(own), query, rows, dates.zoneOf(own.timezone))
}

module.exports = { bindRows, boundRows }
