'use strict'
// A query whose places are found once.

const { viewOf } = require('./bytes.js')
const { BIND, BYTES, MODE } = require('./native.js')
const { Kept } = require('./kept.js')
const { boundRows } = require('./rows.js')
const calls = require('./calls.js')
const dates = require('./dates.js')

/** A query whose names and marks are found once, to bind it many times: it gives what bind gives. */
class Template {
  #kept
  #flags

  constructor(query, options = {}) {
    this.#flags = BIND | calls.kindOf(query) | calls.modeOf(calls.optionsOf(options, calls.OF_QUERY))
    this.#kept = new Kept(typeof query === 'string' ? query : Buffer.from(viewOf(query)), this.#flags)
  }

  /** The query; of bytes a copy. */
  get query() {
    const { query } = this.#kept
    return this.#flags & BYTES ? Buffer.from(query) : query
  }

  /** The mode for which the query is read and its values are written. */
  get noBackslashEscape() {
    return (this.#flags & MODE) !== 0
  }

  bind(params, options) {
    if (options === undefined) return this.#kept.bind(this.#flags, params, undefined, true)
    const own = calls.optionsOf(options, calls.OF_ZONE)
    return this.#kept.bind(this.#flags, params, dates.zoneOf(own.timezone), true)
  }

  bindForm(form) {
    return calls.withForm(form, (written) => this.#kept.textOf(this.#flags, written))
  }

  bindRows(rows, options = {}) {
    const own = calls.optionsOf(options, calls.OF_ZONE)
    return boundRows(this.#flags, this.#kept.query, rows, dates.zoneOf(own.timezone))
  }
}

module.exports = { Template }
