'use strict'
// The places of a query, found once: those of the last queries, by which the calls bind, and that of a Template.

const { isUint8Array } = require('node:util/types')
const { BYTES, CHECKED, FRAGMENTS, MODE, native } = require('./native.js')
const { giveForm, takeForm, writeParams, writeWithoutNames } = require('./form.js')
const { asked } = require('./asked.js')

/**
 * A query and its table. If its names differ from each other, also the table of the query with `?` in their places: values of
 * just these names are written in the order of the places, and no name crosses the border. The archive then binds the same
 * literals to the same pieces. What it refuses there is bound by the query itself, whose refusal counts.
 */
class Kept {
  constructor(query, flags) {
    const kind = flags & (MODE | BYTES)
    this.query = query
    this.made = asked((all) => native.template(all, query), kind, query)
    const found = native.names(kind | CHECKED, query)
    const [renamed, ...names] = typeof found[0] === 'number' ? [query] : found
    this.places = new Map(names.map((name, place) => [name, place]))
    this.names = names
    this.marked = null
    if (names.length > 0 && this.places.size === names.length) {
      const made = native.template(kind | CHECKED, renamed)
      this.marked = Array.isArray(made) ? null : made
    }
  }

  /** What the addon tells of a form that is written. */
  told(flags, made, form) {
    return native.bindTemplate(form.isFragments ? flags | FRAGMENTS : flags, made, form.buffer, 0, form.len)
  }

  textOf(flags, form) {
    return asked(() => this.told(flags, this.made, form), flags, this.query)
  }

  bind(flags, params, zone, takesMore) {
    const form = takeForm(zone, takesMore)
    try {
      if (this.marked !== null && writeWithoutNames(form, params, this.names, this.places)) {
        const told = this.told(flags, this.marked, form)
        if (typeof told === 'string' || isUint8Array(told)) return told
      }
      form.begin(zone, takesMore)
      writeParams(form, params)
      return this.textOf(flags, form)
    } finally {
      giveForm(form)
    }
  }
}

// Queries of more letters are not kept, nor more than so many.
const LONGEST = 4096
const MOST = 256

/** The last queries in a mode: null for one that was seen once. */
class LastQueries {
  #kept = new Map()

  /** What is kept of a query; undefined if it is long, or new. */
  of(query, flags) {
    if (query.length > LONGEST) return undefined
    let kept = this.#kept.get(query)
    if (kept) return kept
    if (kept === undefined) {
      if (this.#kept.size >= MOST) this.#kept.clear()
      this.#kept.set(query, null)
      return undefined
    }
    kept = new Kept(query, flags)
    this.#kept.set(query, kept)
    return kept
  }
}

const WITH_ESCAPES = new LastQueries()
const WITHOUT_ESCAPES = new LastQueries()

/** What is kept of a query that is a string, in the mode of a call. */
function keptOf(query, flags) {
  return (flags & MODE ? WITHOUT_ESCAPES : WITH_ESCAPES).of(query, flags)
}

module.exports = { Kept, keptOf }
