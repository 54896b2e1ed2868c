'use strict'
// The calls that bind, and what is asked of a query.

const { isUint8Array } = require('node:util/types')
const { ANYWHERE, BIND, BOTH_MODES, BYTES, CHECKED, FRAGMENTS, IN_CLIENT, MODE, native } = require('./native.js')
const { isGoneArray } = require('./bytes.js')
const { asked, judgeQuery } = require('./asked.js')
const { CONSTRUCTS, refusalOf } = require('./errors.js')
const { giveForm, takeForm, writeParams } = require('./form.js')
const { keptOf } = require('./kept.js')
const dates = require('./dates.js')

const CALLS = ANYWHERE | BOTH_MODES

/** The bit of a call that says what its query is. */
function kindOf(query) {
  if (typeof query === 'string') return 0
  if (isGoneArray(query)) throw new TypeError('the query is a Uint8Array whose buffer was transferred, or made too short')
  if (isUint8Array(query)) return BYTES
  const kind = query === null ? 'null' : typeof query
  throw new TypeError(`a query is a string or a Uint8Array, and not ${kind === 'object' ? 'an object' : kind}`)
}

/**
 * Returns the options that a call has, by an object of its own properties alone. Throws for another option: one that is misspelt
 * would be another mode without a word.
 */
function optionsOf(options, known) {
  if (typeof options !== 'object' || options === null || Array.isArray(options)) {
    throw new TypeError(`options are an object, as { ${known[0]}: .. }, and not ${options === null ? 'null' : typeof options}`)
  }
  const own = Object.create(null)
  for (const name of Object.keys(options)) {
    if (!known.includes(name)) {
      throw new TypeError(`there is no option ${JSON.stringify(name)}: the options are ${known.join(', ')}`)
    }
    own[name] = options[name]
  }
  return own
}

/** The bit of the mode that options say. */
function modeOf(options) {
  const mode = options.noBackslashEscape
  if (mode === undefined || mode === false) return 0
  if (mode === true) return MODE
  throw new TypeError('noBackslashEscape is true or false: whether @@sql_mode has NO_BACKSLASH_ESCAPES')
}

/** The text of a query and a form that is written. */
function textOf(flags, query, form) {
  const all = form.isFragments ? flags | FRAGMENTS : flags
  const { buffer } = form
  const told = native.bind(all, query, buffer, 0, form.len)
  if (typeof told === 'string' || isUint8Array(told)) return told
  return asked((more) => (more === all ? told : native.bind(more, query, buffer, 0, form.len)), all, query)
}

function bound(flags, query, params, zone) {
  const takesMore = (flags & CALLS) !== BOTH_MODES
  const kept = flags & BYTES ? undefined : keptOf(query, flags)
  if (kept !== undefined) return kept.bind(flags, params, zone, takesMore)
  const form = takeForm(zone, takesMore)
  try {
    writeParams(form, params)
    return textOf(flags, query, form)
  } finally {
    giveForm(form)
  }
}

const OF_MODE = ['noBackslashEscape', 'timezone']
const OF_ZONE = ['timezone']
const OF_QUERY = ['noBackslashEscape']

function bind(query, params, options) {
  if (options === undefined) return bound(BIND | kindOf(query), query, params, undefined)
  const own = optionsOf(options, OF_MODE)
  return bound(BIND | kindOf(query) | modeOf(own), query, params, dates.zoneOf(own.timezone))
}

/** A call without a mode. */
function steady(call, query, params, options) {
  if (options === undefined) return bound(call | kindOf(query), query, params, undefined)
  const own = optionsOf(options, OF_ZONE)
  return bound(call | kindOf(query), query, params, dates.zoneOf(own.timezone))
}

function bindAnywhere(query, params, options) {
  return steady(ANYWHERE, query, params, options)
}

function bindInBothModes(query, params, options) {
  return steady(BOTH_MODES, query, params, options)
}

/** Calls with a form that stands already. */
function withForm(given, use) {
  if (!isUint8Array(given) || isGoneArray(given)) throw new TypeError('a form is a Uint8Array, whose buffer is there')
  const form = takeForm(undefined, true)
  try {
    form.take(given)
    return use(form)
  } finally {
    giveForm(form)
  }
}

/** The text of a query and a form that stands already. */
function boundForm(flags, query, given) {
  return withForm(given, (form) => textOf(flags, query, form))
}

/** The text of a query that is a string, and of parameters that were written before. */
function boundWritten(flags, query, written) {
  const all = written.isFragments ? flags | FRAGMENTS : flags
  const kept = keptOf(query, flags)
  return withForm(written.form, (form) => (kept === undefined ? textOf(all, query, form) : kept.textOf(all, form)))
}

function bindForm(query, form, options = {}) {
  return boundForm(BIND | kindOf(query) | modeOf(optionsOf(options, OF_QUERY)), query, form)
}

function bindFormAnywhere(query, form) {
  return boundForm(ANYWHERE | kindOf(query), query, form)
}

function bindFormInBothModes(query, form) {
  return boundForm(BOTH_MODES | kindOf(query), query, form)
}

function names(query, options = {}) {
  const flags = kindOf(query) | modeOf(optionsOf(options, OF_QUERY))
  const [renamed, ...found] = asked((more) => native.names(more, query), flags, query)
  return { query: renamed, names: found }
}

/** The first construct of a query, or null. */
function firstOf(query, options, more) {
  const flags = kindOf(query) | modeOf(optionsOf(options, OF_QUERY)) | more
  let told = native.firstUnportable(flags, query)
  if (told === undefined) {
    judgeQuery(query)
    told = native.firstUnportable(flags | CHECKED, query)
  }
  if (told === 0) return null
  const refusal = refusalOf(told, query, flags)
  if (refusal.kind !== 'UNPORTABLE') throw refusal
  const number = CONSTRUCTS.indexOf(refusal.construct)
  return { construct: refusal.construct, number, position: refusal.position, message: native.constructMessage(number) }
}

function firstUnportable(query, options = {}) {
  return firstOf(query, options, 0)
}

function firstUnportableInClient(query, options = {}) {
  return firstOf(query, options, IN_CLIENT)
}

module.exports = {
  OF_MODE,
  OF_QUERY,
  OF_ZONE,
  bind,
  bindAnywhere,
  bindForm,
  bindFormAnywhere,
  bindFormInBothModes,
  bindInBothModes,
  boundWritten,
  firstUnportable,
  firstUnportableInClient,
  kindOf,
  modeOf,
  names,
  optionsOf,
  withForm
}
