'use strict'
// Refusals of the archive, and of a connection, as errors.

const { MODE, BYTES, CHECKED, native } = require('./native.js')
const { viewOf } = require('./bytes.js')
const { messageOf } = require('./messages.js')

/** C's names of the refusals, by their numbers. */
const KINDS = Object.freeze([
  'DONE', 'OUT_OF_MEMORY', 'ROOM', 'FORM_END', 'FORM_LENGTH_LEAD', 'FORM_TYPE', 'FORM_MIXED', 'FORM_REPEATED', 'MIXED',
  'MISSING', 'NAMED_FOR_POSITIONAL', 'POSITIONAL_FOR_NAMED', 'MARK_COUNT', 'NOT_ALONE', 'FLOAT', 'UNSTEADY', 'UNPORTABLE',
  'FAULT', 'BACKSLASH', 'UNSTEADY_FRAGMENT', 'OTHER_TABLE', 'UNBRACKETED'
])

/** C's names of what is wrong with a fragment, by their numbers. */
const FAULTS = Object.freeze([
  '', 'EMPTY', 'EMPTY_ROW', 'ROW_LENGTH', 'NUMBER', 'EMPTY_NAME', 'ZERO_BYTE', 'LONG_NAME', 'TRAILING_SPACE', 'KEYWORD',
  'BACKSLASH'
])

/** C's names of what servers, or a client, read in different ways, by their numbers. */
const CONSTRUCTS = Object.freeze([
  'PORTABLE', 'EXECUTABLE_COMMENT', 'HINT', 'MARIADB_COMMENT', 'DASHES', 'ESCAPED_QUOTE', 'BRACKET', 'DOLLAR_QUOTE',
  'DASHES_AFTER_EXPONENT', 'PLACE_AFTER_EXPONENT', 'OPENER_IN_COMMENT', 'JOINING_COMMENT', 'DASHES_BEFORE_COMMENT',
  'CLIENT_COMMAND', 'DASH_IN_FRONT', 'DELIMITER', 'CLIENT_WORD', 'ESCAPED_NEWLINE', 'ZERO_BYTE', 'ESCAPED_BACKQUOTE',
  'RETURN_IN_COMMENT'
])

const OUT_OF_MEMORY = 1
const MISSING = 9
const NAMED_FOR_POSITIONAL = 10
const NOT_ALONE = 13

/** The fields of an error that each number has, in the order of RULES. */
const FIELDS = {
  3: ['place', 'position'],
  4: ['place', 'position', 'byte'],
  5: ['place', 'position', 'byte'],
  6: ['place', 'position'],
  7: ['place', 'position', 'placeName'],
  9: ['place', 'position', 'placeName'],
  12: ['marks', 'values'],
  13: ['place', 'position'],
  14: ['place', 'placeName'],
  15: ['position'],
  16: ['position', 'construct'],
  17: ['place', 'fault', 'inRow', 'item', 'placeName'],
  18: ['position'],
  19: ['place', 'placeName'],
  21: ['place', 'position', 'placeName']
}

/** The numbers that tell the name of their place, which is looked up in the query. */
const NAMED = [14, 17, 19, 21]

/** A refusal: `code` tells its kind, as `kind` does. Numbers of places and bytes begin at 0. */
class BindError extends Error {
  constructor(message, fields) {
    super(message)
    Object.assign(this, { code: `ERR_MYSQL_PARAMS_${fields.kind}` }, fields)
  }
}
Object.defineProperty(BindError.prototype, 'name', { value: 'BindError', writable: true, configurable: true })

/** The connection isn't one that a text is for: its `variable` has the value `value`. */
class SessionError extends BindError {}
Object.defineProperty(SessionError.prototype, 'name', { value: 'SessionError', writable: true, configurable: true })

/** The word of a query that a letter outside ASCII makes no name, or undefined. */
function wordOf(number, position, query) {
  const text = query.toString('latin1')
  const word = /[A-Za-z0-9_]*[\x80-\xff][A-Za-z0-9_\x80-\xff]*/y
  let found = null
  if (number === NAMED_FOR_POSITIONAL) {
    found = /(?<=:)[\x80-\xff][A-Za-z0-9_\x80-\xff]*/.exec(text)
  } else if (number === MISSING || (number === NOT_ALONE && text[position] === ':')) {
    word.lastIndex = number === MISSING ? position : position + 1
    found = word.exec(text)
  }
  return found === null ? undefined : Buffer.from(found[0], 'latin1').toString()
}

/** The name of the place of a number, or undefined for a mark. */
function nameAt(place, query, flags) {
  const names = native.names((flags & (MODE | BYTES)) | CHECKED, query)
  return typeof names[0] === 'number' ? undefined : names[1 + place]
}

/** What JavaScript throws for what the addon told of a refusal, of a query that was read by these flags. */
function refusalOf(told, query, flags) {
  const [number, , place, position, marks, values, byte, said, name] = told
  if (number === OUT_OF_MEMORY) return new RangeError('out of memory')
  const all = { place, position, marks, values, byte, placeName: name }
  if (NAMED.includes(number)) all.placeName = nameAt(place, query, flags)
  all.construct = CONSTRUCTS[byte]
  Object.assign(all, { fault: FAULTS[byte], inRow: position, item: values })
  const fields = { number, kind: KINDS[number] ?? 'UNKNOWN' }
  for (const field of FIELDS[number] ?? []) fields[field] = all[field]
  const bytes = Buffer.from(typeof query === 'string' ? query : viewOf(query))
  const word = wordOf(number, position, bytes)
  if (word !== undefined) fields.word = word
  return new BindError(messageOf(fields, bytes, said), fields)
}

module.exports = { BindError, CONSTRUCTS, FAULTS, KINDS, SessionError, refusalOf }
