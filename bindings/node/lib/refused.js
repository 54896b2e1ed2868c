'use strict'
// Why a value can't be written, by its name: a TypeError or a RangeError. No message shows a value.

const { isAnyArrayBuffer, isBoxedPrimitive, isDate, isMap, isPromise } = require('node:util/types')
const { isGoneArray } = require('./bytes.js')
const { digitsOf, itemsOf, pairsOf, partsOf, wordOf } = require('./fragments.js')
const dates = require('./dates.js')
const { otherOf } = require('./objects.js')

/** A name as messages show it: other than printable ASCII, `"` and `\` as `\x` and two digits of each byte. */
function show(name) {
  const shown = [...Buffer.from(name)].map((byte) => {
    const plain = byte >= 32 && byte <= 126 && byte !== 34 && byte !== 92
    return plain ? String.fromCharCode(byte) : `\\x${byte.toString(16).padStart(2, '0')}`
  })
  return shown.join('')
}

/** What messages call the value for a place, which is told by its name or by its number from 0. */
function placeText(place) {
  return typeof place === 'number' ? `the value for place ${place}` : `the value of \`:${show(place)}\``
}

const MORE_DIGITS = [RangeError, 'has more than 65 digits, of which servers keep no more']
const BEYOND_SAFE = 'is a whole number beyond 2^53, which a number may not hold exactly: give a BigInt, or a new Double(..)'
const ONLY_VALUES = 'and this call takes only values: bind and bindAnywhere take it'
const ALONE = {
  rows: 'give a list of values, or one of rows alone',
  names: 'give a list of values, or one of Identifiers alone'
}
const NO_UTF8 = 'a lone surrogate, which has no UTF-8'

/** What is called what the package makes that is more than a value; undefined of any other object. */
function kindOf(value) {
  if (partsOf(value) !== undefined) return 'an Identifier'
  if (pairsOf(value) !== undefined) return 'of type Assignments'
  if (itemsOf(value) !== undefined) return 'an In'
  return wordOf(value) === undefined ? undefined : 'a Keyword'
}

/** Whether the names of an Identifier or of columns, or a Keyword, have a lone surrogate. */
function hasSurrogate(value) {
  const columns = pairsOf(value)?.flatMap(([column]) => partsOf(column))
  return (partsOf(value) ?? columns ?? [wordOf(value)]).some((text) => /\p{Surrogate}/u.test(text))
}

/** What an object is called, and what to give instead, also for a place that takes assignments. */
function ofObject(value, takesAssignments) {
  if (Array.isArray(value)) return 'is an array, which stands in a place by itself: it is no value, and no item of a row'
  if (isGoneArray(value)) return 'is a Uint8Array whose buffer was transferred, or made too short'
  if (ArrayBuffer.isView(value) || isAnyArrayBuffer(value)) {
    return `is of type ${Object.prototype.toString.call(value).slice(8, -1)}, which has no literal: give a Buffer of its bytes`
  }
  if (isPromise(value) || typeof value.then === 'function') return 'is a Promise: await it'
  if (isBoxedPrimitive(value)) return 'is an object around a value: give its valueOf()'
  if (typeof value.toSqlString === 'function') {
    return 'is an object with toSqlString: the words of a query stand in the query, so give an Identifier or a Keyword'
  }
  const hasColumns = takesAssignments && (isMap(value) || otherOf(value) === undefined)
  const toDo = hasColumns ? 'for SET give new Assignments(..) of it, else' : 'give'
  return `is an object, which has no literal: ${toDo} JSON.stringify(..) of it`
}

/** Why a date, or what the package makes itself, is refused; undefined of any other object. */
function ofOwn(form, value) {
  if (isDate(value)) return [form.zone === undefined ? TypeError : RangeError, dates.faultOf(value, form.zone)]
  const kind = kindOf(value)
  if (kind !== undefined) {
    if (!form.takesMore) return [TypeError, `is ${kind}, ${ONLY_VALUES}`]
    const isText = !hasSurrogate(value)
    return [TypeError, isText ? `is ${kind}, which is no value: write a place for it` : `is ${kind} with ${NO_UTF8}`]
  }
  const digits = digitsOf(value)
  if (digits === undefined) return undefined
  if (!form.takesMore) return [TypeError, `is a Decimal, ${ONLY_VALUES}`]
  return /\p{Surrogate}/u.test(digits) ? [TypeError, `is a Decimal with ${NO_UTF8}`] : MORE_DIGITS
}

/** Why a value has no literal: the kind of the error, and what it says of the value. */
function reason(form, value, takesAssignments = false) {
  switch (typeof value) {
    case 'string':
      return [TypeError, `is a string with ${NO_UTF8}`]
    case 'number':
      return [RangeError, BEYOND_SAFE]
    case 'bigint':
      if (form.takesMore) return MORE_DIGITS
      return [RangeError, `is a whole number of more than 64 bits, ${ONLY_VALUES}`]
    case 'undefined':
      return [TypeError, 'is undefined: give null for NULL']
    case 'object':
      return ofOwn(form, value) ?? [TypeError, ofObject(value, takesAssignments)]
    default:
      return [TypeError, `is a ${typeof value}, which has no literal`]
  }
}

/** Returns why the value for a place can't be written. */
function valueRefusal(form, value, place) {
  const [Kind, said] = reason(form, value, form.takesMore)
  return new Kind(`${placeText(place)} ${said}`)
}

/** Why an item of a list has to stand among others of its kind; undefined of a value. */
function ofMixed(value) {
  if (Array.isArray(value)) return `is an array: ${ALONE.rows}`
  const isName = typeof value === 'object' && value !== null && partsOf(value) !== undefined
  return isName && !hasSurrogate(value) ? `is an Identifier: ${ALONE.names}` : undefined
}

/** Returns the same of an item of a list, or of a row. */
function itemRefusal(form, value, place, item, row) {
  const mixed = row === undefined ? ofMixed(value) : undefined
  const [Kind, said] = mixed === undefined ? reason(form, value) : [TypeError, mixed]
  return new Kind(`item ${item}${row === undefined ? '' : ` of row ${row}`} of ${placeText(place)} ${said}`)
}

/** Returns why rows have one that is none. */
function rowRefusal(place, row) {
  return new TypeError(`row ${row} of ${placeText(place)} is no array: ${ALONE.rows}`)
}

/** Returns why identifiers have one that is none. */
function nameRefusal(place, item) {
  return new TypeError(`item ${item} of ${placeText(place)} is no Identifier: ${ALONE.names}`)
}

/** Returns why a column of these names can't be set to a value. */
function assignedRefusal(form, value, place, parts) {
  const column = parts.map((part) => `\`${show(part)}\``).join('.')
  const isObject = typeof value === 'object' && value !== null
  const kind = Array.isArray(value) ? 'an array' : isObject ? kindOf(value) : undefined
  const [Kind, said] = kind === undefined ? reason(form, value) : [TypeError, `is ${kind}: a column takes one value`]
  return new Kind(`${placeText(place)} sets ${column} to a value that ${said}`)
}

module.exports = { assignedRefusal, itemRefusal, nameRefusal, placeText, rowRefusal, show, valueRefusal }
