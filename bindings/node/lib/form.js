'use strict'
// The flat form of parameters, as mysql_params.h describes it, written into one buffer that crosses the border once.

const { isDate, isMap, isUint8Array } = require('node:util/types')
const { isGone, lengthOf, viewOf } = require('./bytes.js')
const { digitsOf, itemsOf, numberOf, pairsOf, partsOf, wordOf } = require('./fragments.js')
const dates = require('./dates.js')
const { otherOf } = require('./objects.js')
const { assignedRefusal, itemRefusal, nameRefusal, rowRefusal, valueRefusal } = require('./refused.js')

// Numbers of column types in the protocol, and of the types that the calls that bind fragments alone take.
const DOUBLE = 5
const NULL = 6
const LONGLONG = 8
const DATETIME = 12
const NUMBER = 128
const LIST = 129
const ROWS = 130
const IDENTIFIER = 131
const QUALIFIED = 132
const KEYWORD = 133
const IDENTIFIERS = 134
const ASSIGNMENTS = 135
// Of an array that no In says to be several values: the archive judges its place.
const IMPLICIT_LIST = 136
const IMPLICIT_ROWS = 137
const VAR_STRING = 253
const UNSIGNED = 128

const LEAST_INT = -(2n ** 63n)
const MOST_INT = 2n ** 63n - 1n
const MOST_UINT = 2n ** 64n - 1n
// The digits of an exact number, of which servers keep no more.
const MOST_DIGITS = 65

// A string of up to so many letters is written letter by letter, which is faster than a call of Buffer.
const SHORT = 40
// What putShort and putCommon may write at most.
const MOST_SHORT = 2 + 1 + SHORT
const isOwn = Object.prototype.hasOwnProperty
// A form of more bytes is let go after its call.
const KEPT = 1 << 20

/** How many bytes the shortest form of a length has. */
function widthOf(length) {
  return length < 251 ? 1 : length < 65536 ? 3 : length < 16777216 ? 4 : 9
}

/** Whether a string has no lone surrogate, which has no UTF-8. */
function isWellFormed(text) {
  return text.isWellFormed === undefined ? !/\p{Surrogate}/u.test(text) : text.isWellFormed()
}

/** Writes a short text of ASCII as a length-encoded string at a byte. Returns the byte behind it; -1 of any other text. */
function putShort(bytes, at, text) {
  const count = text.length
  if (count > SHORT) return -1
  for (let i = 0; i < count; i++) {
    const letter = text.charCodeAt(i)
    if (letter > 127) return -1
    bytes[at + 1 + i] = letter
  }
  bytes[at] = count
  return at + 1 + count
}

/**
 * Writes type, flags and value of what most values are, at a byte: a short text of ASCII, a whole number of 32 bits, null.
 * Returns the byte behind it; -1 of any other value.
 */
function putCommon(bytes, at, value) {
  if (typeof value === 'string') {
    bytes[at] = VAR_STRING
    bytes[at + 1] = 0
    return putShort(bytes, at + 2, value)
  }
  if (typeof value === 'number' && (value | 0) === value) {
    const sign = value < 0 ? 255 : 0
    bytes[at] = LONGLONG
    bytes[at + 1] = 0
    bytes[at + 2] = value
    bytes[at + 3] = value >> 8
    bytes[at + 4] = value >> 16
    bytes[at + 5] = value >> 24
    bytes[at + 6] = sign
    bytes[at + 7] = sign
    bytes[at + 8] = sign
    bytes[at + 9] = sign
    return at + 10
  }
  if (value !== null) return -1
  bytes[at] = NULL
  bytes[at + 1] = 0
  return at + 2
}

/** A form that is being written. */
class Form {
  constructor(size) {
    this.hold(Buffer.allocUnsafeSlow(size))
    this.begin(undefined, true)
  }

  hold(bytes) {
    this.bytes = bytes
    this.buffer = bytes.buffer
    this.view = new DataView(bytes.buffer)
    this.size = bytes.length
  }

  /** Begins anew: with the zone by which a Date is written, and whether a place takes more than a value. */
  begin(zone, takesMore) {
    this.len = 0
    this.isFragments = false
    this.zone = zone
    this.takesMore = takesMore
  }

  /** Makes room for so many bytes more. It throws a RangeError if there is no memory. */
  grow(more) {
    const bytes = Buffer.allocUnsafeSlow(2 * (this.len + more))
    this.bytes.copy(bytes, 0, 0, this.len)
    this.hold(bytes)
  }

  /** Takes the bytes of a form that stands already. */
  take(given) {
    const count = lengthOf(given)
    if (count > this.size) this.grow(count)
    this.put(0, given, count)
    this.len = count
  }

  /**
   * Writes so many bytes of a Uint8Array at a byte, for which there is room. Another thread may have made the array longer since
   * these were counted: what then stands behind them counts as unwritten, or there is no room for all.
   */
  put(at, given, count) {
    try {
      this.bytes.set(given, at)
    } catch {
      this.bytes.set(viewOf(given, count), at)
    }
  }

  /** Appends a type and flags, for which there is room. */
  type(type, flags) {
    this.bytes[this.len] = type
    this.bytes[this.len + 1] = flags
    this.len += 2
  }

  /** Writes a length at a byte, in so many bytes. */
  length(at, length, width) {
    const { bytes } = this
    if (width === 1) {
      bytes[at] = length
      return
    }
    bytes[at] = width === 3 ? 0xfc : width === 4 ? 0xfd : 0xfe
    for (let i = 1, rest = length; i < width; i++, rest = Math.floor(rest / 256)) bytes[at + i] = rest % 256
  }

  /** Appends so many bytes of a Uint8Array as a length-encoded string. */
  string(given, count) {
    const width = widthOf(count)
    if (this.len + width + count > this.size) this.grow(width + count)
    this.length(this.len, count, width)
    this.put(this.len + width, given, count)
    this.len += width + count
  }

  /** Appends the UTF-8 of a text as a length-encoded string. False for one with a lone surrogate. */
  text(text) {
    if (this.len + MOST_SHORT > this.size) this.grow(MOST_SHORT)
    const end = putShort(this.bytes, this.len, text)
    if (end < 0) return this.longText(text)
    this.len = end
    return true
  }

  longText(text) {
    const count = text.length
    if (this.len + 9 + 3 * count > this.size) this.grow(9 + 3 * count)
    const width = widthOf(count)
    const begin = this.len + width
    const written = this.bytes.write(text, begin, 'utf8')
    if (written !== count && !isWellFormed(text)) return false
    const own = widthOf(written)
    if (own !== width) this.bytes.copyWithin(this.len + own, begin, begin + written)
    this.length(this.len, written, own)
    this.len += own + written
    return true
  }

  /** Makes what stands behind the byte at `begin` a length-encoded string, whose length has that byte's place. */
  enclose(begin) {
    const length = this.len - begin - 1
    const width = widthOf(length)
    if (width > 1) {
      if (this.len + width > this.size) this.grow(width)
      this.bytes.copyWithin(begin + width, begin + 1, this.len)
    }
    this.length(begin, length, width)
    this.len = begin + width + length
  }
}

function writeWhole(form, value) {
  const { view, len } = form
  form.type(LONGLONG, 0)
  view.setInt32(len + 2, value, true)
  view.setInt32(len + 6, Math.floor(value / 4294967296), true)
  form.len = len + 10
  return true
}

function writeDouble(form, value) {
  if (Number.isFinite(value)) form.isFragments = true
  form.type(DOUBLE, 0)
  form.view.setFloat64(form.len, value, true)
  form.len += 8
  return true
}

function writeNumber(form, value) {
  if (Number.isSafeInteger(value)) return writeWhole(form, value)
  return !Number.isInteger(value) && writeDouble(form, value)
}

/** Whether an exact number has more digits than servers keep. */
function isTooLong(digits) {
  let count = 0
  for (let i = 0; i < digits.length && count <= MOST_DIGITS; i++) {
    const letter = digits.charCodeAt(i)
    if (letter >= 48 && letter <= 57) count++
  }
  return count > MOST_DIGITS
}

function writeDigits(form, digits) {
  if (!form.takesMore || isTooLong(digits)) return false
  form.isFragments = true
  form.type(NUMBER, 0)
  return form.text(digits)
}

function writeBigint(form, value) {
  if (value >= LEAST_INT && value <= MOST_INT) {
    form.type(LONGLONG, 0)
    form.view.setBigInt64(form.len, value, true)
  } else if (value > 0n && value <= MOST_UINT) {
    form.type(LONGLONG, UNSIGNED)
    form.view.setBigUint64(form.len, value, true)
  } else {
    // The digits of a number that is far too long would take long to find.
    return BigInt.asIntN(256, value) === value && writeDigits(form, String(value))
  }
  form.len += 8
  return true
}

function writeText(form, value) {
  form.type(VAR_STRING, 0)
  return form.longText(value)
}

function writeBytes(form, value) {
  const count = lengthOf(value)
  if (count === 0 && isGone(value)) return false
  form.type(VAR_STRING, 0)
  form.string(value, count)
  return true
}

function writeDate(form, value) {
  if (dates.faultOf(value, form.zone) !== undefined) return false
  const [year, month, day, hour, minute, second, millisecond] = dates.fieldsOf(value, form.zone)
  form.type(DATETIME, 0)
  const { bytes, view, len } = form
  bytes[len] = 11
  view.setUint16(len + 1, year, true)
  bytes.set([month, day, hour, minute, second], len + 3)
  view.setUint32(len + 8, 1000 * millisecond, true)
  form.len = len + 12
  return true
}

/** Appends an object that is a value, or an exact number or a double: what may stand in a list too. False of any other. */
function writeItemObject(form, value) {
  if (isUint8Array(value)) return writeBytes(form, value)
  if (isDate(value)) return writeDate(form, value)
  const digits = digitsOf(value)
  if (digits !== undefined) return writeDigits(form, digits)
  const number = numberOf(value)
  return number !== undefined && writeDouble(form, number)
}

/** Appends type, flags and value of an item. False, after any bytes, for what has no literal: valueRefusal says why. */
function writeItem(form, value) {
  if (form.len + MOST_SHORT > form.size) form.grow(MOST_SHORT)
  const end = putCommon(form.bytes, form.len, value)
  if (end < 0) return writeRare(form, value)
  form.len = end
  return true
}

/** Appends the same of what is none of the most. There is room for a value of a few bytes. */
function writeRare(form, value) {
  switch (typeof value) {
    case 'string':
      return writeText(form, value)
    case 'number':
      return writeNumber(form, value)
    case 'bigint':
      return writeBigint(form, value)
    case 'boolean':
      return writeNumber(form, value ? 1 : 0)
    case 'object':
      return writeItemObject(form, value)
    default:
      return false
  }
}

/** How many items an array has. A Proxy may say what is no count. */
function countOf(items) {
  return items.length >>> 0
}

/** Appends a count in four bytes. */
function writeCount(form, count) {
  if (form.len + 4 > form.size) form.grow(4)
  form.view.setUint32(form.len, count, true)
  form.len += 4
}

function writeList(form, type, items, place) {
  form.type(type, 0)
  const count = countOf(items)
  writeCount(form, count)
  for (let i = 0; i < count; i++) {
    const item = items[i]
    if (!writeItem(form, item)) throw itemRefusal(form, item, place, i, undefined)
  }
}

function writeRows(form, type, rows, place) {
  form.type(type, 0)
  const count = countOf(rows)
  writeCount(form, count)
  for (let i = 0; i < count; i++) {
    const row = rows[i]
    if (!Array.isArray(row)) throw rowRefusal(place, i)
    const width = countOf(row)
    writeCount(form, width)
    for (let j = 0; j < width; j++) {
      const item = row[j]
      if (!writeItem(form, item)) throw itemRefusal(form, item, place, j, i)
    }
  }
}

/** Appends the count of names, and these. False for one with a lone surrogate. */
function writeNames(form, parts) {
  writeCount(form, parts.length)
  return parts.every((part) => form.text(part))
}

function writeIdentifier(form, parts) {
  form.type(parts.length === 1 ? IDENTIFIER : QUALIFIED, 0)
  return parts.length === 1 ? form.text(parts[0]) : writeNames(form, parts)
}

/** Whether an item is an identifier. */
function isIdentifier(item) {
  return typeof item === 'object' && item !== null && partsOf(item) !== undefined
}

function writeIdentifiers(form, items, place) {
  form.type(IDENTIFIERS, 0)
  const count = countOf(items)
  writeCount(form, count)
  for (let i = 0; i < count; i++) {
    const item = items[i]
    if (!isIdentifier(item)) throw nameRefusal(place, i)
    if (!writeNames(form, partsOf(item))) throw itemRefusal(form, item, place, i, undefined)
  }
}

/** Appends assignments. False for a column with a lone surrogate. */
function writeAssignments(form, pairs, place) {
  form.type(ASSIGNMENTS, 0)
  writeCount(form, pairs.length)
  for (const [column, value] of pairs) {
    const parts = partsOf(column)
    if (!writeNames(form, parts)) return false
    if (!writeItem(form, value)) throw assignedRefusal(form, value, place, parts)
  }
  return true
}

function writeKeyword(form, word) {
  form.type(KEYWORD, 0)
  return form.text(word)
}

/** Appends an array: a list, or rows or identifiers, as its first item says. */
function writeArray(form, items, place) {
  const first = items.length > 0 ? items[0] : undefined
  if (Array.isArray(first)) writeRows(form, IMPLICIT_ROWS, items, place)
  else if (isIdentifier(first)) writeIdentifiers(form, items, place)
  else writeList(form, IMPLICIT_LIST, items, place)
}

/** Appends what an In holds: a list, or rows, as its first item says. */
function writeIn(form, items, place) {
  if (Array.isArray(items[0])) writeRows(form, ROWS, items, place)
  else writeList(form, LIST, items, place)
}

/** Appends what is more than a value: an array, an In, an identifier, assignments, a keyword. False of what may be an item. */
function writeFragment(form, value, place) {
  if (form.len + 8 > form.size) form.grow(8)
  if (Array.isArray(value)) {
    writeArray(form, value, place)
    return true
  }
  const items = itemsOf(value)
  if (items !== undefined) {
    writeIn(form, items, place)
    return true
  }
  const parts = partsOf(value)
  const pairs = parts === undefined ? pairsOf(value) : undefined
  const word = parts === undefined && pairs === undefined ? wordOf(value) : undefined
  let isWritten
  if (parts !== undefined) isWritten = writeIdentifier(form, parts)
  else if (pairs !== undefined) isWritten = writeAssignments(form, pairs, place)
  else if (word !== undefined) isWritten = writeKeyword(form, word)
  else return false
  if (!isWritten) throw valueRefusal(form, value, place)
  return true
}

/** Appends what stands in a place, or throws why it can't be written. A place is told by its name, or by its number. */
function writePlace(form, value, place) {
  if (typeof value === 'object' && value !== null && form.takesMore && writeFragment(form, value, place)) {
    form.isFragments = true
    return
  }
  if (!writeItem(form, value)) throw valueRefusal(form, value, place)
}

function writeNamed(form, name, value) {
  if (typeof name !== 'string') throw new TypeError(`a name is a string, and not of type ${typeof name}`)
  if (name.length === 0) throw new RangeError('a parameter has an empty name')
  if (!form.text(name)) throw new TypeError('a name of a parameter has a lone surrogate')
  writePlace(form, value, name)
}

/** Appends the parameters of an object: its own properties that can be enumerated. */
function writeObject(form, params) {
  for (const name in params) {
    if (!isOwn.call(params, name)) continue
    if (form.len + 2 * MOST_SHORT > form.size) form.grow(2 * MOST_SHORT)
    const value = params[name]
    const begin = putShort(form.bytes, form.len, name)
    const end = begin < 0 || name.length === 0 ? -1 : putCommon(form.bytes, begin, value)
    if (end < 0) writeNamed(form, name, value)
    else form.len = end
  }
}

/**
 * Appends the values of an object without their names, which stand in the order of the places. False, after any bytes, unless they
 * are just these names in this order, and each value can be written.
 */
function writeOrdered(form, params, names) {
  let { bytes, len, size } = form
  let count = 0
  for (const name in params) {
    if (!isOwn.call(params, name)) continue
    if (name !== names[count]) return false
    const value = params[name]
    if (len + 1 + MOST_SHORT > size) {
      form.len = len
      form.grow(1 + MOST_SHORT)
      bytes = form.bytes
      size = form.size
    }
    bytes[len] = 0
    const end = putCommon(bytes, len + 1, value)
    if (end < 0) {
      form.len = len + 1
      if (!canWrite(form, value, count)) return false
      bytes = form.bytes
      size = form.size
    }
    len = end < 0 ? form.len : end
    count++
  }
  form.len = len
  return count === names.length
}

/** The same of names in any order, of which each stands in one place. */
function writeInPlaces(form, params, names, places) {
  const values = new Array(names.length)
  let count = 0
  for (const name in params) {
    if (!isOwn.call(params, name)) continue
    const place = places.get(name)
    if (place === undefined) return false
    values[place] = params[name]
    count++
  }
  if (count !== names.length) return false
  for (let i = 0; i < count; i++) {
    if (form.len + 1 > form.size) form.grow(1)
    form.bytes[form.len++] = 0
    if (!canWrite(form, values[i], i)) return false
  }
  return true
}

/** Appends the values of a plain object to the places of their names, without the names; false as the two above. */
function writeWithoutNames(form, params, names, places) {
  if (typeof params !== 'object' || params === null) return false
  const prototype = Object.getPrototypeOf(params)
  if (prototype !== Object.prototype && prototype !== null) return false
  const begin = form.len
  if (writeOrdered(form, params, names)) return true
  form.len = begin
  form.isFragments = false
  return writeInPlaces(form, params, names, places)
}

/** Appends what stands in a place. False if it is refused, without a word of why. */
function canWrite(form, value, place) {
  try {
    writePlace(form, value, place)
    return true
  } catch {
    return false
  }
}

function writeInOrder(form, params) {
  const count = params.length
  for (let i = 0; i < count; i++) {
    if (form.len + 1 + MOST_SHORT > form.size) form.grow(1 + MOST_SHORT)
    const { bytes, len } = form
    const value = params[i]
    bytes[len] = 0
    const end = putCommon(bytes, len + 1, value)
    form.len = end < 0 ? len + 1 : end
    if (end < 0) writePlace(form, value, i)
  }
}

/** Appends all parameters of a query. */
function writeParams(form, params) {
  if (params === undefined || params === null) return
  if (Array.isArray(params)) {
    writeInOrder(form, params)
    return
  }
  if (typeof params !== 'object') {
    throw new TypeError(`parameters are an array, an object of names, or a Map, and not of type ${typeof params}`)
  }
  if (isMap(params)) {
    for (const [name, value] of params) writeNamed(form, name, value)
    return
  }
  const other = otherOf(params)
  if (other !== undefined) throw new TypeError(`parameters are an array, an object of names, or a Map, and not ${other}`)
  writeObject(form, params)
}

// The form that waits for the next call. A call within a call, as of a getter, takes another.
let waiting = new Form(1 << 16)

/** Takes a form to write. */
function takeForm(zone, takesMore) {
  const form = waiting ?? new Form(1 << 10)
  waiting = null
  form.begin(zone, takesMore)
  return form
}

/** Gives a form back after its call. */
function giveForm(form) {
  waiting = form.size <= KEPT ? form : new Form(1 << 16)
}

module.exports = { Form, giveForm, isWellFormed, takeForm, writeParams, writeWithoutNames }
