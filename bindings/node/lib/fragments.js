'use strict'
// What stands in a place beside the values of JavaScript: exact numbers, doubles, several values, identifiers, assignments and
// keywords.

const { isMap } = require('node:util/types')
const { otherOf } = require('./objects.js')

// Each reads the field of a value of its class, which nothing else has; undefined of any other object.
let digitsOf, itemsOf, numberOf, pairsOf, partsOf, wordOf

/** An exact number of its digits, as `new Decimal('9.99')`: it is written bare, so that a server computes it exactly. */
class Decimal {
  #digits

  constructor(digits) {
    if (typeof digits === 'bigint') digits = String(digits)
    if (typeof digits !== 'string') throw new TypeError('a Decimal is made of a string of digits, or of a bigint')
    this.#digits = digits
  }

  /** The digits. */
  get digits() {
    return this.#digits
  }

  toString() {
    return this.#digits
  }

  static {
    digitsOf = (value) => (#digits in value ? value.#digits : undefined)
  }
}

/** A number that is written as a DOUBLE, also if it is whole: `new Double(2)` is `2.0e0`. */
class Double {
  #number

  constructor(number) {
    if (typeof number !== 'number') throw new TypeError('a Double is made of a number')
    this.#number = number
  }

  /** The number. */
  get number() {
    return this.#number
  }

  static {
    numberOf = (value) => (#number in value ? value.#number : undefined)
  }
}

/** An item of an In, of which a row can't be changed. */
function heldOf(item) {
  return Array.isArray(item) ? Object.freeze(Array.from(item)) : item
}

/**
 * Several values, where a server may take one too: `COALESCE(?)` of `new In([1, 2])` is `COALESCE(1, 2)`. It holds a list or
 * rows. An array stands alone in brackets, as in `IN (?)`: elsewhere it is refused, since one in the JSON of a request would
 * become several arguments. So don't make an In of a value from outside without looking at it.
 */
class In {
  #items

  constructor(items) {
    if (!Array.isArray(items)) throw new TypeError('an In is made of an array: of values, or of rows')
    this.#items = Object.freeze(Array.from(items, heldOf))
  }

  /** The items of the list, or the rows. */
  get items() {
    return this.#items
  }

  static {
    itemsOf = (value) => (#items in value ? value.#items : undefined)
  }
}

/**
 * The name of a table or a column, and before it that of what it is in: `new Identifier('db', 't')`. It is written in
 * backquotes. A point in a name is a part of it. An array of them is written with commas in between.
 */
class Identifier {
  #parts

  constructor(...parts) {
    if (parts.length === 0 || !parts.every((part) => typeof part === 'string')) {
      throw new TypeError('an Identifier is made of one or more names, which are strings')
    }
    this.#parts = Object.freeze(parts)
  }

  /** The names. */
  get parts() {
    return this.#parts
  }

  static {
    partsOf = (value) => (#parts in value ? value.#parts : undefined)
  }
}

const MADE_OF = 'Assignments are made of an object of columns, or of an array or a Map of pairs: a column and a value'

/** The pairs that assignments are made of, as they are given. */
function givenPairs(assigned) {
  if (Array.isArray(assigned) || isMap(assigned)) return assigned
  if (typeof assigned !== 'object' || assigned === null) {
    throw new TypeError(`${MADE_OF}, and not of ${assigned === null ? 'null' : `type ${typeof assigned}`}`)
  }
  const other = otherOf(assigned)
  if (other !== undefined) throw new TypeError(`${MADE_OF}, and not of ${other}`)
  return Object.entries(assigned)
}

/** A column and what it is set to, which can't be changed. */
function pairOf(pair) {
  if (!Array.isArray(pair) || pair.length !== 2) throw new TypeError(MADE_OF)
  const [column, value] = pair
  if (typeof column === 'string') return Object.freeze([new Identifier(column), value])
  if (typeof column !== 'object' || column === null || partsOf(column) === undefined) {
    throw new TypeError('a column is a string, which is one name, or an Identifier')
  }
  return Object.freeze([column, value])
}

/**
 * Columns and what they are set to, for `SET ?`: `new Assignments({ price: 7, sold: null })`. Of an object each own property is
 * a column of one name. In an array or a Map of pairs a column may be an Identifier too: `[new Identifier('t', 'price'), 7]`. A
 * column is set to what may stand in a list.
 */
class Assignments {
  #pairs

  constructor(assigned) {
    this.#pairs = Object.freeze(Array.from(givenPairs(assigned), pairOf))
  }

  /** The columns, and what they are set to. */
  get pairs() {
    return this.#pairs
  }

  static {
    pairsOf = (value) => (#pairs in value ? value.#pairs : undefined)
  }
}

/** The keywords that the archive writes. */
const KEYWORDS = Object.freeze([
  'ASC', 'DESC', 'ALL', 'DISTINCT', 'AND', 'OR', 'XOR', 'NOT', 'NULL', 'IS NULL', 'IS NOT NULL', 'DEFAULT', 'TRUE', 'FALSE',
  'LIKE', 'NOT LIKE', 'MICROSECOND', 'SECOND', 'MINUTE', 'HOUR', 'DAY', 'WEEK', 'MONTH', 'QUARTER', 'YEAR', 'LEFT', 'RIGHT',
  'INNER', 'CROSS', 'UNION', 'UNION ALL', 'FOR UPDATE', 'LOCK IN SHARE MODE'
])

/**
 * One of the keywords that stand in your program, chosen at run time: `new Keyword(order, ['ASC', 'DESC'])`. A word that isn't
 * among them is a RangeError, so that no text from outside gets into a query.
 */
class Keyword {
  #word

  constructor(word, among) {
    if (typeof word !== 'string' || !Array.isArray(among)) {
      throw new TypeError("a Keyword is made of a string and an array of those that it has to be among: ['ASC', 'DESC']")
    }
    if (!among.includes(word)) {
      const several = among.map((other) => JSON.stringify(other)).join(', ')
      throw new RangeError(`the word is none of the keywords ${several}`)
    }
    this.#word = word
  }

  /** The keyword. */
  get word() {
    return this.#word
  }

  static {
    wordOf = (value) => (#word in value ? value.#word : undefined)
  }
}

module.exports = {
  Assignments,
  Decimal,
  Double,
  Identifier,
  In,
  KEYWORDS,
  Keyword,
  digitsOf,
  itemsOf,
  numberOf,
  pairsOf,
  partsOf,
  wordOf
}
