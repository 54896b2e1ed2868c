'use strict'
// What is asked of the addon, and what it answers.

const { CHECKED } = require('./native.js')
const { refusalOf } = require('./errors.js')
const { isWellFormed } = require('./form.js')

/** Throws for a query with a lone surrogate. */
function judgeQuery(query) {
  if (!isWellFormed(query)) throw new TypeError('the query has a lone surrogate, which has no UTF-8')
}

/** Asks the addon, by a function of the flags, and again if the query was to be looked at; throws what it refuses. */
function asked(ask, flags, query) {
  let told = ask(flags)
  if (told === undefined) {
    judgeQuery(query)
    told = ask(flags | CHECKED)
  }
  if (Array.isArray(told) && typeof told[0] === 'number') throw refusalOf(told, query, flags)
  return told
}

module.exports = { asked, judgeQuery }
