'use strict'
// Values bound into SQL queries for MySQL and MariaDB, over the archive libmysql_params_c.a. What the archive answers is proved;
// this package, which hands values in and texts out, is tested. README.md is its page.

const calls = require('./lib/calls.js')
const { BindError, SessionError } = require('./lib/errors.js')
const { Assignments, Decimal, Double, Identifier, In, KEYWORDS, Keyword } = require('./lib/fragments.js')
const { bindRows } = require('./lib/rows.js')
const { askAgain, execute, query } = require('./lib/sending.js')
const { Template } = require('./lib/template.js')

module.exports = {
  Assignments,
  BindError,
  Decimal,
  Double,
  Identifier,
  In,
  KEYWORDS,
  Keyword,
  SessionError,
  Template,
  askAgain,
  bind: calls.bind,
  bindAnywhere: calls.bindAnywhere,
  bindForm: calls.bindForm,
  bindFormAnywhere: calls.bindFormAnywhere,
  bindFormInBothModes: calls.bindFormInBothModes,
  bindInBothModes: calls.bindInBothModes,
  bindRows,
  execute,
  firstUnportable: calls.firstUnportable,
  firstUnportableInClient: calls.firstUnportableInClient,
  names: calls.names,
  query
}
