'use strict'
// Every file of bindings/cases, by all calls that answer it.

const assert = require('node:assert/strict')
const fs = require('node:fs')
const { test } = require('node:test')
const { CASES, FIELDS, NUMBERS, bytesOf, cases, formOf, givenOf, isGiven, mysqlParams } = require('./shared_cases.js')
const { saidFor } = require('./said.js')

const { BindError, Template } = mysqlParams
const ran = new Set()

/** What an error's field has to say, by the fields of a case. */
function wanted(field, told, refusal) {
  if (field === 'placeName') return told === undefined ? undefined : bytesOf(told).toString()
  const number = Number(told ?? 0)
  const names = Object.entries(NUMBERS)
  if (field === 'fault') return names.find(([name, own]) => name.startsWith('FAULT_') &&
    own === number)[0].slice('FAULT_'.length)
  if (field === 'construct') return CONSTRUCTS[number]
  assert.ok(refusal in NUMBERS)
  return number
}

/** The names of the constructs by their numbers, after the enum in mysql_params.h. */
const CONSTRUCTS = []
{
  const header = fs.readFileSync(`${CASES}/../c/mysql_params.h`, 'utf8')
  const [, body] = /enum mysql_params_construct \{(.*?)\n\};/s.exec(header)
  for (const [, name, number] of body.matchAll(/^ {4}MYSQL_PARAMS_(\w+) = (\d+)/gm)) CONSTRUCTS[Number(number)] = name
}

/** The error is the refusal that a case wants, with its fields and its message. */
function expectRefusal(error, found, prefix = '') {
  assert.ok(error instanceof BindError, String(error))
  assert.equal(error.name, 'BindError')
  const code = `ERR_MYSQL_PARAMS_${found.refusal}`
  assert.deepEqual([error.code, error.kind, error.number], [code, found.refusal, NUMBERS[found.refusal]], found.lines.join('\n'))
  for (const [field, told] of Object.entries(FIELDS[found.refusal] ?? {})) {
    assert.equal(error[field], wanted(field, found.fields[told], found.refusal), field)
  }
  const { word } = found.fields
  assert.equal(error.word, word === undefined ? undefined : bytesOf(word).toString())
  if (found.message === null) return
  const said = saidFor(found.message)
  assert.ok(error.message.startsWith(prefix))
  const message = error.message.slice(prefix.length)
  if (typeof said === 'string') assert.equal(message, said)
  else assert.match(message, said)
}

/** A call gives the text or the refusal that a case wants: of a query that is a string a string, of bytes a Buffer. */
function expect(found, call, query) {
  let text
  try {
    text = call()
  } catch (error) {
    if (found.refusal === null || !(error instanceof BindError)) throw new Error(`${found.lines.join('\n')}\n${error.stack}`)
    expectRefusal(error, found)
    return
  }
  assert.equal(found.refusal, null, found.lines.join('\n'))
  assert.equal(typeof text === 'string', typeof query === 'string')
  assert.deepEqual(Buffer.from(text), found.texts[0], found.lines.join('\n'))
}

/** A case by a call, with its query as a string and as bytes. Places of a string are kept from the second call on. */
function expectBoth(found, call) {
  for (let i = 0; i < 3; i++) expect(found, () => call(found.query), found.query)
  const bytes = Buffer.from(found.query)
  expect(found, () => call(bytes), bytes)
}

/** The parameters of a case by a call, or those that only a form has by the call for a form. */
function expectBound(found, call, callForm) {
  if (isGiven(found.params)) expectBoth(found, (query) => call(query, givenOf(found.params)))
  else expectBoth(found, (query) => callForm(query, formOf(found.params)))
}

function file(name, run) {
  test(`cases of ${name}`, () => {
    const all = cases(name)
    for (const found of all) run(found)
    ran.add(name)
  })
}

const UTC = { timezone: 'Z' }

file('bind.txt', (found) => {
  const { options } = found
  const bind = (query, given) => mysqlParams.bind(query, given, { ...options, ...UTC })
  expectBound(found, bind, (query, form) => mysqlParams.bindForm(query, form, options))
  const template = (query) => new Template(query, options)
  for (let i = 0; i < 2; i++) {
    expectBound(found, (query, given) => template(query).bind(given, UTC), (query, form) => template(query).bindForm(form))
  }
  if (isGiven(found.params) && found.params.length > 0 && found.params[0][0] !== '') {
    expectBoth(found, (query) => mysqlParams.bind(query, new Map(found.params), { ...options, ...UTC }))
  }
})

file('fragments.txt', (found) => {
  const options = { ...found.options, ...UTC }
  expectBoth(found, (query) => mysqlParams.bind(query, givenOf(found.params), options))
  expectBoth(found, (query) => new Template(query, found.options).bind(givenOf(found.params), UTC))
})

file('forms.txt', (found) => {
  expectBoth(found, (query) => mysqlParams.bindForm(query, found.form ?? Buffer.alloc(0), found.options))
  expectBoth(found, (query) => new Template(query, found.options).bindForm(found.form ?? Buffer.alloc(0)))
})

file('anywhere.txt', (found) => {
  if (found.form !== null) expectBoth(found, (query) => mysqlParams.bindFormAnywhere(query, found.form))
  else expectBound(found, (query, given) => mysqlParams.bindAnywhere(query, given, UTC), mysqlParams.bindFormAnywhere)
})

file('fragments_anywhere.txt', (found) => {
  expectBound(found, mysqlParams.bindAnywhere, mysqlParams.bindFormAnywhere)
})

file('both_modes.txt', (found) => {
  if (found.form !== null) expectBoth(found, (query) => mysqlParams.bindFormInBothModes(query, found.form))
  else expectBound(found, (query, given) => mysqlParams.bindInBothModes(query, given, UTC), mysqlParams.bindFormInBothModes)
})

file('rows.txt', (found) => {
  const rows = found.rows.map(givenOf)
  for (const query of [found.query, Buffer.from(found.query)]) {
    for (const call of [
      () => mysqlParams.bindRows(query, rows, { ...found.options, ...UTC }),
      () => mysqlParams.bindRows(query, rows.values(), { ...found.options, ...UTC }),
      () => new Template(query, found.options).bindRows(rows, UTC)
    ]) {
      if (found.refusal === null) {
        assert.deepEqual(call().map((text) => Buffer.from(text)), found.texts)
        continue
      }
      assert.throws(call, (error) => {
        expectRefusal(error, found, `row ${found.texts.length}: `)
        assert.equal(error.row, found.texts.length)
        assert.deepEqual(error.texts.map((text) => Buffer.from(text)), found.texts)
        return true
      })
    }
  }
})

file('names.txt', (found) => {
  for (const query of [found.query, Buffer.from(found.query)]) {
    const call = () => mysqlParams.names(query, found.options)
    if (found.refusal !== null) {
      assert.throws(call, (error) => expectRefusal(error, found) === undefined)
      continue
    }
    const { query: renamed, names } = call()
    assert.equal(typeof renamed, typeof query)
    assert.deepEqual([Buffer.from(renamed), names], [found.renamed, found.names])
  }
})

function expectConstruct(found, call) {
  for (const query of [found.query, Buffer.from(found.query)]) {
    const told = call(query, found.options)
    if (found.isPortable) {
      assert.equal(told, null, found.lines.join('\n'))
      continue
    }
    const number = CONSTRUCTS.indexOf(found.construct)
    const { message, ...others } = told
    assert.deepEqual(others, { construct: found.construct, number, position: Number(found.fields.position) })
    if (found.message !== null) assert.equal(message, found.message)
  }
}

file('portable.txt', (found) => expectConstruct(found, mysqlParams.firstUnportable))
file('in_client.txt', (found) => expectConstruct(found, mysqlParams.firstUnportableInClient))

test('each file of the folder is read', () => {
  const all = fs.readdirSync(CASES).concat(fs.readdirSync(`${CASES}/wide`)).filter((name) => name.endsWith('.txt'))
  assert.deepEqual(new Set(all), ran)
})
