'use strict'
// The message of each refusal, written by hand, and the line of the program that an error shows.

const assert = require('node:assert/strict')
const { test } = require('node:test')
const { mysqlParams } = require('./shared_cases.js')

const { Assignments, BindError, Decimal, Identifier, In, Keyword, bind, bindAnywhere, bindForm, bindInBothModes } = mysqlParams

const ALPHABET = 'names are of ASCII letters, digits and _, so'
const SPACE = 'put a space between'

/** What a message says of an array for this place. */
function unbracketed(shown, place) {
  return `${shown} is one value here, and was given a list: write it alone in brackets, as \`IN (${place})\`, or give new In([..])`
}

const MESSAGES = [
  [() => bindForm(':a', Buffer.from('0161060001610600', 'hex')), 'FORM_REPEATED', 'The form gives `:a` twice'],
  [() => bind(':a, ?'), 'MIXED', 'The query has both `:name` and `?`: write one of them'],
  [() => bind('SELECT :b', { a: 1 }), 'MISSING', '`:b` is given no value'],
  [() => bind('SELECT :größe', {}), 'MISSING',
    `\`:gr\` is given no value: ${ALPHABET} \`:gr\\xc3\\xb6\\xc3\\x9fe\` ends after \`gr\``],
  [() => bind("SELECT ':a'", { a: 1 }), 'NAMED_FOR_POSITIONAL',
    'The values have names, and the query has no `:name` outside of strings and comments'],
  [() => bind('SELECT :é', { é: 1 }), 'NAMED_FOR_POSITIONAL',
    `The values have names, and the query has no \`:name\` outside of strings and comments: ${ALPHABET} \`:\\xc3\\xa9\` is none`],
  [() => bind(':a', [1]), 'POSITIONAL_FOR_NAMED', 'The query has names: give the values by name, as { id: 42 }'],
  [() => bind('?, ?', [1]), 'MARK_COUNT', 'The query has 2 marks (`?`) for 1 value'],
  [() => bind('?', []), 'MARK_COUNT', 'The query has 1 mark (`?`) for 0 values'],
  [() => bind('SELECT 1?', [1]), 'NOT_ALONE', `\`?\` at byte 8 touches \`1\`: ${SPACE}`],
  [() => bind('SELECT ?1', [1]), 'NOT_ALONE', `\`?\` at byte 7 touches \`1\`: ${SPACE}`],
  [() => bind('?x', [1]), 'NOT_ALONE', `\`?\` at byte 0 touches \`x\`: ${SPACE}`],
  [() => bind('??', [1, 2]), 'NOT_ALONE', `\`?\` at byte 0 touches \`?\`: ${SPACE}`],
  [() => bind("('a':userId)", { userId: 1 }), 'NOT_ALONE', `\`:userId\` at byte 4 touches \`'\`: ${SPACE}`],
  [() => bind('(\t:a!:b)', { a: 1, b: 1 }), 'NOT_ALONE', `\`:b\` at byte 5 touches \`!\`: ${SPACE}`],
  [() => bind('x\\:a', { a: 1 }), 'NOT_ALONE', `\`:a\` at byte 2 touches \`\\x5c\`: ${SPACE}`],
  [() => bind('t.?', [1]), 'NOT_ALONE',
    '`?` at byte 2 touches `.`: for a name with a point write one place, and give an Identifier of two names'],
  [() => bind(':t.c', { t: 1 }), 'NOT_ALONE',
    '`:t` at byte 0 touches `.`: for a name with a point write one place, and give an Identifier of two names'],
  [() => bind('SELECT :größe', { gr: 1 }), 'NOT_ALONE',
    `\`:gr\` at byte 7 touches \`\\xc3\`: ${ALPHABET} \`:gr\\xc3\\xb6\\xc3\\x9fe\` ends after \`gr\``],
  [() => bind("JSON_SET(doc, '$.name', :name)", { name: ['x', '$.role', 'admin'] }), 'UNBRACKETED',
    unbracketed('`:name`', ':name')],
  [() => bind('SELECT é, COALESCE(?, owner)', [[1, 2]]), 'UNBRACKETED', unbracketed('`?` at byte 20', '?')],
  [() => bindAnywhere('LIMIT ?', [[[1, 2]]]), 'UNBRACKETED', unbracketed('`?` at byte 6', '?')],
  [() => bind(':a', { a: NaN }), 'FLOAT',
    "A float for `:a` can't be written: give null for NaN and infinities, else a text"],
  [() => bind('?, (?)', [1, [2, Infinity]]), 'FLOAT',
    "A float for place 1 can't be written: give null for NaN and infinities, else a text"],
  [() => bindInBothModes('?', [0.5]), 'FLOAT',
    "A float for place 0 can't be written: give null for NaN and infinities, else a text"],
  [() => bindAnywhere('SELECT é, ?', [1]), 'UNSTEADY',
    "Byte 7 of the query is a backslash or isn't ASCII: bind takes the query, " +
    'and bindInBothModes does if no string has a backslash'],
  [() => bindAnywhere('SELECT [a', []), 'UNPORTABLE',
    'Not portable at byte 7 of the query: `[` may open an identifier: write the name in backquotes'],
  [() => bind('id IN (:ids)', { ids: [] }), 'FAULT', 'The list for `:ids` is empty'],
  [() => bind('?, (?)', [1, []]), 'FAULT', 'The list for place 1 is empty'],
  [() => bind('?, ?', [1, new In([])]), 'FAULT', 'The list for place 1 is empty'],
  [() => bind('SET :set', { set: new Assignments({}) }), 'FAULT', 'The list for `:set` is empty'],
  [() => bind('VALUES :rows', { rows: [[1], []] }), 'FAULT', 'The value of `:rows` has an empty row 1'],
  [() => bind('VALUES ?', [[[1], [1, 2]]]), 'FAULT', "The value for place 0 has a row 1 that isn't as long as the first"],
  [() => bind('IN (:a)', { a: [[1, 2], [3, new Decimal('x')]] }), 'FAULT',
    'The value of `:a` has an item 1 of row 1 that is no exact number'],
  [() => bind('?', [new Identifier('a', '')]), 'FAULT', 'The value for place 0 has an empty name 1'],
  [() => bind('?', [new Identifier('a\0')]), 'FAULT', 'The value for place 0 has a name 0 with a byte 0'],
  [() => bind('?', [new Identifier('a'.repeat(65))]), 'FAULT', 'The value for place 0 has a name 0 of more than 64 characters'],
  [() => bind('?', [new Identifier('a ')]), 'FAULT', 'The value for place 0 has a name 0 that ends in a space'],
  [() => bind(':a', { a: new Identifier('a\\') }), 'FAULT',
    'The value of `:a` has a name 0 with a backslash before a backquote or at its end'],
  [() => bind('?', [new Keyword('desc', ['desc'])]), 'FAULT', 'The value for place 0 is none of KEYWORDS'],
  [() => bindInBothModes("SELECT '\\\\', ?", [1]), 'BACKSLASH',
    'A string of the query has a backslash at byte 8: bind takes the query'],
  [() => bindAnywhere(':a', { a: new Identifier('ä') }), 'UNSTEADY_FRAGMENT',
    'The value of `:a` has a name with a backslash or a letter outside ASCII: bind takes it']
]

test('what each refusal says', () => {
  for (const [call, kind, message] of MESSAGES) {
    assert.throws(call, (error) => {
      assert.deepEqual([error.constructor, error.kind, error.code, error.message],
        [BindError, kind, `ERR_MYSQL_PARAMS_${kind}`, message])
      assert.equal(error.message.includes('.h'), false)
      return true
    })
  }
})

test('what a refusal of a query of bytes says', () => {
  for (const [bytes, position] of [[[0xff, 63], 1], [[63, 0xff], 0]]) {
    const message = `\`?\` at byte ${position} touches \`\\xff\`: ${SPACE}`
    assert.throws(() => bind(Buffer.from(bytes), [1]), { kind: 'NOT_ALONE', message })
  }
})
