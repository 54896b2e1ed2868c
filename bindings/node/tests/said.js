'use strict'
// What Node says where a case has the message of docs/RULES.md or of another language.

const PLACE = 'at place (\\d+)'
const VALUE = '(?:: the value of `:(\\w+)`)?'
const ALPHABET = '(: names are of ASCII letters, digits and _, so `:.*)?'

function theValue(place, name) {
  return name === undefined ? `The value for place ${place}` : `The value of \`:${name}\``
}

function thePlace(place, name) {
  return name === undefined ? `place ${place}` : `\`:${name}\``
}

/** A message that tells the neighbour of a place, which no case does. */
function touching(byte, hint) {
  const toDo = hint === undefined ? ': put a space between' : hint.replace(/[\\.]/g, '\\$&')
  return new RegExp(`^\`(\\?|:\\w+)\` at byte ${byte} touches \`[^ ]+\`${toDo}$`)
}

// Patterns of messages of cases, and what Node says.
const SAID = [
  [`Missing named parameter \`(\\w+)\` for statement${ALPHABET}`, (name, hint) => `\`:${name}\` is given no value${hint ?? ''}`],
  ["Redefinition of named parameter `(.*)'", (name) => `The form gives \`:${name}\` twice`],
  ['Named and positional params in one query', () => 'The query has both `:name` and `?`: write one of them'],
  [`Named params given where positional params are expected(?:: no .*)?${ALPHABET}`,
    (hint) => `The values have names, and the query has no \`:name\` outside of strings and comments${hint ?? ''}`],
  ['Positional params given where named params are expected',
    () => 'The query has names: give the values by name, as { id: 42 }'],
  ['Query has (\\d+) marks and (\\d+) values', (marks, values) =>
    `The query has ${marks} mark${marks === '1' ? '' : 's'} (\`?\`) for ${values} value${values === '1' ? '' : 's'}`],
  [`Place \\d+ at byte (\\d+) does not stand alone${ALPHABET}`, touching],
  [`Float ${PLACE}${VALUE}(?:; give .*)?`, (place, name) =>
    `A float for ${thePlace(place, name)} can't be written: give null for NaN and infinities, else a text`],
  ['Backslash or byte that is not ASCII at byte (\\d+) of the query: .*', (byte) =>
    `Byte ${byte} of the query is a backslash or isn't ASCII: bind takes the query, and bindInBothModes does if no string has ` +
    'a backslash'],
  ['Backslash in a string at byte (\\d+) of the query', (byte) =>
    `A string of the query has a backslash at byte ${byte}: bind takes the query`],
  [`Fragment ${PLACE} has a name with a backslash or a byte that is not ASCII${VALUE}`, (place, name) =>
    `${theValue(place, name)} has a name with a backslash or a letter outside ASCII: bind takes it`],
  ['(.* is one value here, and was given a list: .*, or) say by type 129 or 130 that several are meant',
    (what) => `${what} give new In([..])`],
  [`Fragment ${PLACE} can't be written: it is empty${VALUE}`, (place, name) => `The list for ${thePlace(place, name)} is empty`],
  [`Fragment ${PLACE} can't be written: it is none of the keywords .*?${VALUE}`, (place, name) =>
    `${theValue(place, name)} is none of KEYWORDS`],
  [`Fragment ${PLACE} can't be written: row (\\d+) is not as long as the first${VALUE}`, (place, row, name) =>
    `${theValue(place, name)} has a row ${row} that isn't as long as the first`],
  [`Fragment ${PLACE} can't be written: name (\\d+) is empty${VALUE}`, (place, item, name) =>
    `${theValue(place, name)} has an empty name ${item}`],
  [`Fragment ${PLACE} can't be written: name (\\d+) ends in a space${VALUE}`, (place, item, name) =>
    `${theValue(place, name)} has a name ${item} that ends in a space`],
  [`Fragment ${PLACE} can't be written: name (\\d+) has more than 64 characters${VALUE}`, (place, item, name) =>
    `${theValue(place, name)} has a name ${item} of more than 64 characters`],
  [`Fragment ${PLACE} can't be written: name (\\d+) has a backslash before a backquote or at its end${VALUE}`,
    (place, item, name) => `${theValue(place, name)} has a name ${item} with a backslash before a backquote or at its end`]
]

// The archive's own words, which Node says too.
const SAME = /^(?:Parameter \d+ at byte \d+ of the form|Not portable at byte \d+ of the query): /

/** What Node says for a message of a case: a text, or a pattern of it. */
function saidFor(message) {
  if (SAME.test(message)) return message
  for (const [pattern, said] of SAID) {
    const found = new RegExp(`^${pattern}$`).exec(message)
    if (found !== null) return said(...found.slice(1))
  }
  throw new Error(`what Node says for this isn't known: ${message}`)
}

module.exports = { saidFor }
