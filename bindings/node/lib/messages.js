'use strict'
// What refusals say, in the words of JavaScript. They show names, places and what stands beside these, and no value.

const { placeText, show } = require('./refused.js')

const TWO_NAMES = 'for a name with a point write one place, and give an Identifier of two names'

// What may stand directly before a place.
const BEFORE = /^[\t-\r (,=<>+\-*/%&|^~]?$/

function counted(count, noun) {
  return `${count} ${noun}${count === 1 ? '' : 's'}`
}

/** What names are of, for a word in which a letter outside ASCII ends the name, or stands in the place of one. */
function ofAlphabet(word) {
  const [name] = /^[A-Za-z0-9_]*/.exec(word)
  return `: names are of ASCII letters, digits and _, so \`:${show(word)}\` ${name === '' ? 'is none' : `ends after \`${name}\``}`
}

/** What stands directly beside the place at a byte of a query, and what to write instead. */
function ofNeighbour({ position, word }, query) {
  const text = query.toString('latin1')
  const [place] = /^(?:\?|:[A-Za-z0-9_]*)/.exec(text.slice(position))
  const [before, behind] = [text.charAt(position - 1), text.charAt(position + place.length)]
  const neighbour = Buffer.from(BEFORE.test(before) ? behind : before, 'latin1')
  let toDo = ': put a space between'
  if (word !== undefined) toDo = ofAlphabet(word)
  else if ([before, behind].includes('.')) toDo = `: ${TWO_NAMES}`
  return `\`${place}\` at byte ${position} touches \`${show(neighbour)}\`${toDo}`
}

/** What a message calls the value of a place, as its first words. */
function valueText({ place, placeName }) {
  return placeText(placeName ?? place).replace('the', 'The')
}

/** What it calls a place. */
function placeOf({ place, placeName }) {
  return placeName === undefined ? `place ${place}` : `\`:${show(placeName)}\``
}

/** What a message says of an array in a place that takes one value, and what to write instead. */
function ofUnbracketed({ position, placeName }) {
  const place = placeName === undefined ? '?' : `:${show(placeName)}`
  const shown = placeName === undefined ? `\`?\` at byte ${position}` : `\`${place}\``
  return `${shown} is one value here, and was given a list: write it alone in brackets, as \`IN (${place})\`, or give new In([..])`
}

/** What is wrong with a list, rows, a name or a keyword, by the kinds of faults. */
const OF_FAULTS = {
  EMPTY: (fields) => `The list for ${placeOf(fields)} is empty`,
  EMPTY_ROW: (fields) => `${valueText(fields)} has an empty row ${fields.inRow}`,
  ROW_LENGTH: (fields) => `${valueText(fields)} has a row ${fields.inRow} that isn't as long as the first`,
  NUMBER: (fields) => `${valueText(fields)} has an item ${fields.item} of row ${fields.inRow} that is no exact number`,
  EMPTY_NAME: (fields) => `${valueText(fields)} has an empty name ${fields.item}`,
  ZERO_BYTE: (fields) => `${valueText(fields)} has a name ${fields.item} with a byte 0`,
  LONG_NAME: (fields) => `${valueText(fields)} has a name ${fields.item} of more than 64 characters`,
  TRAILING_SPACE: (fields) => `${valueText(fields)} has a name ${fields.item} that ends in a space`,
  KEYWORD: (fields) => `${valueText(fields)} is none of KEYWORDS`,
  BACKSLASH: (fields) => `${valueText(fields)} has a name ${fields.item} with a backslash before a backquote or at its end`
}

/** What is refused, by the kinds of refusals. The archive says the others. */
const OF_KINDS = {
  FORM_REPEATED: ({ placeName }) => `The form gives \`:${show(placeName)}\` twice`,
  MIXED: () => 'The query has both `:name` and `?`: write one of them',
  MISSING: ({ placeName, word }) => `\`:${placeName}\` is given no value${word === undefined ? '' : ofAlphabet(word)}`,
  NAMED_FOR_POSITIONAL: ({ word }) => 'The values have names, and the query has no `:name` outside of strings and comments' +
    (word === undefined ? '' : ofAlphabet(word)),
  POSITIONAL_FOR_NAMED: () => 'The query has names: give the values by name, as { id: 42 }',
  MARK_COUNT: ({ marks, values }) => `The query has ${counted(marks, 'mark')} (\`?\`) for ${counted(values, 'value')}`,
  NOT_ALONE: ofNeighbour,
  UNBRACKETED: ofUnbracketed,
  FLOAT: (fields) => `A float for ${placeOf(fields)} can't be written: give null for NaN and infinities, else a text`,
  UNSTEADY: ({ position }) => `Byte ${position} of the query is a backslash or isn't ASCII: bind takes the query, and ` +
    'bindInBothModes does if no string has a backslash',
  FAULT: (fields) => OF_FAULTS[fields.fault](fields),
  BACKSLASH: ({ position }) => `A string of the query has a backslash at byte ${position}: bind takes the query`,
  UNSTEADY_FRAGMENT: (fields) => `${valueText(fields)} has a name with a backslash or a letter outside ASCII: bind takes it`
}

/** The message of a refusal of a query, which is a Buffer, or what the archive says. */
function messageOf(fields, query, said) {
  const message = Object.hasOwn(OF_KINDS, fields.kind) ? OF_KINDS[fields.kind] : () => said
  return message(fields, query)
}

module.exports = { messageOf }
