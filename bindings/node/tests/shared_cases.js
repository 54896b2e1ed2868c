'use strict'
// The cases of bindings/cases, as Node has them: those that all calls answer alike, and those of `wide`.

const fs = require('node:fs')
const path = require('node:path')

const mysqlParams = require(process.env.MYSQL_PARAMS)

const CASES = path.resolve(__dirname, '../../cases')

/** C's names and numbers of what cases tell. */
const HEADER = fs.readFileSync(path.resolve(__dirname, '../../c/mysql_params.h'), 'utf8')
const NUMBERS = Object.fromEntries(
  [...HEADER.matchAll(/^ {4}MYSQL_PARAMS_(\w+) = (-?\d+)/gm)].map(([, name, number]) => [name, Number(number)])
)

/** The fields that an error has beside its number, and what cases call them. */
const FIELDS = {
  FORM_END: { place: 'place', position: 'position' },
  FORM_LENGTH_LEAD: { place: 'place', position: 'position', byte: 'byte' },
  FORM_TYPE: { place: 'place', position: 'position', byte: 'byte' },
  FORM_MIXED: { place: 'place', position: 'position' },
  FORM_REPEATED: { place: 'place', position: 'position', placeName: 'name' },
  MISSING: { place: 'place', position: 'position', placeName: 'name' },
  MARK_COUNT: { marks: 'marks', values: 'values' },
  NOT_ALONE: { place: 'place', position: 'position' },
  FLOAT: { place: 'place', placeName: 'of' },
  UNSTEADY: { position: 'position' },
  UNPORTABLE: { position: 'position', construct: 'byte' },
  UNBRACKETED: { place: 'place', position: 'position', placeName: 'of' },
  FAULT: { place: 'place', fault: 'byte', inRow: 'position', item: 'values', placeName: 'of' },
  BACKSLASH: { position: 'position' },
  UNSTEADY_FRAGMENT: { place: 'place', placeName: 'of' }
}

/** The bytes of a text: pairs of hexadecimal digits within { }, or as they stand. */
function bytesOf(text) {
  const parts = text.split(/\{([0-9A-F]+)\}/)
  return Buffer.concat(parts.map((part, i) => Buffer.from(part, i % 2 ? 'hex' : 'utf8')))
}

/** A value that only a form has: its type and its bytes in the protocol. JavaScript has no date of microseconds, and no span. */
class FormValue {
  constructor(type, flags, bytes) {
    this.bytes = Buffer.concat([Buffer.from([type, flags]), bytes])
  }
}

function dateOf(fields) {
  const [year, month, day, hour, minute, second, microsecond] = fields
  const bytes = Buffer.from([11, 0, 0, month, day, hour, minute, second, 0, 0, 0, 0])
  bytes.writeUInt16LE(year, 1)
  bytes.writeUInt32LE(microsecond, 8)
  const date = new Date(0)
  date.setUTCFullYear(year, month - 1, day)
  date.setUTCHours(hour, minute, second, microsecond / 1000)
  return microsecond % 1000 === 0 ? date : new FormValue(12, 0, bytes)
}

function timeOf([sign, ...fields]) {
  const [days, hours, minutes, seconds, microseconds] = fields.map(Number)
  const bytes = Buffer.from([12, sign === '-' ? 1 : 0, 0, 0, 0, 0, hours, minutes, seconds, 0, 0, 0, 0])
  bytes.writeUInt32LE(days, 2)
  bytes.writeUInt32LE(microseconds, 9)
  return new FormValue(11, 0, bytes)
}

/** The text that says a time, as `-026:03:04.000005`, which is what JavaScript gives a column. */
function timeText([sign, ...fields]) {
  const [days, hours, minutes, seconds, microseconds] = fields.map(Number)
  const two = (number) => String(number).padStart(2, '0')
  const whole = `${String(24 * days + hours).padStart(3, '0')}:${two(minutes)}:${two(seconds)}`
  return `${sign === '-' ? '-' : ''}${whole}${microseconds > 0 ? `.${String(microseconds).padStart(6, '0')}` : ''}`
}

/** The identifier of names with bars between them. */
function identifierOf(text) {
  return new mysqlParams.Identifier(...text.split('|').map((part) => bytesOf(part).toString()))
}

/** A column and what it is set to. A column of one name is a string. */
function pairOf(text) {
  const at = text.indexOf('=')
  const column = identifierOf(text.slice(0, at))
  const value = text.slice(at + 1)
  const assigned = value.startsWith('time:') ? timeText(value.slice('time:'.length).split(' ')) : valueOf(value)
  return [column.parts.length === 1 ? column.parts[0] : column, assigned]
}

/** What several texts say, which two bars stand between. */
function severalOf(text, one) {
  return text === '' ? [] : text.split('||').map(one)
}

function numberOf(text) {
  return { nan: NaN, inf: Infinity, '-inf': -Infinity }[text] ?? Number(text)
}

/** The items of a list. */
function listOf(text) {
  return text === '' ? [] : text.split('|').map(valueOf)
}

/** The rows of which two bars stand between each and the next. */
function rowsOf(text) {
  return text.split('||').map((row) => row.split('|').map(valueOf))
}

/** The value of a parameter as JavaScript has it. A whole double is a Double, since a whole number is bound as one. */
function valueOf(text) {
  const at = text.indexOf(':')
  const [kind, rest] = at < 0 ? [text, ''] : [text.slice(0, at), text.slice(at + 1)]
  const double = (number) => (Number.isInteger(number) ? new mysqlParams.Double(number) : number)
  const bytes = bytesOf(rest)
  const asText = Buffer.from(bytes.toString()).equals(bytes) ? bytes.toString() : bytes
  switch (kind) {
    case 'null': return null
    case 's': return asText
    case 'i':
    case 'u': return Number.isSafeInteger(Number(rest)) ? Number(rest) : BigInt(rest)
    case 'd': return new mysqlParams.Decimal(rest)
    case 'list': return new mysqlParams.In(listOf(rest))
    case 'rows': return new mysqlParams.In(rowsOf(rest))
    case 'implicit_list': return listOf(rest)
    case 'implicit_rows': return rowsOf(rest)
    case 'identifier':
    case 'qualified': return identifierOf(rest)
    // No array says that it would have held identifiers.
    case 'identifiers': return rest === '' ? new mysqlParams.In([]) : severalOf(rest, identifierOf)
    case 'assignments': return new mysqlParams.Assignments(severalOf(rest, pairOf))
    case 'keyword': return new mysqlParams.Keyword(rest, [rest, 'ASC'])
    case 'date': return dateOf(rest.split(' ').map(Number))
    case 'time': return timeOf(rest.split(' '))
    case 'float': return double(Math.fround(numberOf(rest)))
    case 'double': return double(numberOf(rest))
    default: throw new Error(`${kind} is no kind of a value`)
  }
}

/** A case, and the lines that it stands in. */
class Case {
  constructor(lines) {
    Object.assign(this, { lines, query: '', params: [], form: null, texts: [], rows: [], names: [], fields: {} })
    Object.assign(this, { noBackslashEscape: false, refusal: null, construct: null, isPortable: false, message: null })
    for (const line of lines) {
      const at = line.indexOf(' ')
      if (at < 0) this.read(line, '')
      else this.read(line.slice(0, at), line.slice(at + 1))
    }
    // A query that isn't UTF-8 is handed in as bytes.
    const bytes = bytesOf(this.query)
    this.query = Buffer.from(bytes.toString()).equals(bytes) ? bytes.toString() : bytes
  }

  read(word, rest) {
    switch (word) {
      case 'query': this.query = rest; break
      case 'row': this.rows.push((this.params = [])); break
      case 'param': this.params.push([rest.slice(0, rest.indexOf('=')), valueOf(rest.slice(rest.indexOf('=') + 1))]); break
      case 'form': this.form = Buffer.concat([this.form ?? Buffer.alloc(0), Buffer.from(rest.replaceAll(' ', ''),
        'hex')]); break
      case 'text': this.texts.push(bytesOf(rest)); break
      case 'renamed': this.renamed = bytesOf(rest); break
      case 'name': this.names.push(rest); break
      case 'message': this.message = rest; break
      case 'message_in_c': this.message ??= rest; break
      case 'no_backslash_escape': this.noBackslashEscape = true; break
      case 'portable': this.isPortable = true; break
      case 'refused':
      case 'unportable': {
        const [name, ...fields] = rest.split(' ')
        this[word === 'refused' ? 'refusal' : 'construct'] = name
        this.fields = Object.fromEntries(fields.map((field) => field.split('=')))
        break
      }
      default: throw new Error(`${word} is no word of a case`)
    }
  }

  /** The options of a call with a mode; a Date is shown by the clock of UTC. */
  get options() {
    return this.noBackslashEscape ? { noBackslashEscape: true } : {}
  }
}

/** The parameters of a call. */
function givenOf(params) {
  if (params.length === 0) return undefined
  if (params[0][0] === '') return params.map(([, value]) => value)
  return Object.fromEntries(params)
}

/** Whether JavaScript's parameters can say these: no name stands twice, and no value is one that only a form has. */
function isGiven(params) {
  const names = params.map(([name]) => name).filter((name) => name !== '')
  return new Set(names).size === names.length && !params.some(([, value]) => value instanceof FormValue)
}

/** A length-encoded string of up to 65535 bytes. */
function stringOf(bytes) {
  const head = bytes.length < 251 ? [bytes.length] : [0xfc, bytes.length % 256, bytes.length >> 8]
  return Buffer.concat([Buffer.from(head), bytes])
}

/** Type, flags and bytes of a value of a form, a number, a text, null, or a list of these. */
function formedOf(value) {
  if (value instanceof FormValue) return value.bytes
  if (value === null) return Buffer.from([6, 0])
  if (value instanceof mysqlParams.In) {
    const head = Buffer.from([129, 0, 0, 0, 0, 0])
    head.writeUInt32LE(value.items.length, 2)
    return Buffer.concat([head, ...value.items.map(formedOf)])
  }
  if (typeof value !== 'number' && typeof value !== 'bigint') {
    return Buffer.concat([Buffer.from([253, 0]), stringOf(Buffer.from(value))])
  }
  const bytes = Buffer.alloc(10)
  bytes[0] = 8
  bytes[1] = value > 2n ** 63n ? 128 : 0
  bytes.writeBigInt64LE(BigInt.asIntN(64, BigInt(value)), 2)
  return bytes
}

/** The flat form of parameters that formedOf takes. */
function formOf(params) {
  return Buffer.concat(params.flatMap(([name, value]) => [stringOf(Buffer.from(name)), formedOf(value)]))
}

function casesOf(file) {
  const parts = fs.readFileSync(file, 'utf8').split('\n\n')
  const lines = parts.map((part) => part.split('\n').filter((line) => line !== '' && !line.startsWith('#')))
  const found = lines.filter((part) => part.length > 0).map((part) => new Case(part))
  if (found.length === 0) throw new Error(`${file} has no case`)
  return found
}

/** The cases of a file, and those of the file of its name in `wide`, if there is one. */
function cases(name) {
  const wide = path.join(CASES, 'wide', name)
  return casesOf(path.join(CASES, name)).concat(fs.existsSync(wide) ? casesOf(wide) : [])
}

module.exports = { CASES, Case, FIELDS, NUMBERS, bytesOf, cases, formOf, givenOf, isGiven, mysqlParams }
