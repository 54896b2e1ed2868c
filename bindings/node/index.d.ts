/// <reference types="node" />

// Values bound into SQL queries for MySQL and MariaDB. README.md is the page of the package. Workers may call at once.

/** An exact number of its digits, as `new Decimal('9.99')`: it is written bare, so that a server computes it exactly. */
export class Decimal {
  constructor(digits: string | bigint)
  readonly digits: string
  toString(): string
}

/** A number that is written as a DOUBLE, also if it is whole: `new Double(2)` is `2.0e0`. */
export class Double {
  constructor(number: number)
  readonly number: number
}

/**
 * Several values, where a server may take one too: `COALESCE(?)` of `new In([1, 2])` is `COALESCE(1, 2)`. It holds a list or
 * rows.
 *
 * An array stands alone in brackets after IN, VALUES, `,`, `(`, or the comparison of a row, as in `(a, b) = (?)`. It does so after
 * VALUE behind the columns, and after ROW where a row may begin. One of rows stands so, or directly after VALUES or such a VALUE.
 * Elsewhere it is refused, since one in the JSON of a request would become several arguments. So don't make an In of a value from
 * outside without looking at it.
 */
export class In {
  constructor(items: readonly Item[] | ReadonlyArray<readonly Item[]>)
  readonly items: readonly Item[] | ReadonlyArray<readonly Item[]>
}

/** The name of a table or a column, and before it that of what it is in: `new Identifier('db', 't')`. */
export class Identifier {
  constructor(first: string, ...others: string[])
  readonly parts: readonly string[]
}

/** A column: a string is one name. */
export type Column = string | Identifier

/**
 * Columns and what they are set to, for `SET ?`: `new Assignments({ price: 7 })`. Of an object each own property is a column of
 * one name. In an array or a Map of pairs a column may be an Identifier too.
 */
export class Assignments {
  constructor(
    assigned:
      | { readonly [column: string]: Item }
      | ReadonlyMap<Column, Item>
      | ReadonlyArray<readonly [column: Column, value: Item]>
  )
  readonly pairs: ReadonlyArray<readonly [column: Identifier, value: Item]>
}

/** The keywords that are written. */
export const KEYWORDS: readonly string[]

/** One of the keywords that stand in your program, chosen at run time: `new Keyword(order, ['ASC', 'DESC'])`. */
export class Keyword {
  constructor(word: string, among: readonly string[])
  readonly word: string
}

/**
 * One value. A finite number that isn't whole is a DOUBLE; a `bigint` beyond 64 bits is an exact number. Here are all values, also
 * those of Fragment:
 *
 * | Value | Example | Written by `bind` |
 * |---|---|---|
 * | null | `null` | `NULL` |
 * | a boolean | `true` | `1` |
 * | a safe whole number | `-42` | `-42` |
 * | another number: a DOUBLE | `1.5` | `1.5e0` |
 * | a whole number as a DOUBLE | `new Double(2)` | `2.0e0` |
 * | a whole number beyond 2^53 | `2 ** 53` | RangeError: give a `bigint` or a `Double` |
 * | a bigint of 64 bits | `18446744073709551615n` | `18446744073709551615` |
 * | one of up to 65 digits: exact | `2n ** 64n` | `18446744073709551616` |
 * | an exact number, for money | `new Decimal('9.99')` | `9.99` |
 * | NaN, infinities | `NaN` | BindError: give null |
 * | a string | `"it's"` | `'it\'s'` |
 * | with a lone surrogate | `'\ud800'` | TypeError |
 * | a `Buffer`, `Uint8Array` of UTF-8 | `Buffer.from('x')` | `'x'` |
 * | of other bytes | `Buffer.from([255, 0])` | `0xFF00` |
 * | a list | `new In([1, 'a', null])` | `1, 'a', NULL` |
 * | rows | `new In([[1, 'a'], [2, 'b']])` | `(1, 'a'), (2, 'b')` |
 * | an empty list, rows of two lengths | `new In([])` | BindError |
 * | an array without an In | `[1, 2]` | BindError: write `IN (?)`, or give an In |
 * | undefined | `undefined` | TypeError: give null |
 * | an object, a function | `{ password: 1 }` | TypeError: give `Assignments` or `JSON.stringify(..)` of it |
 * | an invalid Date | `new Date(NaN)` | TypeError, with a `timezone` RangeError |
 */
export type Value = null | boolean | number | bigint | string | Uint8Array | Date | Double

/** What may stand in a list or a row, and what a column may be set to. */
export type Item = Value | Decimal

/** What may stand in a place: also a list, as in `IN (?)`, rows, as in `VALUES ?`, an In, names, assignments and a keyword. */
export type Fragment =
  | Item
  | readonly Item[]
  | ReadonlyArray<readonly Item[]>
  | In
  | Identifier
  | readonly Identifier[]
  | Assignments
  | Keyword

/** Values in order, or by name: an array, the own properties of an object, or a Map. Values beyond the names are ignored. */
export type Params<V = Fragment> = null | undefined | readonly V[] | { readonly [name: string]: V } | ReadonlyMap<string, V>

export interface QueryOptions {
  /** Whether `SELECT @@sql_mode`, asked on the connection, has NO_BACKSLASH_ESCAPES. */
  noBackslashEscape?: boolean
}

export interface ZoneOptions {
  /**
   * The clock by which a `Date` is written: 'Z', 'local', or an offset as '+02:00'. Without it a `Date` is refused. Give that of
   * the session's `@@time_zone`. An instant that the local clocks show twice is refused.
   */
  timezone?: string
}

export interface BindOptions extends QueryOptions, ZoneOptions {}

/** The name of a refusal in mysql_params.h, or SESSION or PACKET of the calls that send. */
export type Kind =
  /** The form ends within a parameter. Only bindForm and those beside it take a form, and are refused by these four. */
  | 'FORM_END'
  /** A length in the form begins with a wrong byte. */
  | 'FORM_LENGTH_LEAD'
  /** A parameter of the form has a column type without a binary form. */
  | 'FORM_TYPE'
  /** The form has parameters with and without a name. */
  | 'FORM_MIXED'
  /** A name is given twice. */
  | 'FORM_REPEATED'
  /** The query has names and marks. */
  | 'MIXED'
  /** A name has no value: `placeName`. `word` is the whole word of `:größe`. */
  | 'MISSING'
  /** Values with names, and the query has no names. */
  | 'NAMED_FOR_POSITIONAL'
  /** Values without names, and the query has names. */
  | 'POSITIONAL_FOR_NAMED'
  /** Not as many values as marks. */
  | 'MARK_COUNT'
  /** A place could run into its neighbour, as in `1?`. */
  | 'NOT_ALONE'
  /** NaN or an infinity: give null. By bindInBothModes each DOUBLE. */
  | 'FLOAT'
  /** By bindAnywhere, and with `steady`: a query that isn't ASCII without a backslash. Take bindInBothModes, or bind. */
  | 'UNSTEADY'
  /** Servers read the query in different ways, as with an executable comment: the message says what to write. */
  | 'UNPORTABLE'
  /** An empty list, no assignments, rows of two lengths, a wrong number, name or keyword: `fault`. */
  | 'FAULT'
  /** By bindInBothModes: a backslash in a string of the query. Take bind. */
  | 'BACKSLASH'
  /** By bindAnywhere, and with `steady`: an Identifier that isn't ASCII without a backslash. Take bind. */
  | 'UNSTEADY_FRAGMENT'
  /** An array where one value stands: write its place alone in brackets, as in `IN (?)`, or give an In. */
  | 'UNBRACKETED'
  /** The connection's `variable` isn't utf8mb4, or the driver's charsetNumber isn't, for a text that isn't ASCII. */
  | 'SESSION'
  /** The text is too long for the connection. */
  | 'PACKET'

/** The code of an error, as `ERR_MYSQL_PARAMS_MISSING`. */
export type Code = `ERR_MYSQL_PARAMS_${Kind}`

/** A refusal. Numbers of places, parameters and bytes begin at 0. A field that the kind doesn't tell is undefined. */
export class BindError extends Error {
  readonly code: Code
  /** The number in mysql_params.h; undefined of SESSION and PACKET. */
  readonly number?: number
  readonly kind: Kind
  /** The place in the query; of a form the parameter. */
  readonly place?: number
  /** The byte of the query, or of the form. */
  readonly position?: number
  /** The name of the place, or the name that is missing or repeated. */
  readonly placeName?: string
  /** The whole word, if a letter outside ASCII stands after a name or in its place, as in `:größe`. */
  readonly word?: string
  readonly marks?: number
  readonly values?: number
  readonly byte?: number
  /** What servers read in different ways, by its name in mysql_params.h. */
  readonly construct?: string
  /** What is wrong with a fragment, by its name in mysql_params.h. */
  readonly fault?: string
  readonly inRow?: number
  readonly item?: number
  /** Of bindRows: the number of the row, and the texts of the rows before it, which aren't enumerable. */
  readonly row?: number
  readonly texts?: string[] | Buffer[]
  /** Of PACKET: the bytes of the text, and how many the connection takes. */
  readonly length?: number
  readonly most?: number
}

/** The connection isn't one that a text is for. */
export class SessionError extends BindError {
  readonly variable: string
  readonly value: string
}

/** The text for a connection with backslash escapes, or without them by an option. Of a query of bytes it is a Buffer. */
export function bind(query: string, params?: Params, options?: BindOptions): string
export function bind(query: Uint8Array, params?: Params, options?: BindOptions): Buffer

/** The text for any connection, in ASCII. The query has to be ASCII without a backslash, and portable. */
export function bindAnywhere(query: string, params?: Params, options?: ZoneOptions): string
export function bindAnywhere(query: Uint8Array, params?: Params, options?: ZoneOptions): Buffer

/** The same for a query with letters outside ASCII, over utf8mb4. Each place takes one value, which is no float. */
export function bindInBothModes(query: string, params?: Params<Value>, options?: ZoneOptions): string
export function bindInBothModes(query: Uint8Array, params?: Params<Value>, options?: ZoneOptions): Buffer

/** Binds parameters that stand in their flat form already, as mysql_params.h describes it. */
export function bindForm(query: string, form: Uint8Array, options?: QueryOptions): string
export function bindForm(query: Uint8Array, form: Uint8Array, options?: QueryOptions): Buffer
export function bindFormAnywhere(query: string, form: Uint8Array): string
export function bindFormAnywhere(query: Uint8Array, form: Uint8Array): Buffer
export function bindFormInBothModes(query: string, form: Uint8Array): string
export function bindFormInBothModes(query: Uint8Array, form: Uint8Array): Buffer

/** The text of each row: what bind gives for the query and the row's parameters. */
export function bindRows(query: string, rows: Iterable<Params>, options?: BindOptions): string[]
export function bindRows(query: Uint8Array, rows: Iterable<Params>, options?: BindOptions): Buffer[]

/** A query whose names and marks are found once, to bind it many times: it gives what bind gives. */
export class Template<Q extends string | Uint8Array = string> {
  constructor(query: Q, options?: QueryOptions)
  readonly query: Q extends string ? string : Buffer
  readonly noBackslashEscape: boolean
  bind(params?: Params, options?: ZoneOptions): Q extends string ? string : Buffer
  bindForm(form: Uint8Array): Q extends string ? string : Buffer
  bindRows(rows: Iterable<Params>, options?: ZoneOptions): Array<Q extends string ? string : Buffer>
}

/** The names of a query, in order, with repeats, and the query with `?` in the place of each. */
export function names(query: string, options?: QueryOptions): { query: string; names: string[] }
export function names(query: Uint8Array, options?: QueryOptions): { query: Buffer; names: string[] }

/** What servers, or a client, read in different ways: its name and number in mysql_params.h, where it begins, what to write. */
export interface Unportable {
  construct: string
  number: number
  position: number
  message: string
}

/** The first construct of a query that servers read in different ways; null if it is portable. */
export function firstUnportable(query: string | Uint8Array, options?: QueryOptions): Unportable | null

/** The same for servers, or for the client `mysql` or `mariadb` through which the text goes. */
export function firstUnportableInClient(query: string | Uint8Array, options?: QueryOptions): Unportable | null

/** A connection or a pool of `mysql` or `mysql2`, with callbacks or promises. */
export interface Sender {
  query(...given: any[]): any
}

export interface SendOptions extends ZoneOptions {
  /** Whether the connection is asked before this text too, as over a proxy that has several servers. */
  alwaysAsk?: boolean
  /** Whether the text of bindAnywhere is sent. */
  steady?: boolean
}

/**
 * Binds a query for a connection, and sends the text. It resolves to the driver's results and fields.
 *
 * If the query and its identifiers are ASCII without a backslash, the text has guarded literals, such as `'it''s'`. A session of
 * another mode or character set than was told, except swe7, then may read another value, and no value as SQL. Else the text is that
 * of bind in the mode that was told. With `steady` it is that of bindAnywhere, which refuses such a query.
 *
 * A connection is asked for its mode before its first text, and again after the driver has connected anew. One of `mysql` is asked
 * again after each command that may change the mode, such as `SET`, `CALL` or `changeUser`; one of `mysql2`, which tells of no
 * command, before each text. An unknown option is a TypeError.
 *
 * An error shows the line of the call first. Where it comes after something was sent, this needs an `await` of the call.
 */
export function query(
  connection: Sender,
  query: string,
  params?: Params,
  options?: SendOptions
): Promise<[results: any, fields: any]>

/** The same, which resolves to the results alone: of a statement without rows `affectedRows`, `insertId` and so on. */
export function execute(connection: Sender, query: string, params?: Params, options?: SendOptions): Promise<any>

/** Has a connection, or each connection of a pool, asked anew before its next text. */
export function askAgain(connection: Sender): void
