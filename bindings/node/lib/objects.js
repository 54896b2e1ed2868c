'use strict'
// Objects of which the own properties count: parameters by their names, columns by theirs, and options.

/** What an object is that has no such properties, as a Promise, an iterable and a view of bytes; undefined of any other. */
function otherOf(object) {
  const prototype = Object.getPrototypeOf(object)
  if (prototype === Object.prototype || prototype === null) return undefined
  if (typeof object.then === 'function') return 'a Promise: await it'
  const kind = Object.prototype.toString.call(object).slice(8, -1)
  if (!ArrayBuffer.isView(object) && !(Symbol.iterator in object) && kind === 'Object') return undefined
  return `a ${kind === 'Object' ? object.constructor?.name ?? 'iterable' : kind}`
}

/** The value of an object's own property; undefined if it has none, or is no object. */
function ownOf(object, name) {
  return typeof object === 'object' && object !== null && Object.hasOwn(object, name) ? object[name] : undefined
}

module.exports = { otherOf, ownOf }
