'use strict'
// The bytes of a Uint8Array as it is now: of a subclass that says another length, and of memory that is gone.

const { isUint8Array } = require('node:util/types')

/** A getter or a method of a prototype, as a function of the object: an object can't hide it. */
function ofPrototype(prototype, name) {
  const { get, value } = Object.getOwnPropertyDescriptor(prototype, name)
  return Function.prototype.call.bind(get ?? value)
}

const ofArrays = Object.getPrototypeOf(Uint8Array.prototype)
const itemOf = ofPrototype(ofArrays, 'at')
const lengthOf = ofPrototype(ofArrays, 'length')
const offsetOf = ofPrototype(ofArrays, 'byteOffset')
const bufferOf = ofPrototype(ofArrays, 'buffer')

/** Whether the buffer of a Uint8Array was transferred, or made shorter than to where the array begins. */
function isGone(array) {
  if (lengthOf(array) > 0) return false
  try {
    itemOf(array, 0)
    return false
  } catch {
    return true
  }
}

/** A plain view of the bytes of a Uint8Array, or of so many of them. */
function viewOf(array, count = lengthOf(array)) {
  return new Uint8Array(bufferOf(array), offsetOf(array), count)
}

/** Whether a value is a Uint8Array whose buffer is gone. */
function isGoneArray(value) {
  return isUint8Array(value) && isGone(value)
}

module.exports = { isGone, isGoneArray, lengthOf, viewOf }
