'use strict'
// A Date is written by the clock that the option timezone names, and refused without it.
const { bind } = require('mysql-params')

const since = new Date('2019-11-27T12:30:00Z')
console.log(bind('SELECT :since', { since }, { timezone: '+02:00' }))
try {
  bind('SELECT :since', { since })
} catch (error) {
  console.log(error.message)
}
