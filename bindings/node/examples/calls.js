'use strict'
// The calls that give a text, and those that tell of a query.
const { Template, bind, bindInBothModes, bindRows, firstUnportable, names } = require('mysql-params')

// Many rows, each with a text of its own; a query whose places are found once.
console.log(bindRows('UPDATE t SET a = ? WHERE id = ?', [['x', 1], [null, 2]]).join('; '))
console.log(new Template('SELECT :a').bind({ a: 7 }))

// A query with letters outside ASCII, over utf8mb4, whatever the mode. Each place takes one value.
console.log(bindInBothModes('SELECT * FROM bücher WHERE t = ?', ['é']))

// Whether a query is portable, and its names.
console.log(firstUnportable('SELECT /*! :a */ 1').construct, names('SELECT :a, :b').names)

// For one mode, which you have asked.
console.log(bind('SELECT ?', ["it's\\"], { noBackslashEscape: true }))
