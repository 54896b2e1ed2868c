'use strict'
// Sends texts by node-mysql, as handed_over.py tells it: sender.js SOCKET. MYSQL_PARAMS names the package's folder. Each line of
// standard input is a JSON object, which gets a line of JSON as its answer.

const { createInterface } = require('node:readline')
const { promisify, inspect } = require('node:util')
const mysql = require('mysql')
const { query } = require(process.env.MYSQL_PARAMS)

const socketPath = process.argv[2]
let connection

function send(text) {
  return promisify(connection.query).call(connection, text)
}

async function answer(request) {
  if (request.connect !== undefined) {
    connection?.destroy()
    connection = mysql.createConnection({ socketPath, user: 'root', charset: request.connect })
    await promisify(connection.connect).call(connection)
    return {}
  }
  if (request.plain !== undefined) {
    await send(request.plain)
    return {}
  }
  const [rows] = await query(connection, request.send, request.values)
  return { rows: Array.isArray(rows) ? rows.map(Object.values) : [] }
}

/** What an error is: of the driver if the server or the connection has given it. */
function told(error) {
  if (error.errno !== undefined || error.fatal !== undefined) return { failed: error.message }
  return { refused: error.message, shown: inspect(error) }
}

async function main() {
  for await (const line of createInterface({ input: process.stdin })) {
    console.log(JSON.stringify(await answer(JSON.parse(line)).catch(told)))
  }
  connection?.destroy()
}

main()
