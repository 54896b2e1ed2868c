'use strict'
// Statements sent over a pool: a table by its name, rows in one place, and a list.
const mysql = require('mysql')
const { execute, query, Identifier } = require('mysql-params')

async function main() {
  const pool = mysql.createPool({ user: 'app', database: 'shop', charset: 'utf8mb4' })
  const table = new Identifier('shop', 'users')
  await execute(pool, 'CREATE TABLE IF NOT EXISTS :table (id INT PRIMARY KEY, name TEXT)', { table })
  const rows = [[1, "it's"], [2, 'b']]
  const { affectedRows } = await execute(pool, 'REPLACE INTO :table (id, name) VALUES :rows', { table, rows })
  const [found] = await query(pool, 'SELECT name FROM :table WHERE id IN (:ids) ORDER BY id', { table, ids: [1, 2] })
  console.log(affectedRows, found.map((row) => row.name))
  pool.end()
}

main()
