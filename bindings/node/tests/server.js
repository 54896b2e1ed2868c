'use strict'
// A MariaDB of its own for tests, in a temporary folder, on a socket there alone.

const { execFileSync, spawn } = require('node:child_process')
const fs = require('node:fs')
const os = require('node:os')
const path = require('node:path')
const { setTimeout: sleep } = require('node:timers/promises')

const PATH = `${process.env.PATH}:/usr/sbin:/sbin`

/** Why no server can be had; null if one can. */
function missing() {
  for (const command of ['mariadbd', 'mariadb-install-db']) {
    try {
      execFileSync('sh', ['-c', `command -v ${command}`], { env: { ...process.env, PATH }, stdio: 'ignore' })
    } catch {
      return `${command} is missing`
    }
  }
  return null
}

function isRunning(server) {
  return server.exitCode === null && server.signalCode === null
}

/** Starts a server; it refuses to be root, so then it is nobody's. */
async function start() {
  const folder = fs.mkdtempSync(path.join(os.tmpdir(), 'mysql-params-'))
  const [data, socket] = [path.join(folder, 'data'), path.join(folder, 'socket')]
  const user = process.getuid() === 0 ? ['--user=nobody'] : []
  if (user.length > 0) execFileSync('chown', ['nobody', folder])
  const env = { ...process.env, PATH }
  const made = ['--no-defaults', ...user, `--datadir=${data}`, '--skip-test-db', '--auth-root-authentication-method=normal']
  try {
    execFileSync('mariadb-install-db', made, { env, encoding: 'utf8', stdio: 'pipe' })
  } catch (fault) {
    fs.rmSync(folder, { recursive: true, force: true })
    throw new Error(`mariadb-install-db: ${fault.stdout}${fault.stderr}`)
  }
  const words = ['--no-defaults', ...user, `--datadir=${data}`, `--socket=${socket}`, `--pid-file=${path.join(folder, 'pid')}`,
    '--skip-networking', '--character-set-server=utf8mb4', '--innodb-buffer-pool-size=32M',
      '--innodb-flush-log-at-trx-commit=0']
  const server = spawn('mariadbd', words, { env, stdio: 'ignore' })
  server.unref()
  const remove = () => fs.rmSync(folder, { recursive: true, force: true, maxRetries: 5 })
  // However the tests end, no server is left.
  const kill = () => {
    server.kill('SIGKILL')
    remove()
  }
  process.once('exit', kill)
  for (const signal of ['SIGHUP', 'SIGINT', 'SIGTERM']) process.once(signal, () => process.exit(1))
  const stop = async () => {
    process.off('exit', kill)
    server.ref()
    const ended = new Promise((resolve) => server.once('exit', resolve))
    if (isRunning(server) && server.kill()) await ended
    remove()
  }
  for (let i = 0; !fs.existsSync(socket); i++) {
    if (!isRunning(server) || i === 600) {
      await stop()
      throw new Error(`mariadbd ${i === 600 ? "isn't ready within a minute" : 'ended'}`)
    }
    await sleep(100)
  }
  return { socket, stop }
}

module.exports = { missing, start }
