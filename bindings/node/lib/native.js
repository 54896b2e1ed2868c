'use strict'
// The addon: the prebuilt one of the package, or one that node-gyp built; and the bits of the number that says how a call is
// meant, which native/native.h has too.

const FILES = [`../prebuilds/${process.platform}-${process.arch}/mysql_params.node`, '../build/Release/mysql_params.node']

/** Whether a fault says that a file isn't there, rather than that it can't be loaded. */
function isMissing(fault, file) {
  return fault.code === 'MODULE_NOT_FOUND' && fault.message.includes(file)
}

function load() {
  const faults = []
  for (const file of FILES) {
    try {
      return require(file)
    } catch (fault) {
      if (!isMissing(fault, file)) faults.push(`${file}: ${fault.message}`)
    }
  }
  const build = 'for another platform of x86-64 run `npx node-gyp rebuild` in the package\'s folder'
  const missing = `there is no addon for ${process.platform}-${process.arch}`
  throw new Error(`mysql-params: ${faults.length > 0 ? faults.join('; ') : missing}; ${build}`)
}

module.exports = {
  native: load(),
  BIND: 0,
  ANYWHERE: 1,
  BOTH_MODES: 2,
  FOR_CONNECTION: 3,
  MODE: 4,
  FRAGMENTS: 8,
  BYTES: 16,
  CHECKED: 32,
  IN_CLIENT: 64
}
