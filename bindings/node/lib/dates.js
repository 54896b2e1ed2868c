'use strict'
// The clock that a Date is written by: that of a time zone which the caller says.

const MINUTE = 60000
const LEAST_YEAR = 0
const MOST_YEAR = 9999

/**
 * Returns what an option `timezone` says: undefined, 'local', or minutes before UTC. A session of MySQL knows the same
 * offsets, of up to 14 hours.
 */
function zoneOf(timezone) {
  if (timezone === undefined || timezone === 'local') return timezone
  if (timezone === 'Z') return 0
  const found = typeof timezone === 'string' ? /^([+-])(\d\d):([0-5]\d)$/.exec(timezone) : null
  const minutes = found === null ? NaN : 60 * Number(found[2]) + Number(found[3])
  if (!(minutes <= 14 * 60)) throw new TypeError("timezone is 'Z', 'local' or an offset as '+02:00'")
  return found[1] === '-' ? -minutes : minutes
}

/** Whether the clocks of this process show the time of an instant at another one too, as in the hour after summer time. */
function isShownTwice(date) {
  const instant = date.getTime()
  const own = date.getTimezoneOffset()
  for (const near of [instant - 26 * 60 * MINUTE, instant + 26 * 60 * MINUTE]) {
    const other = new Date(near).getTimezoneOffset()
    if (other !== own && new Date(instant + (other - own) * MINUTE).getTimezoneOffset() === other) return true
  }
  return false
}

/** The year, month, day, hour, minute, second and millisecond that the clocks of a zone show for a Date. */
function fieldsOf(date, zone) {
  if (zone === 'local') {
    return [date.getFullYear(), date.getMonth() + 1, date.getDate(), date.getHours(), date.getMinutes(), date.getSeconds(),
      date.getMilliseconds()]
  }
  const moved = new Date(date.getTime() + zone * MINUTE)
  return [moved.getUTCFullYear(), moved.getUTCMonth() + 1, moved.getUTCDate(), moved.getUTCHours(), moved.getUTCMinutes(),
    moved.getUTCSeconds(), moved.getUTCMilliseconds()]
}

/** Why a Date can't be written by the clocks of a zone; undefined if it can. */
function faultOf(date, zone) {
  if (zone === undefined) {
    return "is a Date: say by the option timezone which clock is written, 'Z', 'local' or an offset as '+02:00'"
  }
  if (Number.isNaN(date.getTime())) return 'is an invalid Date'
  const [year] = fieldsOf(date, zone)
  if (!(year >= LEAST_YEAR && year <= MOST_YEAR)) return `is a Date outside of the years ${LEAST_YEAR} to ${MOST_YEAR}`
  if (zone === 'local' && isShownTwice(date)) {
    return "is a Date that the clocks of the local zone show twice: give timezone: 'Z', in a session whose time_zone is '+00:00'"
  }
  return undefined
}

module.exports = { faultOf, fieldsOf, zoneOf }
