// The same package for `import`: both ways of loading have one copy of its classes.
import mysqlParams from './index.js'

export const {
  Assignments,
  BindError,
  Decimal,
  Double,
  Identifier,
  In,
  KEYWORDS,
  Keyword,
  SessionError,
  Template,
  askAgain,
  bind,
  bindAnywhere,
  bindForm,
  bindFormAnywhere,
  bindFormInBothModes,
  bindInBothModes,
  bindRows,
  execute,
  firstUnportable,
  firstUnportableInClient,
  names,
  query
} = mysqlParams

export default mysqlParams
