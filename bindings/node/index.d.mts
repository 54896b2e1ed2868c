export * from './index.js'
import * as mysqlParams from './index.js'
export default mysqlParams
