module bench

go 1.19

require (
	github.com/go-sql-driver/mysql v1.5.0
	mysqlparams v0.0.0
)

replace github.com/go-sql-driver/mysql => /usr/share/gocode/src/github.com/go-sql-driver/mysql

replace mysqlparams => ../mysqlparams
