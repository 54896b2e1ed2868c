module mysqlparams

go 1.19
