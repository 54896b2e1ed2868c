package main

import (
	"bytes"
	"context"
	"database/sql"
	"database/sql/driver"
	"net"
	"time"
	"unsafe"

	"github.com/go-sql-driver/mysql"
)

// interpolateParams is the driver's method, which it doesn't export: the linker finds it by its name.
//
//go:linkname interpolateParams github.com/go-sql-driver/mysql.(*mysqlConn).interpolateParams
func interpolateParams(conn unsafe.Pointer, query string, args []driver.Value) (string, error)

// nothing is a server that greets, takes any password, and says OK to each packet.
type nothing struct{ unread bytes.Buffer }

// greeting is a packet of the protocol 10, with the capabilities of 4.1 and the plug-in of a plain password.
const greeting = "\x0a5.7.0\x00\x01\x00\x00\x0012345678\x00\x00\xa2\xff\x02\x00\x08\x00\x15\x00\x00\x00\x00\x00\x00\x00\x00\x00\x00" +
	"123456789012\x00mysql_native_password\x00"

// send has a packet of a number be read.
func (n *nothing) send(number byte, packet string) {
	n.unread.Write([]byte{byte(len(packet)), 0, 0, number})
	n.unread.WriteString(packet)
}

func (n *nothing) Read(to []byte) (int, error) { return n.unread.Read(to) }

func (n *nothing) Write(from []byte) (int, error) {
	n.send(from[3]+1, "\x00\x00\x00\x02\x00\x00\x00")
	return len(from), nil
}

func (n *nothing) Close() error                     { return nil }
func (n *nothing) LocalAddr() net.Addr              { return nil }
func (n *nothing) RemoteAddr() net.Addr             { return nil }
func (n *nothing) SetDeadline(time.Time) error      { return nil }
func (n *nothing) SetReadDeadline(time.Time) error  { return nil }
func (n *nothing) SetWriteDeadline(time.Time) error { return nil }

// overNothing returns a pool of connections to no server.
func overNothing() *sql.DB {
	mysql.RegisterDialContext("nothing", func(context.Context, string) (net.Conn, error) {
		server := &nothing{}
		server.send(0, greeting)
		return server, nil
	})
	config := mysql.NewConfig()
	config.Net, config.Addr, config.User, config.InterpolateParams = "nothing", "nowhere", "root", true
	config.MaxAllowedPacket = 1 << 26
	connector, err := mysql.NewConnector(config)
	must("", err)
	db := sql.OpenDB(connector)
	db.SetMaxOpenConns(1)
	return db
}

// ownOf returns the driver's interpolateParams over the connection of a pool.
func ownOf(db *sql.DB) func(query string, args []driver.Value) string {
	var at unsafe.Pointer
	conn, err := db.Conn(context.Background())
	must("", err)
	must("", conn.Raw(func(own any) error {
		at = (*[2]unsafe.Pointer)(unsafe.Pointer(&own))[1]
		return nil
	}))
	must("", conn.Close())
	return func(query string, args []driver.Value) string {
		return must(interpolateParams(at, query, args))
	}
}
