// Package include is the folder of the library's header. It is a package so that go mod vendor copies
// it.
package include
