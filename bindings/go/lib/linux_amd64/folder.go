// Package linux_amd64 is the folder of the library for linux/amd64. It is a package so that go mod vendor
// copies it.
package linux_amd64
