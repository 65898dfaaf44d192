// Package windows_amd64 is the folder of the library for windows/amd64. It is a package so that go mod vendor
// copies it.
package windows_amd64
