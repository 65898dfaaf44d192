// Package linux_arm64 is the folder of the library for linux/arm64. It is a package so that go mod vendor
// copies it.
package linux_arm64
