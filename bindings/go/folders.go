//go:build cgo && !starlark_system

package starlarklexer

// By these imports go mod vendor copies the folders with the header and the libraries.
import (
	_ "example.org/starlarklexer/lib/include"
	_ "example.org/starlarklexer/lib/linux_amd64"
	_ "example.org/starlarklexer/lib/linux_arm64"
	_ "example.org/starlarklexer/lib/windows_amd64"
)
