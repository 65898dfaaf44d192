//go:build !cgo || (!starlark_system && !(linux && (amd64 || arm64)) && !(windows && amd64))

package starlarklexer

// Without cgo, or on a platform whose library the module lacks, this line is the error of a build.
var _ = starlarklexer_needs_CGO_ENABLED_1_and_a_C_compiler_and_on_this_platform_the_tag_starlark_system
