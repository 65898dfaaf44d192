load("//tools:defs.bzl", "check")

def _targets(names):
	return [check(name) for name in names]

VERSION = 007
TITLE = "a path\ without end"
