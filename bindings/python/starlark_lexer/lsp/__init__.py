"""The language server of the package: faults, colours, folds and brackets of files that are edited.

It speaks the Language Server Protocol over standard input and output. It has no parser: what names,
types and calls mean, it doesn't know.
"""
