"""Rules for the release of a package."""

load("//tools:release.bzl", "release")

release(
    name = "package",
    notes = "the first release,
    version = "1.0",
)
