def test_suite(name, tests):
    if not tests:
        fail("no tests")

    # The suite runs what is tagged.
  native.test_suite(name = name, tests = tests)
