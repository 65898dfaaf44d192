// Package starlarkgo compares the package starlarklexer with the scanner of go.starlark.net.
package starlarkgo

import (
	"fmt"
	"math/rand"
	"strings"
)

var words = strings.Fields("al ba co de en fi go ha jo ka le ma ne or_ pa re si ta un va we xo ya ze src dep lib cfg path")

// A maker makes texts that both scanners take, the same for each seed.
type maker struct {
	dice *rand.Rand
	text strings.Builder
}

func (m *maker) name() string {
	name := ""
	for n := 1 + m.dice.Intn(4); n >= 0; n-- {
		name += words[m.dice.Intn(len(words))]
	}
	return name + "_"
}

// sentence returns some words.
func (m *maker) sentence() string {
	sentence := m.name()
	for n := 6 + m.dice.Intn(8); n > 0; n-- {
		sentence += " " + words[m.dice.Intn(len(words))]
	}
	return sentence
}

// literal returns a string, a number or a name.
func (m *maker) literal() string {
	switch m.dice.Intn(12) {
	case 0:
		return fmt.Sprint(m.dice.Intn(1000))
	case 1:
		return m.name()
	case 2:
		return []string{"1.5", "0x1F", "99999999999", "True", "-1", "1e3", "0o17"}[m.dice.Intn(7)]
	case 3:
		return []string{`"a\tb\n"`, `'it\'s'`, `r"\d+"`, "'''a\nb'''", `"naïve 日本"`, `""`}[m.dice.Intn(6)]
	}
	return fmt.Sprintf(`"//%s/%s:%s.go"`, m.name(), m.name(), m.name())
}

// rule adds a call as in a BUILD file.
func (m *maker) rule() {
	fmt.Fprintf(&m.text, "%srule(\n    name = %q,\n    srcs = [\n", m.name(), m.name())
	for n := m.dice.Intn(6); n >= 0; n-- {
		fmt.Fprintf(&m.text, "        %s,\n", m.literal())
	}
	fmt.Fprintf(&m.text, "    ],  # %s\n    deps = [%s, %s],\n)\n\n", m.sentence(), m.literal(), m.literal())
	for n := m.dice.Intn(3); n > 0; n-- {
		fmt.Fprintf(&m.text, "# %s\n", m.sentence())
	}
}

// function adds a function as in a .bzl file.
func (m *maker) function() {
	fmt.Fprintf(&m.text, "def %s(ctx, %s = %s, *args, **kwargs):\n", m.name(), m.name(), m.literal())
	fmt.Fprintf(&m.text, "    \"\"\"The %s.\n\n    Args:\n", m.sentence())
	for n := m.dice.Intn(6); n >= 0; n-- {
		fmt.Fprintf(&m.text, "      %s: %s,\n        %s.\n", m.name(), m.sentence(), m.sentence())
	}
	m.text.WriteString("    \"\"\"\n")
	for n := m.dice.Intn(5); n >= 0; n-- {
		a, b, c := m.name(), m.name(), m.name()
		fmt.Fprintf(&m.text, "    for %s in %s.%s[1:-1]:\n        if %s != %s and not (%s or %s in {%s: %s}):\n", a, b, c, a, m.literal(), b, c, a, m.literal())
		fmt.Fprintf(&m.text, "            %s += %s %% (%s, %s) + [%s for %s in %s]\n", b, m.literal(), a, m.literal(), c, c, b)
		fmt.Fprintf(&m.text, "        elif %s:\n            continue\n", c)
	}
	fmt.Fprintf(&m.text, "    return struct(%s = lambda x: x // %s)\n\n", m.name(), m.literal())
}

// Text returns a text of about so many bytes: rules and functions, with comments and docstrings.
func Text(seed int64, length int) string {
	m := &maker{dice: rand.New(rand.NewSource(seed))}
	m.text.WriteString("# Made for a comparison.\nload(\"//a:b.bzl\", \"c\", d = \"e\")\n\n")
	for m.text.Len() < length {
		if m.dice.Intn(4) == 0 {
			m.function()
		} else {
			m.rule()
		}
	}
	return m.text.String()
}
