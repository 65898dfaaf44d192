//go:build cgo

package starlarklexer

import (
	"strconv"
	"strings"
	"unicode/utf8"
)

// A Position is a place in a file, as in go.starlark.net/syntax. A line ends after an LF.
type Position struct {
	Filename string
	Line     int32 // from 1
	Col      int32 // from 1, in runes
}

// String returns file:line:col, or line:col without a Filename.
func (p Position) String() string {
	text := strconv.Itoa(int(p.Line)) + ":" + strconv.Itoa(int(p.Col))
	if p.Filename == "" {
		return text
	}
	return p.Filename + ":" + text
}

// A cursor tells the position of an offset from the one before. It reads only what is between them,
// and, on the way back, the line.
type cursor struct {
	text      string
	offset    int
	line, col int32
}

func newCursor(text string) cursor { return cursor{text: text, line: 1, col: 1} }

// In parts of up to so many bytes a loop takes less time than calls that look at several at once.
const shortPart = 48

// move sets line and col to those of an offset. It panics if the text has no such offset.
func (c *cursor) move(offset int) {
	if offset < c.offset {
		c.line -= int32(strings.Count(c.text[offset:c.offset], "\n"))
		lineStart := strings.LastIndexByte(c.text[:offset], '\n') + 1
		c.col = 1 + int32(utf8.RuneCountInString(c.text[lineStart:offset]))
		c.offset = offset
		return
	}
	part := c.text[c.offset:offset]
	c.offset = offset
	if len(part) > shortPart {
		if i := strings.LastIndexByte(part, '\n'); i >= 0 {
			c.line += int32(strings.Count(part, "\n"))
			c.col = 1
			part = part[i+1:]
		}
		c.col += int32(utf8.RuneCountInString(part))
		return
	}
	for i := 0; i < len(part); i++ {
		switch b := part[i]; {
		case b == '\n':
			c.line++
			c.col = 1
		case utf8.RuneStart(b):
			c.col++
		}
	}
}
