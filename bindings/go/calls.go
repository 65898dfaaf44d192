//go:build cgo

package starlarklexer

// Tokenize returns the tokens of a text. If the text has a fault, they are those before the first
// one, which is the error: an *Error. With any other error, one of Scanner.Err, there are no tokens.
func Tokenize(filename, src string) ([]Token, error) {
	s := NewScanner(filename, src)
	defer s.release()
	tokens := tokensOf(len(src))
	for !s.ended {
		s.lexPiece()
		tokens = s.piece.append(tokens, s.records)
	}
	if _, isFault := s.err.(*Error); s.err != nil && !isFault {
		return nil, s.err
	}
	return tokens, s.err
}

// tokensOf returns a slice with room for the tokens of most texts of a length, or for the first ones of
// a long text.
func tokensOf(length int) []Token {
	const most = 1 << 18
	capacity := length/6 + 16
	if capacity > most {
		capacity = most
	}
	return make([]Token, 0, capacity)
}

// Tokens returns a function that yields the tokens of a text, each with a nil error, and last the
// error of Scanner.Err with a zero Token, if there is one. It stops early where yield returns false.
// From Go 1.23 on it is an iterator, which may stand after range.
func Tokens(filename, src string) func(yield func(Token, error) bool) {
	return func(yield func(Token, error) bool) {
		s := NewScanner(filename, src)
		for s.Next() {
			if !yield(s.token, nil) {
				return
			}
		}
		if s.err != nil {
			yield(Token{}, s.err)
		}
	}
}

// Recover returns all tokens of a text, also those after faults. If the text has faults, the error is
// an ErrorList of all of them. With any other error, one of Scanner.Err, there are no tokens.
func Recover(filename, src string) ([]Token, error) {
	s := NewScanner(filename, src)
	defer s.release()
	tokens := tokensOf(len(src))
	for !s.ended {
		s.lexPiece()
		if _, isFault := s.err.(*Error); isFault {
			return s.recoverRest(tokens)
		}
		tokens = s.piece.append(tokens, s.records)
	}
	if s.err != nil {
		return nil, s.err
	}
	return tokens, nil
}

// recoverRest appends the tokens of the last piece and of what comes after its faults, which it
// returns. At the start of a piece no bracket, f-string or block is open, so no fault before it
// matters.
func (s *Scanner) recoverRest(tokens []Token) ([]Token, error) {
	text, b := s.text[s.rest:], s.buffers
	// What is enough for most texts. Of a longer one a first call tells how much it needs.
	room := len(text)
	if room > 1<<22 {
		room = 1 << 22
	}
	b.grow(room/4+16, room+16, 16)
	b.fill(func() { b.recover(text) })
	if b.recovered.status != statusWhole {
		return nil, statusError(b.recovered.status)
	}
	before := len(tokens)
	p := piece{text: text, begin: s.rest, values: b.values[:b.recovered.values]}
	tokens = p.append(tokens, b.lexemes[:b.recovered.lexemes])
	faults := make(ErrorList, b.recovered.faults)
	c := newCursor(s.text)
	for i := range faults {
		faults[i] = newError(s.filename, &c, s.rest, &b.faults[i], b.values)
		faults[i].TokensBefore = before + int(b.faults[i].lexemesBefore)
	}
	return tokens, faults.Err()
}
