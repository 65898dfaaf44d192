// A program of one who has the module of a release: prints the tokens of standard input.
package main

import (
	"fmt"
	"io"
	"log"
	"os"

	"example.org/starlarklexer"
)

func main() {
	text, err := io.ReadAll(os.Stdin)
	if err != nil {
		log.Fatal(err)
	}
	tokens, err := starlarklexer.Tokenize("<stdin>", string(text))
	for _, tok := range tokens {
		fmt.Printf("%d-%d %v\n", tok.Begin, tok.End, tok.Kind)
	}
	if err != nil {
		log.Fatal(err)
	}
}
