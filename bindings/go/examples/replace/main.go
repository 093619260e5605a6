// Command replace replaces words in what it reads, as it comes:
//
//	echo 'The quick brown fox.' | go run ./examples/replace fox=sloth brown=grey quick=slow
package main

import (
	"fmt"
	"io"
	"os"
	"strings"

	"dadofennel.example/dadofennel"
)

func main() {
	if err := replace(os.Args[1:], os.Stdin, os.Stdout); err != nil {
		fmt.Fprintln(os.Stderr, err)
		os.Exit(1)
	}
}

func replace(rules []string, in io.Reader, out io.Writer) error {
	var words, instead []string
	for _, rule := range rules {
		word, replacement, ok := strings.Cut(rule, "=")
		if !ok {
			return fmt.Errorf("%q has no =", rule)
		}
		words, instead = append(words, word), append(instead, replacement)
	}
	ac, err := dadofennel.NewStrings(words)
	if err != nil {
		return err
	}
	defer ac.Close()
	replacer, err := ac.NewReplacerStrings(out, instead)
	if err != nil {
		return err
	}
	if _, err := io.Copy(replacer, in); err != nil {
		return err
	}
	return replacer.Close()
}
