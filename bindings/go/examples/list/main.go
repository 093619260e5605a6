// Command list lists the matches of searches that standard input has, one a line: MODE KIND FOLD TEXT PATTERN.., where the last are hex
// after an x.
//
// MODE is list or overlap, KIND standard, leftmost-first or leftmost-longest, FOLD 0 or 1. A line is answered by one: number, start and
// end of each match, with commas between the matches.
package main

import (
	"bufio"
	"encoding/hex"
	"fmt"
	"os"
	"strings"

	"dadofennel.example/dadofennel"
)

var kinds = map[string]dadofennel.Kind{
	"standard": dadofennel.Standard, "leftmost-first": dadofennel.LeftmostFirst, "leftmost-longest": dadofennel.LeftmostLongest,
}

func main() {
	lines := bufio.NewScanner(os.Stdin)
	lines.Buffer(nil, 1<<24)
	out := bufio.NewWriter(os.Stdout)
	for lines.Scan() {
		matches, err := listed(strings.Split(lines.Text(), " "))
		if err != nil {
			fmt.Fprintln(os.Stderr, err)
			os.Exit(1)
		}
		for i, m := range matches {
			if i > 0 {
				out.WriteByte(',')
			}
			fmt.Fprint(out, m.Pattern, m.Start, m.End)
		}
		out.WriteByte('\n')
	}
	if err := out.Flush(); err != nil || lines.Err() != nil {
		fmt.Fprintln(os.Stderr, err, lines.Err())
		os.Exit(1)
	}
}

func listed(words []string) ([]dadofennel.Match, error) {
	if len(words) < 4 {
		return nil, fmt.Errorf("%d words in a line", len(words))
	}
	var texts [][]byte
	for _, word := range words[3:] {
		b, err := hex.DecodeString(strings.TrimPrefix(word, "x"))
		if err != nil {
			return nil, err
		}
		texts = append(texts, b)
	}
	options := []dadofennel.Option{dadofennel.WithKind(kinds[words[1]])}
	if words[2] == "1" {
		options = append(options, dadofennel.WithFold())
	}
	ac, err := dadofennel.New(texts[1:], options...)
	if err != nil {
		return nil, err
	}
	defer ac.Close()
	if words[0] == "overlap" {
		return ac.Overlapping(texts[0]).All()
	}
	return ac.FindAll(texts[0])
}
