package dadofennel_test

import (
	"bytes"
	"errors"
	"fmt"
	"io"
	"log"
	"os"
	"strings"

	"dadofennel.example/dadofennel"
)

func must(ac *dadofennel.Automaton, err error) *dadofennel.Automaton {
	if err != nil {
		log.Fatal(err)
	}
	return ac
}

func Example() {
	ac, err := dadofennel.NewStrings([]string{"fox", "brown", "quick"})
	if err != nil {
		log.Fatal(err)
	}
	defer ac.Close()
	text := "The quick brown fox."
	matches := ac.MatchesString(text)
	for matches.Next() {
		m := matches.Match()
		fmt.Println(m.Pattern, m.Start, m.End, text[m.Start:m.End])
	}
	if err := matches.Err(); err != nil {
		log.Fatal(err)
	}
	replaced, err := ac.ReplaceAllString(text, []string{"sloth", "grey", "slow"})
	fmt.Println(replaced, err)
	// Output:
	// 2 4 9 quick
	// 1 10 15 brown
	// 0 16 19 fox
	// The slow grey sloth. <nil>
}

// The kind says which of several occurrences is the match.
func ExampleWithKind() {
	words := []string{"app", "append", "appendage"}
	for _, kind := range []dadofennel.Kind{dadofennel.Standard, dadofennel.LeftmostFirst, dadofennel.LeftmostLongest} {
		ac := must(dadofennel.NewStrings(words, dadofennel.WithKind(kind), dadofennel.WithFold()))
		m, ok := ac.FindString("Appendage")
		fmt.Println(kind, words[m.Pattern], ok)
	}
	// Output:
	// Standard app true
	// LeftmostFirst app true
	// LeftmostLongest appendage true
}

func ExampleWithPairs() {
	ac := must(dadofennel.NewStrings([]string{"l33t"}, dadofennel.WithPairs([2]byte{'3', 'e'}, [2]byte{'l', '1'})))
	fmt.Println(ac.MaskString("leet 1e3t l33t", '*'))
	// Output: **** **** **** <nil>
}

func ExampleNew_error() {
	_, err := dadofennel.NewStrings([]string{"a"}, dadofennel.WithPairs([2]byte{'x', 'y'}, [2]byte{'y', 'z'}))
	var fault *dadofennel.BuildError
	if errors.As(err, &fault) {
		fmt.Printf("%q is named twice\n", fault.Byte)
	}
	fmt.Println(errors.Is(err, dadofennel.ErrBadPairs))
	// Output:
	// 'y' is named twice
	// true
}

func ExampleAutomaton_FindIn() {
	ac := must(dadofennel.NewStrings([]string{"fox", "ox"}, dadofennel.WithStartKind(dadofennel.Both)))
	text := []byte("a fox")
	fmt.Println(ac.FindIn(text, dadofennel.Span{Start: 3, End: 5}))
	fmt.Println(ac.FindIn(text, dadofennel.Span{Start: 2, End: 5, Anchored: true}))
	fmt.Println(ac.FindIn(text, dadofennel.Span{Start: 1, End: 5, Anchored: true}))
	fmt.Println(ac.FindIn(text, dadofennel.Span{Start: 1, End: 6}))
	// Output:
	// {1 3 5} true <nil>
	// {0 2 5} true <nil>
	// {0 0 0} false <nil>
	// {0 0 0} false dadofennel: the span is not one of the haystack
}

func ExampleAutomaton_Overlapping() {
	ac := must(dadofennel.NewStrings([]string{"append", "app", "end"}))
	fmt.Println(ac.OverlappingString("append").All())
	// Output: [{1 0 3} {0 0 6} {2 3 6}] <nil>
}

func ExampleAutomaton_Words() {
	ac := must(dadofennel.NewStrings([]string{"new", "new york"}))
	text := "new yorker, new york"
	fmt.Println(ac.WordsString(text, dadofennel.LeftmostLongest).All())
	fmt.Println(ac.AllWordsString(text).All())
	fmt.Println(ac.MaskWordsString(text, '*'))
	fmt.Println(ac.ReplaceWordsString(text, dadofennel.LeftmostLongest, []string{"old", "York"}))
	// Output:
	// [{0 0 3} {1 12 20}] <nil>
	// [{0 0 3} {0 12 15} {1 12 20}] <nil>
	// *** yorker, ******** <nil>
	// old yorker, York <nil>
}

func ExampleAutomaton_ReplaceAllStringFunc() {
	ac := must(dadofennel.NewStrings([]string{"fox", "brown"}))
	text := "The brown fox."
	fmt.Println(ac.ReplaceAllStringFunc(text, func(m dadofennel.Match) string {
		return strings.ToUpper(text[m.Start:m.End])
	}))
	// Output: The BROWN FOX. <nil>
}

// A mask covers every occurrence, overlapping ones too.
func ExampleAutomaton_Mask() {
	ac := must(dadofennel.NewStrings([]string{"abc", "cde"}))
	masked, err := ac.Mask([]byte("xabcdex"), '#')
	fmt.Printf("%s %v\n", masked, err)
	// Output: x#####x <nil>
}

// A match may begin in one piece and end in another.
func ExampleStream() {
	ac := must(dadofennel.NewStrings([]string{"app", "append", "appendage"}, dadofennel.WithKind(dadofennel.LeftmostLongest)))
	stream, err := ac.Stream()
	if err != nil {
		log.Fatal(err)
	}
	show := func(after string) {
		fmt.Printf("after %q:", after)
		for stream.Next() {
			fmt.Print(" ", stream.Match())
		}
		fmt.Println()
	}
	for _, piece := range []string{"an app", "end to the app"} {
		if _, err := stream.WriteString(piece); err != nil {
			log.Fatal(err)
		}
		show(piece)
	}
	if err := stream.Close(); err != nil {
		log.Fatal(err)
	}
	show("the end")
	// Output:
	// after "an app":
	// after "end to the app": {1 3 9}
	// after "the end": {0 17 20}
}

func ExampleAutomaton_FindReader() {
	ac := must(dadofennel.NewStrings([]string{"hunter2", "alice"}))
	scanner := ac.FindReader(strings.NewReader("login of alice by hunter2"))
	defer scanner.Close()
	for scanner.Next() {
		fmt.Println(scanner.Match())
	}
	fmt.Println(scanner.Err())
	// Output:
	// {1 9 14}
	// {0 18 25}
	// <nil>
}

// What io.Copy reads is replaced on its way to standard output.
func ExampleAutomaton_NewReplacer() {
	ac := must(dadofennel.NewStrings([]string{"fox", "brown", "quick"}))
	replacer, err := ac.NewReplacerStrings(os.Stdout, []string{"sloth", "grey", "slow"})
	if err != nil {
		log.Fatal(err)
	}
	if _, err := io.Copy(replacer, strings.NewReader("The quick brown fox.\n")); err != nil {
		log.Fatal(err)
	}
	if err := replacer.Close(); err != nil {
		log.Fatal(err)
	}
	// Output: The slow grey sloth.
}

func ExampleAutomaton_NewWordReplacerFunc() {
	ac := must(dadofennel.NewStrings([]string{"new", "new york"}))
	replacer, err := ac.NewWordReplacerFunc(os.Stdout, dadofennel.LeftmostLongest, func(m dadofennel.Match, match []byte) []byte {
		return bytes.ToUpper(match)
	})
	if err != nil {
		log.Fatal(err)
	}
	for _, piece := range []string{"a new yor", "ker in new", " york\n"} {
		if _, err := replacer.WriteString(piece); err != nil {
			log.Fatal(err)
		}
	}
	if err := replacer.Close(); err != nil {
		log.Fatal(err)
	}
	// Output: a NEW yorker in NEW YORK
}

// A log whose secrets are masked.
func ExampleAutomaton_NewMasker() {
	ac := must(dadofennel.NewStrings([]string{"hunter2"}))
	masker, err := ac.NewMasker(os.Stdout, '*')
	if err != nil {
		log.Fatal(err)
	}
	log.New(masker, "", 0).Print("login by hunter2")
	if err := masker.Close(); err != nil {
		log.Fatal(err)
	}
	// Output: login by *******
}
