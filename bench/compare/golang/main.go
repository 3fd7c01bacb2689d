// Locale identifiers by line with Go's package golang.org/x/text.
//
//	golang COMMAND [LOCALE]
//
// The commands are those of icu_locale_cli, as far as the package has them: canonicalize, negotiate, whose first line lists
// what is available, and `name LOCALE`. validate tells of each tag `valid`, the subtag that is unknown, or `?` where it is
// not well-formed. `versions` says what is asked.
package main

import (
	"bufio"
	"fmt"
	"os"
	"runtime"
	"strings"

	"golang.org/x/text/language"
	"golang.org/x/text/language/display"
)

const refused = "?"

// What is done with one line.
type answer func(line string) string

func canonicalized(line string) string {
	tag, err := language.All.Parse(line)
	if err != nil {
		return refused
	}
	return tag.String()
}

func validated(line string) string {
	_, err := language.Parse(line)
	if err == nil {
		return "valid"
	}
	if unknown, is := err.(language.ValueError); is {
		return unknown.Subtag()
	}
	return refused
}

func namer(locale string) answer {
	names := display.Tags(language.Make(locale))
	return func(line string) string {
		tag, err := language.Raw.Parse(line)
		if err != nil {
			return refused
		}
		return names.Name(tag)
	}
}

func listed(line string) ([]language.Tag, error) {
	var tags []language.Tag
	for _, text := range strings.Fields(line) {
		tag, err := language.Raw.Parse(text)
		if err != nil {
			return nil, err
		}
		tags = append(tags, tag)
	}
	return tags, nil
}

func negotiator(first string) answer {
	available, err := listed(first)
	if err != nil {
		return func(string) string { return refused }
	}
	matcher := language.NewMatcher(available)
	return func(line string) string {
		requests, err := listed(line)
		if err != nil {
			return refused
		}
		_, place, confidence := matcher.Match(requests...)
		if confidence == language.No {
			return "none"
		}
		return available[place].String()
	}
}

func main() {
	words := os.Args[1:]
	input := bufio.NewScanner(os.Stdin)
	input.Buffer(make([]byte, 1<<16), 1<<20)
	output := bufio.NewWriter(os.Stdout)
	defer output.Flush()
	var call answer
	switch {
	case len(words) == 1 && words[0] == "versions":
		fmt.Fprintf(output, "%s with golang.org/x/text and CLDR %s\n", runtime.Version(), language.CLDRVersion)
		return
	case len(words) == 1 && words[0] == "canonicalize":
		call = canonicalized
	case len(words) == 1 && words[0] == "validate":
		call = validated
	case len(words) == 2 && words[0] == "name":
		call = namer(words[1])
	case len(words) == 1 && words[0] == "negotiate":
		input.Scan()
		call = negotiator(input.Text())
	default:
		fmt.Fprintln(os.Stderr, "usage: golang canonicalize | name LOCALE | negotiate | validate | versions")
		os.Exit(2)
	}
	for input.Scan() {
		output.WriteString(call(input.Text()))
		output.WriteByte('\n')
	}
}
