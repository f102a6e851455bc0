// Command filter answers requests by an image that a stranger wrote: filter IMG < REQUESTS
// Each line of standard input is a request, and standard output takes a line for each.
package main

import (
	"bufio"
	"context"
	"fmt"
	"os"

	"geyserpan.example/geyserpan"
)

func answer(path string) error {
	data, err := os.ReadFile(path)
	if err != nil {
		return err
	}
	terms := geyserpan.DefaultTerms()
	terms.Turns, terms.Output = 100_000, 4096
	image, err := geyserpan.Open(data, terms)
	if err != nil {
		return err
	}
	defer image.Close()
	out, room := bufio.NewWriter(os.Stdout), []byte(nil)
	lines := bufio.NewScanner(os.Stdin)
	for lines.Scan() {
		result, err := image.AppendRun(context.Background(), room[:0], lines.Bytes())
		if err != nil {
			return err
		}
		room = append(result.Output, '\n')
		out.Write(room)
	}
	if err := lines.Err(); err != nil {
		return err
	}
	return out.Flush()
}

func main() {
	if len(os.Args) != 2 {
		fmt.Fprintln(os.Stderr, "usage: filter IMG < REQUESTS")
		os.Exit(3)
	}
	if err := answer(os.Args[1]); err != nil {
		fmt.Fprintln(os.Stderr, "filter:", err)
		os.Exit(2)
	}
}
