// Command sessions converses with many at once, each in a goroutine of its own: sessions IMG COUNT < INPUT
// Each of COUNT runs of the one image is fed standard input, 3 bytes at a time, and gives its output, 2 bytes at a
// time. Standard output takes the output of the first; that of each other one has to be the same.
package main

import (
	"bytes"
	"errors"
	"fmt"
	"io"
	"math"
	"os"
	"strconv"

	"geyserpan.example/geyserpan"
)

// converse feeds a run by steps of 1,000 turns.
func converse(image *geyserpan.Image, input []byte) (output []byte, err error) {
	session, err := image.Session()
	if err != nil {
		return nil, err
	}
	defer session.Close()
	room := make([]byte, 2)
	for {
		piece := input
		if len(piece) > 3 {
			piece = piece[:3]
		}
		step, err := session.Step(1000, piece, len(piece) == len(input), room)
		output, input = append(output, room[:step.Written]...), input[step.Read:]
		if err != nil || step.State == geyserpan.Ended {
			return output, err
		}
	}
}

type answer struct {
	output []byte
	err    error
}

// agree gives the output that all of them have in common.
func agree(image *geyserpan.Image, count int, input []byte) ([]byte, error) {
	answers := make(chan answer)
	for i := 0; i < count; i++ {
		go func() {
			output, err := converse(image, input)
			answers <- answer{output, err}
		}()
	}
	first := <-answers
	for i := 1; i < count; i++ {
		next := <-answers
		switch {
		case first.err != nil:
		case next.err != nil:
			first.err = next.err
		case !bytes.Equal(next.output, first.output):
			first.err = errors.New("two sessions differ")
		}
	}
	return first.output, first.err
}

func all(path string, count int) error {
	data, err := os.ReadFile(path)
	if err != nil {
		return err
	}
	input, err := io.ReadAll(os.Stdin)
	if err != nil {
		return err
	}
	terms := geyserpan.DefaultTerms()
	terms.Turns, terms.Output = math.MaxUint64, math.MaxUint64
	image, err := geyserpan.Open(data, terms)
	if err != nil {
		return err
	}
	defer image.Close()
	output, err := agree(image, count, input)
	if err != nil {
		return err
	}
	_, err = os.Stdout.Write(output)
	return err
}

func main() {
	count := 0
	if len(os.Args) == 3 {
		count, _ = strconv.Atoi(os.Args[2])
	}
	if count < 1 {
		fmt.Fprintln(os.Stderr, "usage: sessions IMG COUNT < INPUT")
		os.Exit(3)
	}
	if err := all(os.Args[1], count); err != nil {
		fmt.Fprintln(os.Stderr, "sessions:", err)
		os.Exit(2)
	}
}
