package geyserpan_test

import (
	"context"
	"errors"
	"fmt"
	"os"
	"strings"

	"geyserpan.example/geyserpan"
)

// three reads three bytes, and puts each one more out.
const three = `.services exit,get,put
.function main,leaf,0,0,37
.fuel 37
    ta 1
    inc %o0
    ta 2
    ta 1
    inc %o0
    ta 2
    ta 1
    inc %o0
    ta 2
    mov 0,%o0
    ta 0
`

func opened(source string) *geyserpan.Image {
	data, err := geyserpan.Assemble([]byte(source))
	if err != nil {
		panic(err)
	}
	image, err := geyserpan.Open(data, geyserpan.DefaultTerms())
	if err != nil {
		panic(err)
	}
	return image
}

func ExampleImage_Run() {
	image := opened(three) // of bytes, by Open
	defer image.Close()
	result, err := image.Run(context.Background(), []byte("HAL"))
	if err != nil {
		panic(err)
	}
	fmt.Printf("%s, exit word %d, %d turns of %d\n", result.Output, result.Exit, result.Turns, image.Facts().Budget)
	// Output: IBM, exit word 0, 37 turns of 37
}

func ExampleImage_Filter() {
	image := opened(three)
	defer image.Close()
	if _, err := image.Filter(context.Background(), os.Stdout, strings.NewReader("HAL")); err != nil {
		panic(err)
	}
	// Output: IBM
}

func ExampleOpen() {
	data, _ := geyserpan.Assemble([]byte(three))
	terms := geyserpan.DefaultTerms()
	terms.Turns = 36
	_, err := geyserpan.Open(data, terms)
	fmt.Println(err)
	fmt.Println(errors.Is(err, geyserpan.ErrTurns))
	// Output:
	// geyserpan: asks for 37 turns, 36 are granted
	// true
}

func ExampleSession_Step() {
	image := opened(three)
	defer image.Close()
	session, err := image.Session()
	if err != nil {
		panic(err)
	}
	defer session.Close()
	room := make([]byte, 16)
	for _, piece := range []string{"HA", "L"} {
		step, err := session.Step(1000, []byte(piece), false, room)
		if err != nil {
			panic(err)
		}
		fmt.Printf("%s %v\n", room[:step.Written], step.State == geyserpan.Ended)
	}
	// Output:
	// IB false
	// M true
}
