package geyserpan_test

import (
	"bytes"
	"context"
	"crypto/sha256"
	"errors"
	"fmt"
	"io"
	"math"
	"os"
	"path/filepath"
	"regexp"
	"strconv"
	"strings"
	"sync"
	"testing"
	"testing/iotest"
	"time"

	"geyserpan.example/geyserpan"
	"geyserpan.example/geyserpan/internal/heap"
)

// countdown counts down from 2^31 - 1,024, which takes half a minute or so, and puts nothing out.
const countdown = `.services exit
.function main,leaf,0,0,6442447877
.fuel 6442447877
 sethi 2097151,%o1
.block loop
.cell %o1,1,2147482624,0
.fuel 4
.term %o1,3
 deccc %o1
 bne loop
 nop
.block done
.fuel 4
 mov 0,%o0
 ta 0
`

var always = context.Background()

// most grants all that there is.
func most() geyserpan.Terms {
	return geyserpan.Terms{Turns: math.MaxUint64, Output: math.MaxUint64, Services: geyserpan.AllServices, Windows: 8}
}

// balanced fails a test that ends with more or fewer blocks of the library's memory than it began with.
func balanced(t *testing.T) {
	t.Helper()
	before := heap.Blocks()
	t.Cleanup(func() {
		if after := heap.Blocks(); after != before {
			t.Errorf("%d blocks before, %d after", before, after)
		}
	})
}

// file gives a file of the repository's examples.
func file(t testing.TB, name string) []byte {
	t.Helper()
	folder := os.Getenv("GEYSERPAN_EXAMPLES")
	if folder == "" {
		t.Skip("GEYSERPAN_EXAMPLES isn't set")
	}
	data, err := os.ReadFile(filepath.Join(folder, name))
	if err != nil {
		t.Fatal(err)
	}
	return data
}

// open opens an image for the time of a test.
func open(t testing.TB, data []byte, terms geyserpan.Terms) *geyserpan.Image {
	t.Helper()
	image, err := geyserpan.Open(data, terms)
	if err != nil {
		t.Fatal(err)
	}
	t.Cleanup(func() { image.Close() })
	return image
}

// echo hands on its input.
func echo(t testing.TB) *geyserpan.Image {
	return open(t, file(t, "echo/echo.img"), geyserpan.DefaultTerms())
}

func assembled(t testing.TB, source string) []byte {
	t.Helper()
	data, err := geyserpan.Assemble([]byte(source))
	if err != nil {
		t.Fatal(err)
	}
	return data
}

// answers fails where an image doesn't hand its input on.
func answers(t testing.TB, image *geyserpan.Image) {
	t.Helper()
	result, err := image.Run(always, []byte("abc"))
	if err != nil || string(result.Output) != "abc" {
		t.Fatalf("wanted abc, came %q, %v", result.Output, err)
	}
}

var (
	exitWord = regexp.MustCompile(`(?m)^end: exit with the word ([0-9A-F]{8})$`)
	allTurns = regexp.MustCompile(`(?m)^turns: (\d+) of `)
)

func TestExamples(t *testing.T) {
	balanced(t)
	names, _ := filepath.Glob(filepath.Join(os.Getenv("GEYSERPAN_EXAMPLES"), "*/*.ran"))
	tried := 0
	for _, path := range names {
		name := filepath.Base(strings.TrimSuffix(path, ".ran"))
		data, err := os.ReadFile(strings.TrimSuffix(path, "ran") + "img")
		if err != nil {
			continue
		}
		input, _ := os.ReadFile(strings.TrimSuffix(path, "ran") + "in")
		ran := file(t, name+"/"+name+".ran")
		word, _ := strconv.ParseUint(string(exitWord.FindSubmatch(ran)[1]), 16, 32)
		turns, _ := strconv.ParseUint(string(allTurns.FindSubmatch(ran)[1]), 10, 64)
		image := open(t, data, most())
		result, err := image.Run(always, input)
		if err != nil || !bytes.Equal(result.Output, file(t, name+"/"+name+".out")) || result.Exit != uint32(word) ||
			result.Turns != turns {
			t.Errorf("%s: %q, exit word %d, %d turns, %v", name, result.Output, result.Exit, result.Turns, err)
		}
		if image.SHA256() != sha256.Sum256(data) {
			t.Errorf("%s: its name isn't its hash", name)
		}
		tried++
	}
	if tried < 10 && len(names) > 0 {
		t.Errorf("tried %d examples", tried)
	}
}

// wants fails where an error isn't of a kind, or tells something else.
func wants(t *testing.T, err error, kind geyserpan.Status, text string) *geyserpan.Error {
	t.Helper()
	var told *geyserpan.Error
	if !errors.Is(err, kind) || !errors.As(err, &told) || err.Error() != "geyserpan: "+text {
		t.Fatalf("wanted %q, came %v", text, err)
	}
	return told
}

func TestRefusesAnImage(t *testing.T) {
	balanced(t)
	_, err := geyserpan.Open(nil, geyserpan.DefaultTerms())
	if told := wants(t, err, geyserpan.ErrNoImage, "image I1"); told.Number != 1 {
		t.Error(told.Number)
	}
	line, _, _ := strings.Cut(string(file(t, "refused/V1.told")), "\n")
	_, err = geyserpan.Open(file(t, "refused/V1.img"), geyserpan.DefaultTerms())
	told := wants(t, err, geyserpan.ErrRefused, line)
	numbers := fmt.Sprintf("refused V%d in function %d at %08X", told.Number, told.Function, told.Address)
	if numbers != line || errors.Is(err, geyserpan.ErrNoImage) {
		t.Errorf("wanted %q, came %q", line, numbers)
	}
	if _, err := geyserpan.Check(file(t, "refused/V1.img")); !errors.Is(err, geyserpan.ErrRefused) {
		t.Error(err)
	}
	_, err = geyserpan.Assemble([]byte("\nfrobnicate %o0\n"))
	if told := wants(t, err, geyserpan.ErrSource, "line 2: S1"); told.Address != 2 {
		t.Error(told.Address)
	}
}

func TestDeniesByTerms(t *testing.T) {
	balanced(t)
	data := file(t, "echo/echo.img")
	image, few := echo(t), geyserpan.DefaultTerms()
	few.Turns = 1000
	few.Services = geyserpan.Exit | geyserpan.Get
	for _, call := range []func() error{
		func() error { _, err := geyserpan.Open(data, few); return err },
		func() error { _, err := image.With(few); return err },
	} {
		wants(t, call(), geyserpan.ErrServices, "asks for exit, get and put; granted: exit and get")
	}
	few.Services = geyserpan.AllServices
	_, err := geyserpan.Open(data, few)
	wants(t, err, geyserpan.ErrTurns, "asks for 16,030 turns, 1,000 are granted")
	few.Windows = 3
	_, err = image.With(few)
	wants(t, err, geyserpan.ErrWindows, "no run on 3 windows: 4 to 32, in pieces on a board 8")
	if _, err := geyserpan.Open(data, geyserpan.Terms{}); !errors.Is(err, geyserpan.ErrWindows) {
		t.Errorf("terms of nothing: %v", err)
	}
}

func TestStopsAtTheOutputThatIsGranted(t *testing.T) {
	balanced(t)
	terms := geyserpan.DefaultTerms()
	terms.Output = 2
	image, err := echo(t).With(terms)
	if err != nil {
		t.Fatal(err)
	}
	defer image.Close()
	result, err := image.Run(always, []byte("abc"))
	wants(t, err, geyserpan.ErrOutput, "puts out more than the 2 bytes that are granted")
	if string(result.Output) != "ab" {
		t.Errorf("%q", result.Output)
	}
	var out bytes.Buffer
	if _, err := image.Filter(always, &out, strings.NewReader("abc")); !errors.Is(err, geyserpan.ErrOutput) {
		t.Error(err)
	}
	if out.String() != "ab" {
		t.Errorf("%q", out.String())
	}
	if _, err := image.Run(always, []byte("ab")); err != nil {
		t.Error(err)
	}
}

func TestWithSharesAnImage(t *testing.T) {
	balanced(t)
	first, err := geyserpan.Open(file(t, "echo/echo.img"), geyserpan.DefaultTerms())
	if err != nil {
		t.Fatal(err)
	}
	terms := geyserpan.DefaultTerms()
	terms.Windows = 4
	second, err := first.With(terms)
	if err != nil || second.Terms() != terms || second.SHA256() != first.SHA256() || second.Facts() != first.Facts() {
		t.Fatal(second, err)
	}
	first.Close()
	first.Close()
	answers(t, second)
	if _, err := first.With(terms); err != geyserpan.ErrClosed {
		t.Error(err)
	}
	second.Close()
	if _, err := second.Run(always, nil); err != geyserpan.ErrClosed {
		t.Error(err)
	}
}

func TestTellsTheTestThatEndedARun(t *testing.T) {
	source := ".services exit\n.function main,leaf,0,0,10\n.fuel 10\n sethi 64,%o0\n or %o0,7,%o0\n ta 0\n"
	result, err := open(t, assembled(t, source), most()).Run(always, nil)
	if kind, line := result.Test(); err != nil || kind != geyserpan.TestIndex || line != 7 || result.Exit != 0x10007 {
		t.Error(result, err)
	}
	if kind, line := (geyserpan.Result{Exit: 7}).Test(); kind != geyserpan.TestNone || line != 0 {
		t.Error(kind, line)
	}
}

func TestTakesSlicesThatOverlap(t *testing.T) {
	room := append(make([]byte, 0, 4096), "abcdefgh"...)
	result, err := echo(t).AppendRun(always, room[:0], room)
	if err != nil || string(result.Output) != "abcdefgh" {
		t.Errorf("%q, %v", result.Output, err)
	}
	result, err = echo(t).AppendRun(always, []byte("front "), []byte("abc"))
	if err != nil || string(result.Output) != "front abc" {
		t.Errorf("%q, %v", result.Output, err)
	}
}

func TestSteps(t *testing.T) {
	balanced(t)
	image := echo(t)
	session, err := image.Session()
	if err != nil {
		t.Fatal(err)
	}
	defer session.Close()
	var output []byte
	input, room, rounds := []byte("abcdef"), make([]byte, 2), 0
	for step := (geyserpan.Step{}); step.State != geyserpan.Ended; rounds++ {
		if step, err = session.Step(10, input, true, room); err != nil {
			t.Fatal(err)
		}
		output, input = append(output, room[:step.Written]...), input[step.Read:]
	}
	if string(output) != "abcdef" || rounds < 6 {
		t.Errorf("%q in %d rounds", output, rounds)
	}
	step, err := session.Step(10, []byte("more"), true, room)
	if err != nil || step.State != geyserpan.Ended || step.Read != 0 || step.Written != 0 {
		t.Error(step, err)
	}
	session.Close()
	if _, err := session.Step(10, nil, true, room); err != geyserpan.ErrClosed {
		t.Error(err)
	}
}

func TestFilter(t *testing.T) {
	balanced(t)
	image := open(t, file(t, "lower/lower.img"), most())
	text := strings.Repeat("Ab", 100_000)
	for name, source := range map[string]io.Reader{
		"whole":                  strings.NewReader(text),
		"a byte at a time":       iotest.OneByteReader(strings.NewReader(text)),
		"with its end at once":   iotest.DataErrReader(strings.NewReader(text)),
		"half of what is wanted": iotest.HalfReader(strings.NewReader(text)),
	} {
		var out bytes.Buffer
		result, err := image.Filter(always, &out, source)
		if err != nil || result.Exit != 0 || result.Turns == 0 || out.String() != strings.ToLower(text) {
			t.Errorf("%s: %v, %v, %d bytes", name, result, err, out.Len())
		}
	}
	broken := errors.New("broken")
	var out bytes.Buffer
	source := io.MultiReader(strings.NewReader("ABC"), iotest.ErrReader(broken))
	if _, err := image.Filter(always, &out, source); err != broken || out.String() != "abc" {
		t.Errorf("%q, %v", out.String(), err)
	}
	reader, err := image.Reader(always, strings.NewReader(text[:3000]))
	if err != nil {
		t.Fatal(err)
	}
	defer reader.Close()
	if err := iotest.TestReader(reader, []byte(strings.ToLower(text[:3000]))); err != nil {
		t.Error(err)
	}
}

func TestConverses(t *testing.T) {
	balanced(t)
	ours, theirs := io.Pipe()
	defer ours.Close()
	reader, err := echo(t).Reader(always, ours)
	if err != nil {
		t.Fatal(err)
	}
	defer reader.Close()
	room := make([]byte, 16)
	for _, line := range []string{"one\n", "two\n"} {
		go io.WriteString(theirs, line)
		if count, err := io.ReadAtLeast(reader, room, len(line)); err != nil || string(room[:count]) != line {
			t.Fatalf("%q, %v", room[:count], err)
		}
	}
}

func TestContextEndsARun(t *testing.T) {
	balanced(t)
	image := open(t, assembled(t, countdown), most())
	calls := map[string]func(context.Context) (geyserpan.Result, error){
		"run": func(ctx context.Context) (geyserpan.Result, error) { return image.Run(ctx, nil) },
		"filter": func(ctx context.Context) (geyserpan.Result, error) {
			return image.Filter(ctx, io.Discard, strings.NewReader(""))
		},
	}
	for name, call := range calls {
		ctx, cancel := context.WithTimeout(always, 50*time.Millisecond)
		defer cancel()
		result, err := call(ctx)
		if !errors.Is(err, context.DeadlineExceeded) || result.Turns == 0 || result.Turns > image.Facts().Budget/4 {
			t.Errorf("%s: %v after %d turns", name, err, result.Turns)
		}
	}
}

func TestGoroutinesShareAnImage(t *testing.T) {
	balanced(t)
	image := echo(t)
	var group sync.WaitGroup
	defer group.Wait()
	for n := 0; n < 8; n++ {
		group.Add(1)
		go func(input []byte) {
			defer group.Done()
			for i := 0; i < 300; i++ {
				result, err := image.Run(always, input)
				if err != nil || !bytes.Equal(result.Output, input) {
					t.Errorf("%q, %v", result.Output, err)
					return
				}
				var out bytes.Buffer
				if _, err := image.Filter(always, &out, bytes.NewReader(input)); err != nil || out.String() != string(input) {
					t.Errorf("%q, %v", out.String(), err)
					return
				}
				if other, err := image.With(geyserpan.DefaultTerms()); err != nil || other.Close() != nil {
					t.Error(err)
					return
				}
			}
		}(bytes.Repeat([]byte{byte('A' + n)}, 50))
	}
}

func BenchmarkRun(b *testing.B) {
	image, input := echo(b), []byte("0123456789AB")
	b.RunParallel(func(some *testing.PB) {
		room := make([]byte, 0, 64)
		for some.Next() {
			if _, err := image.AppendRun(always, room, input); err != nil {
				b.Fatal(err)
			}
		}
	})
}

// isNative tells whether the runs of an image go by an object: a step of one turn is more than that.
func isNative(t *testing.T, image *geyserpan.Image) bool {
	t.Helper()
	session, err := image.Session()
	if err != nil {
		t.Fatal(err)
	}
	defer session.Close()
	step, err := session.Step(1, []byte("abc"), true, make([]byte, 8))
	if err != nil {
		t.Fatal(err)
	}
	return step.Turns > 1
}

func TestNative(t *testing.T) {
	balanced(t)
	object, data := os.Getenv("GEYSERPAN_OBJECT"), file(t, "echo/echo.img")
	if object == "" {
		t.Skip("GEYSERPAN_OBJECT isn't set")
	}
	image, plain := open(t, data, most()), open(t, data, most())
	more, err := image.With(most())
	if err != nil {
		t.Fatal(err)
	}
	t.Cleanup(func() { more.Close() })
	if isNative(t, image) {
		t.Error("it goes by an object before it was given one")
	}
	if err := image.Native(object); err != nil {
		t.Fatal(err)
	}
	if !isNative(t, image) || !isNative(t, more) || isNative(t, plain) {
		t.Error("wanted that these images go by the object, and no other")
	}
	wanted, _ := plain.Run(always, data)
	if came, err := image.Run(always, data); err != nil || !bytes.Equal(came.Output, wanted.Output) ||
		came.Turns != wanted.Turns {
		t.Errorf("wanted %d turns, came %d, %v", wanted.Turns, came.Turns, err)
	}
	refused := map[string]error{"/nowhere": geyserpan.ErrNoFile, "a\x00b": geyserpan.ErrNoFile, "/": geyserpan.ErrNoObject}
	for path, wanted := range refused {
		if err := image.Native(path); !errors.Is(err, wanted) || !isNative(t, image) {
			t.Errorf("%q: wanted %v, came %v", path, wanted, err)
		}
	}
	other := open(t, file(t, "hello/hello.img"), most())
	if err := other.Native(object); !errors.Is(err, geyserpan.ErrObjectImage) {
		t.Errorf("another image: came %v", err)
	}
	other.Close()
	if err := other.Native(object); !errors.Is(err, geyserpan.ErrClosed) {
		t.Errorf("a closed image: came %v", err)
	}
}
