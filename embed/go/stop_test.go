package geyserpan_test

import (
	"bytes"
	"context"
	"errors"
	"io"
	"runtime"
	"strings"
	"sync"
	"testing"
	"time"

	"geyserpan.example/geyserpan"
	"geyserpan.example/geyserpan/internal/heap"
)

// planned fails at the call behind so many: by a panic, or by an error.
type planned struct {
	left   int
	panics bool
	failed bool
}

var errPlanned = errors.New("planned")

func (p *planned) next() error {
	if p.left--; p.left >= 0 {
		return nil
	}
	p.failed = true
	if p.panics {
		panic(errPlanned)
	}
	return errPlanned
}

// A source, a sink and a context that fail as planned.
type (
	source struct {
		*planned
		io.Reader
	}
	sink struct {
		*planned
		io.Writer
	}
	looks struct {
		*planned
		context.Context
	}
)

func (s source) Read(room []byte) (int, error) {
	if err := s.next(); err != nil {
		return 0, err
	}
	return s.Reader.Read(room[:3])
}

func (s sink) Write(bytes []byte) (int, error) {
	if err := s.next(); err != nil {
		return 0, err
	}
	return s.Writer.Write(bytes)
}

func (l looks) Err() error { return l.next() }

// caught gives the error of a call, or what it panicked with.
func caught(call func() error) (err error) {
	defer func() {
		if value := recover(); value != nil {
			err = value.(error)
		}
	}()
	return call()
}

// TestStoppedAtEveryPoint stops a run at each read, each write and each look at the context, by an error and by a
// panic: each leaves a usable image, and nothing of the run.
func TestStoppedAtEveryPoint(t *testing.T) {
	balanced(t)
	image, text := open(t, file(t, "echo/echo.img"), most()), strings.Repeat("abcdefgh", 100)
	calls := map[string]func(*planned) error{
		"read": func(p *planned) error {
			_, err := image.Filter(always, io.Discard, source{p, strings.NewReader(text)})
			return err
		},
		"write": func(p *planned) error {
			_, err := image.Filter(always, sink{p, io.Discard}, source{&planned{left: 1 << 30}, strings.NewReader(text)})
			return err
		},
		"look": func(p *planned) error {
			_, err := image.Filter(looks{p, always}, io.Discard, strings.NewReader(text))
			return err
		},
		"look of a run": func(p *planned) error {
			_, err := image.AppendRun(looks{p, always}, nil, []byte(text))
			return err
		},
	}
	for name, call := range calls {
		points := 0
		for _, panics := range []bool{false, true} {
			for at := 0; ; at++ {
				plan := &planned{left: at, panics: panics}
				err := caught(func() error { return call(plan) })
				answers(t, image)
				if plan.failed != (err == errPlanned) || !plan.failed && err != nil {
					t.Fatalf("%s %d: %v", name, at, err)
				}
				if !plan.failed {
					break
				}
				points++
			}
		}
		if points < 2 {
			t.Errorf("%s: %d points", name, points)
		}
		t.Logf("%s: stopped at %d points", name, points)
	}
}

// TestRefusedGrowths refuses each growth of memory in turn: each is told, and the same call succeeds behind it.
func TestRefusedGrowths(t *testing.T) {
	defer heap.Refuse(-1)
	data, text := file(t, "echo/echo.img"), strings.Repeat("a", 900)
	for at := 0; ; at++ {
		before := heap.Blocks()
		heap.Refuse(at)
		var out bytes.Buffer
		err := func() error {
			image, err := geyserpan.Open(data, most())
			if err != nil {
				return err
			}
			defer image.Close()
			if _, err = image.Filter(always, &out, strings.NewReader(text)); err != nil {
				heap.Refuse(-1)
				answers(t, image)
			}
			return err
		}()
		asked := heap.Asked()
		if after := heap.Blocks(); after != before {
			t.Fatalf("growth %d: %d blocks before, %d after", at, before, after)
		}
		if err == nil && out.String() == text && asked <= at {
			t.Logf("refused in turn: %d growths", at)
			return
		}
		if !errors.Is(err, geyserpan.ErrMemory) {
			t.Fatalf("growth %d: %v", at, err)
		}
	}
}

// TestStepsGoOnBehindRefusedGrowths refuses each growth that the steps of a session ask for.
func TestStepsGoOnBehindRefusedGrowths(t *testing.T) {
	balanced(t)
	defer heap.Refuse(-1)
	image := open(t, file(t, "deep/deep.img"), most())
	wanted, err := image.Run(always, nil)
	if err != nil {
		t.Fatal(err)
	}
	for at, refused := 0, true; refused; at++ {
		session, err := image.Session()
		if err != nil {
			t.Fatal(err)
		}
		heap.Refuse(at)
		refused = false
		var output []byte
		for room, step := make([]byte, 7), (geyserpan.Step{}); step.State != geyserpan.Ended; {
			step, err = session.Step(100_000, nil, true, room)
			output = append(output, room[:step.Written]...)
			if errors.Is(err, geyserpan.ErrMemory) {
				refused = true
			} else if err != nil {
				t.Fatal(err)
			}
		}
		heap.Refuse(-1)
		session.Close()
		if !bytes.Equal(output, wanted.Output) {
			t.Fatalf("growth %d: wanted %q, came %q", at, wanted.Output, output)
		}
		if !refused {
			t.Logf("refused in turn: %d growths of steps", at)
		}
	}
}

func TestCloseBesideRuns(t *testing.T) {
	balanced(t)
	data := file(t, "echo/echo.img")
	input := bytes.Repeat([]byte("x"), 500)
	for round := 0; round < 50; round++ {
		image, err := geyserpan.Open(data, most())
		if err != nil {
			t.Fatal(err)
		}
		var group sync.WaitGroup
		for n := 0; n < 8; n++ {
			group.Add(1)
			go func() {
				defer group.Done()
				for {
					result, err := image.Run(always, input)
					if err == geyserpan.ErrClosed {
						return
					}
					if err != nil || !bytes.Equal(result.Output, input) {
						t.Errorf("%q, %v", result.Output, err)
						return
					}
				}
			}()
		}
		time.Sleep(time.Duration(round) * 20 * time.Microsecond)
		image.Close()
		group.Wait()
	}
}

func TestOneSessionInManyGoroutines(t *testing.T) {
	balanced(t)
	image := open(t, assembled(t, countdown), most())
	session, err := image.Session()
	if err != nil {
		t.Fatal(err)
	}
	var group sync.WaitGroup
	busy := make(chan error, 1000)
	for n := 0; n < 8; n++ {
		group.Add(1)
		go func(n int) {
			defer group.Done()
			for i := 0; i < 50; i++ {
				step, err := session.Step(100_000, nil, true, nil)
				if err == nil && step.State != geyserpan.Paused {
					t.Error(step)
				} else if err != nil {
					busy <- err
				}
			}
			session.Close()
		}(n)
	}
	group.Wait()
	close(busy)
	for err := range busy {
		if err != geyserpan.ErrBusy && err != geyserpan.ErrClosed {
			t.Error(err)
		}
	}
}

// TestCollector has images and sessions go that nobody closes.
func TestCollector(t *testing.T) {
	runtime.GC()
	data, before := file(t, "echo/echo.img"), heap.Blocks()
	for i := 0; i < 100; i++ {
		image, err := geyserpan.Open(data, most())
		if err != nil {
			t.Fatal(err)
		}
		session, err := image.Session()
		if err != nil {
			t.Fatal(err)
		}
		if _, err := session.Step(1000, []byte("abc"), false, make([]byte, 8)); err != nil {
			t.Fatal(err)
		}
		answers(t, image)
	}
	held := heap.Blocks()
	for until := time.Now().Add(20 * time.Second); heap.Blocks() != before && time.Now().Before(until); {
		runtime.GC()
		time.Sleep(time.Millisecond)
	}
	if after := heap.Blocks(); held <= before || after != before {
		t.Errorf("%d blocks before, %d held, %d after", before, held, after)
	}
}
