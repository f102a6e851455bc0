// Package geyserpan runs machine code that you don't trust inside your own process.
//
// An image is verified before its first instruction runs: it ends within the turns that it declares, and reaches
// nothing but its own memory, its input and its output.
//
//	terms := geyserpan.DefaultTerms()
//	terms.Turns = 100_000
//	image, err := geyserpan.Open(data, terms)            // verified here, once
//	result, err := image.Run(ctx, []byte("HAL"))         // result.Output is "IBM"
//	result, err = image.Filter(ctx, os.Stdout, os.Stdin) // a stream, in fixed memory
//
// Any goroutine may use an Image at any time. A run is a function of image, input and terms, turns included: run it
// again, or twice, anywhere. It is made on the library's engine, or by an object of native code where the image was
// given one. A context that is done ends it within some milliseconds; without one it ends within the turns that the
// image declares, which is proved of the engine.
package geyserpan

// #include "geyserpan.h"
import "C"

import "context"

// Image is an image that was verified, and the terms of its runs. Any goroutine may use it at any time. One that
// nobody holds any more is let go by the collector.
type Image struct {
	opened *opened
	terms  Terms
	closed bool // guarded by the mutex of what was opened
}

// Open verifies an image and compares it with the terms. The bytes aren't needed after it.
func Open(data []byte, terms Terms) (*Image, error) {
	if C.geyserpan_abi() != C.GEYSERPAN_ABI {
		return nil, ErrABI
	}
	made, status, why := open(data, terms)
	switch Status(status) {
	case C.GEYSERPAN_OK:
		return made.enter(terms), nil
	case ErrWindows:
		return nil, denied(status, Facts{}, terms)
	case ErrServices, ErrTurns:
		facts, err := Check(data)
		if err != nil {
			return nil, err
		}
		return nil, denied(status, facts, terms)
	}
	return nil, refused(status, why)
}

// With gives the same image on other terms, which then may deny it: a tenant's own, say. It isn't verified again, and
// is closed by itself.
func (i *Image) With(terms Terms) (*Image, error) {
	taken, err := i.begin(terms)
	if err != nil {
		return nil, err
	}
	other := i.opened.enter(terms)
	i.opened.give(taken)
	return other, nil
}

// Native has the runs that are begun from now on, of this image and of those that With made of it, go by the shared
// object that "native build" made of it. Their outputs and counts are the same; a step may make more turns than it is
// allowed. The object is run in this process: load what you built yourself, and don't write to its file meanwhile.
func (i *Image) Native(path string) error { return i.opened.goBy(i, path) }

// begin begins a run on these terms.
func (i *Image) begin(terms Terms) (*pair, error) {
	taken, err := i.opened.take(i)
	if err != nil {
		return nil, err
	}
	granted := terms.c()
	if status := C.geyserpan_engine_begin_with(&taken.engine, &taken.image, &granted); status != C.GEYSERPAN_OK {
		i.opened.give(taken)
		return nil, denied(status, i.opened.facts, terms)
	}
	return taken, nil
}

// Terms are those of its runs.
func (i *Image) Terms() Terms { return i.terms }

// Facts are what the image declares and is made of.
func (i *Image) Facts() Facts { return i.opened.facts }

// SHA256 is its name, the SHA-256 of its bytes.
func (i *Image) SHA256() [32]byte { return i.opened.name }

// Close lets the image go. Runs that are under way end as they would; later ones are told ErrClosed.
func (i *Image) Close() error {
	i.opened.leave(i)
	return nil
}

// Run runs the image to its end on an input.
func (i *Image) Run(ctx context.Context, input []byte) (Result, error) {
	return i.AppendRun(ctx, make([]byte, 0, 256), input)
}

// AppendRun does what Run does, and has the output stand behind what dst holds. With an error that is what was put out
// until then.
func (i *Image) AppendRun(ctx context.Context, dst, input []byte) (Result, error) {
	session, err := i.Session()
	if err != nil {
		return Result{Output: dst}, err
	}
	defer session.Close()
	for {
		if len(dst) == cap(dst) {
			dst = append(dst, 0)[:len(dst)]
		}
		step, err := session.Step(slice, input, true, dst[len(dst):cap(dst)])
		dst, input = dst[:len(dst)+step.Written], input[step.Read:]
		if err == nil && step.State != Ended {
			err = ctx.Err()
		}
		if err != nil || step.State == Ended {
			return Result{dst, step.Exit, step.Turns}, err
		}
	}
}
