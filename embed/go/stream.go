package geyserpan

import (
	"context"
	"io"
)

// Reader gives what an image puts out on what it reads from a source. It is used by one goroutine at a time.
type Reader struct {
	ctx     context.Context
	source  io.Reader
	session *Session
	room    []byte
	piece   []byte // of the room, what isn't read
	ended   error  // what the source gave behind the piece
	step    Step
	err     error
}

// Reader begins a run over a source, which it reads as the program asks for more. A context that is done ends the run,
// but not a Read of the source that is under way.
func (i *Image) Reader(ctx context.Context, source io.Reader) (*Reader, error) {
	session, err := i.Session()
	if err != nil {
		return nil, err
	}
	return &Reader{ctx: ctx, source: source, session: session, room: make([]byte, 32<<10)}, nil
}

// Read gives what the image puts out next; io.EOF where it has ended.
func (r *Reader) Read(room []byte) (int, error) {
	if len(room) == 0 {
		return 0, nil
	}
	for r.err == nil {
		if r.err = r.ctx.Err(); r.err != nil {
			break
		}
		r.step, r.err = r.session.Step(slice, r.piece, r.ended == io.EOF, room)
		r.piece = r.piece[r.step.Read:]
		if r.err == nil && r.step.State == Ended {
			r.err = io.EOF
		}
		if r.step.Written > 0 {
			return r.step.Written, nil
		}
		if r.err == nil && r.step.State == Wants {
			r.fill()
		}
	}
	return 0, r.err
}

// fill takes the next piece of the source, or the error that came behind the last one.
func (r *Reader) fill() {
	if r.ended != nil {
		r.err = r.ended
		return
	}
	var count int
	count, r.ended = r.source.Read(r.room)
	r.piece = r.room[:count]
}

// Result tells exit word and turns, once Read has given io.EOF.
func (r *Reader) Result() Result { return Result{nil, r.step.Exit, r.step.Turns} }

// Close lets the run go.
func (r *Reader) Close() error { return r.session.Close() }

// Filter runs the image over streams, in memory that doesn't grow: it reads as the program asks for input, and hands
// on what that puts out before it reads on.
func (i *Image) Filter(ctx context.Context, dst io.Writer, src io.Reader) (Result, error) {
	reader, err := i.Reader(ctx, src)
	if err != nil {
		return Result{}, err
	}
	defer reader.Close()
	_, err = io.Copy(dst, reader)
	return reader.Result(), err
}
