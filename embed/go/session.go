package geyserpan

// #include "geyserpan.h"
import "C"

import (
	"sync"
	"unsafe"
)

// slice is how many turns are made between two looks at a context: some milliseconds.
const slice = 1_000_000

// State is why a step ended.
type State uint32

// The states that a step leaves a run in: it has ended; it has read the piece and asks for more; the room is full, and
// there is more to put out; the turns are made.
const (
	Ended  State = C.GEYSERPAN_ENDED
	Wants  State = C.GEYSERPAN_WANTS
	Full   State = C.GEYSERPAN_FULL
	Paused State = C.GEYSERPAN_PAUSED
)

// Step is what a step did: the bytes of the piece that it read, those that it wrote to the front of the room, the
// turns of the run so far, and the exit word, 0 but with Ended.
type Step struct {
	State         State
	Read, Written int
	Turns         uint64
	Exit          uint32
}

// Session is a run in pieces, which never waits. It is used by one goroutine at a time; a step beside another one is
// told ErrBusy.
type Session struct {
	opened *opened
	terms  Terms

	mutex        sync.Mutex // guards what stands below it
	taken        *pair
	busy, closed bool
}

// Session begins a run.
func (i *Image) Session() (*Session, error) {
	taken, err := i.begin(i.terms)
	if err != nil {
		return nil, err
	}
	return &Session{opened: i.opened, terms: i.terms, taken: taken}, nil
}

// enter has the session for one step.
func (s *Session) enter() error {
	s.mutex.Lock()
	defer s.mutex.Unlock()
	switch {
	case s.closed:
		return ErrClosed
	case s.busy:
		return ErrBusy
	}
	s.busy = true
	return nil
}

// leave ends that. Where the session was closed meanwhile, its handles go now.
func (s *Session) leave() {
	s.mutex.Lock()
	defer s.mutex.Unlock()
	s.busy = false
	s.release()
}

func (s *Session) release() {
	if s.closed && !s.busy && s.taken != nil {
		s.opened.give(s.taken)
		s.taken = nil
	}
}

// Step goes on for at most so many turns, with the next piece of the input, behind which there is none where last is
// set. An error stops the run, but for ErrMemory, behind which another step goes on; what the step read and wrote
// until then stands with each error. With ErrOutput all that is granted was written.
func (s *Session) Step(turns uint64, piece []byte, last bool, room []byte) (Step, error) {
	if err := s.enter(); err != nil {
		return Step{}, err
	}
	defer s.leave()
	if overlap(piece, room) {
		piece = append([]byte(nil), piece...)
	}
	var end C.uint32_t
	if last {
		end = 1
	}
	var done C.geyserpan_done
	status := C.geyserpan_engine_step(&s.taken.engine, C.uint64_t(turns), first(piece), C.size_t(len(piece)), end,
		first(room), C.size_t(len(room)), &done)
	step := Step{State(status), int(done.read), int(done.written), uint64(done.turns), uint32(done.exit)}
	switch step.State {
	case Ended, Wants, Full, Paused:
		return step, nil
	}
	return step, denied(status, s.opened.facts, s.terms)
}

// overlap tells whether two slices have a byte in common.
func overlap(one, other []byte) bool {
	if len(one) == 0 || len(other) == 0 {
		return false
	}
	at, to := uintptr(unsafe.Pointer(&one[0])), uintptr(unsafe.Pointer(&other[0]))
	return at < to+uintptr(len(other)) && to < at+uintptr(len(one))
}

// Close lets the run go; beside a step, once that has ended.
func (s *Session) Close() error {
	s.mutex.Lock()
	defer s.mutex.Unlock()
	s.closed = true
	s.release()
	return nil
}
