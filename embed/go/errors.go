package geyserpan

// #include "geyserpan.h"
import "C"

import "errors"

// Status is an answer of the library that refuses. An *Error wraps it, so that errors.Is(err, ErrTurns) tells of any
// error of that kind.
type Status uint32

// The statuses that refuse.
const (
	ErrNoImage  Status = C.GEYSERPAN_NO_IMAGE // the bytes are no image
	ErrRefused  Status = C.GEYSERPAN_REFUSED  // the image breaks a rule
	ErrMemory   Status = C.GEYSERPAN_MEMORY   // memory was refused
	ErrWindows  Status = C.GEYSERPAN_WINDOWS  // there is no such count of windows
	ErrServices Status = C.GEYSERPAN_SERVICES // the image declares a service that isn't granted
	ErrTurns    Status = C.GEYSERPAN_TURNS    // the image declares more turns than are granted
	ErrSource   Status = C.GEYSERPAN_SOURCE   // the source has a fault
	ErrOutput   Status = C.GEYSERPAN_OUTPUT   // the run puts out more than is granted

	ErrNoFile       Status = C.GEYSERPAN_FILE          // there is no file of an object, or it can't be read
	ErrNoObject     Status = C.GEYSERPAN_OBJECT        // the file is no object of native code
	ErrObjectABI    Status = C.GEYSERPAN_OBJECT_ABI    // the object is of another version
	ErrObjectImage  Status = C.GEYSERPAN_OBJECT_IMAGE  // the object was made of another image
	ErrObjectCounts Status = C.GEYSERPAN_OBJECT_COUNTS // the object doesn't count turns
)

// What is told of a use that isn't the image's or the run's fault.
var (
	ErrClosed = errors.New("geyserpan: it was closed")
	ErrBusy   = errors.New("geyserpan: another goroutine is within a step of this session")
	ErrABI    = errors.New("geyserpan: the library has another ABI than its header")
)

// Error tells the status in words.
func (s Status) Error() string {
	switch s {
	case ErrNoImage:
		return "geyserpan: the bytes are no image"
	case ErrRefused:
		return "geyserpan: the image breaks a rule"
	case ErrSource:
		return "geyserpan: the source has a fault"
	}
	return "geyserpan: " + textOf(C.uint32_t(s), C.geyserpan_why{})
}

// Error is a status with what is wrong: of ErrRefused the Number of the rule, in Function at Address; of ErrNoImage
// that of the fault; of ErrSource that of the cause, at the line Address.
type Error struct {
	Status                    Status
	Number, Function, Address uint32
	text                      string
}

// Error tells what is wrong, with its numbers.
func (e *Error) Error() string { return "geyserpan: " + e.text }

// Unwrap gives the status.
func (e *Error) Unwrap() error { return e.Status }

func textOf(status C.uint32_t, why C.geyserpan_why) string {
	room := make([]byte, 96)
	return string(room[:C.geyserpan_why_text(status, &why, first(room), C.size_t(len(room)))])
}

// refused is the error of a status with the numbers that tell why.
func refused(status C.uint32_t, why C.geyserpan_why) error {
	return &Error{Status(status), uint32(why.number), uint32(why.function), uint32(why.address), textOf(status, why)}
}

// denied is the error of a status of terms, with both numbers.
func denied(status C.uint32_t, facts Facts, terms Terms) error {
	room, asked, granted := make([]byte, 96), facts.c(), terms.c()
	length := C.geyserpan_terms_text(status, &asked, &granted, first(room), C.size_t(len(room)))
	return &Error{Status: Status(status), text: string(room[:length])}
}
