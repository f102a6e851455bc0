package geyserpan

// #include "geyserpan.h"
import "C"

// Services are what a program may ask its host for, a sum.
type Services uint32

// The services: to end, to read a byte of the input, to write a byte of the output, and all of them.
const (
	Exit        Services = C.GEYSERPAN_EXIT
	Get         Services = C.GEYSERPAN_GET
	Put         Services = C.GEYSERPAN_PUT
	AllServices Services = C.GEYSERPAN_ALL_SERVICES
)

// Terms are what a host grants: turns, bytes of output and services, and on how many register windows turns are
// counted, 4 to 32. A field grants what it says, and 0 nothing: begin with DefaultTerms.
type Terms struct {
	Turns, Output uint64
	Services      Services
	Windows       uint32
}

// DefaultTerms grant a million turns, some milliseconds, 65,536 bytes of output and all services, on 8 windows.
func DefaultTerms() Terms {
	return Terms{Turns: 1_000_000, Output: 65_536, Services: AllServices, Windows: 8}
}

func (t Terms) c() C.geyserpan_terms {
	return C.geyserpan_terms{turns: C.uint64_t(t.Turns), output: C.uint64_t(t.Output),
		services: C.uint32_t(t.Services), windows: C.uint32_t(t.Windows)}
}

// Facts are what an image declares and is made of.
type Facts struct {
	Budget     uint64 // the turns within which each run ends
	Services   Services
	Version    uint32 // of its format
	Words      uint32 // of its code
	DataBytes  uint32
	StackPages uint32
	Functions  uint32
	Depth      uint32 // of calls, as the first function declares it; 0 before version 3
}

func factsOf(told C.geyserpan_facts) Facts {
	return Facts{uint64(told.budget), Services(told.services), uint32(told.version), uint32(told.words),
		uint32(told.data_bytes), uint32(told.stack_pages), uint32(told.functions), uint32(told.depth)}
}

func (f Facts) c() C.geyserpan_facts {
	return C.geyserpan_facts{budget: C.uint64_t(f.Budget), services: C.uint32_t(f.Services)}
}

// Result is what a run gave.
type Result struct {
	Output []byte // nil where it was written to a stream
	Exit   uint32
	Turns  uint64
}

// Test is a kind of test that the front end puts into a program from C.
type Test uint32

// The tests: none; an index that leaves its object; a pointer that leaves the data; a divisor of 0; loops that have
// used up their turns; calls that go too deep; a call through a pointer that is no function's.
const (
	TestNone    Test = C.GEYSERPAN_TEST_NONE
	TestIndex   Test = C.GEYSERPAN_TEST_INDEX
	TestPointer Test = C.GEYSERPAN_TEST_POINTER
	TestDivisor Test = C.GEYSERPAN_TEST_DIVISOR
	TestLoops   Test = C.GEYSERPAN_TEST_LOOPS
	TestDepth   Test = C.GEYSERPAN_TEST_DEPTH
	TestCall    Test = C.GEYSERPAN_TEST_CALL
)

// Test tells by which test the run ended, and the test's line of the source; any program may end with such a word of
// its own.
func (r Result) Test() (kind Test, line int) {
	if kind = Test(C.geyserpan_exit_kind(C.uint32_t(r.Exit))); kind != TestNone {
		line = int(r.Exit & 0xFFFF)
	}
	return kind, line
}
